"""What tests of interrupts share: calls of each class, and an exception at each line of Python that one of them runs.

A ``Subject`` is one call: how what it is called of is made, what is seen of that, and a call behind it. ``faults`` raises at each line in
turn, keeps the exception over the calls that follow, and says what they find: the call was done or it was not, this thread and others
are served, and nothing changes once the exception is gone.
"""
import gc
import os
import sys
import threading

# how long a thread that is served may take on a machine that is busy
SECONDS = 20


class Interrupt(BaseException):
    """What a signal's handler raises here."""


class Subject:
    def __init__(self, name, make, call, see, after, reopen=None):
        self.name = name
        self.make = make
        self.call = call
        self.see = see
        self.after = after
        # where an interrupted call may leave what has to be opened again, and says so by a ValueError
        self.reopen = reopen


def traced(call, at, by_instruction=False):
    """Calls, with what is to be called at each place of it: a line, the begin or the end of a function."""

    def trace(frame, event, arg):
        if by_instruction:
            frame.f_trace_opcodes = True
        # of a signal's handler nothing comes where a function returns or where what was raised goes on
        if event in ("call", "line", "opcode"):
            at(frame, event)
        return trace

    before = sys.gettrace()
    try:
        sys.settrace(trace)
        call()
        sys.settrace(before)
    finally:
        sys.settrace(before)


def interrupted(place, call, by_instruction=False):
    """Calls, and raises at a place: the exception, and None where the call was done before. One that comes where Python ends an object is
    written to standard error, and is none of the call's."""
    left = place

    def at(frame, event):
        nonlocal left
        left -= 1
        if left == 0:
            raise Interrupt

    try:
        traced(call, at, by_instruction)
        return None
    except Interrupt as error:
        return error


def places_of(subject, by_instruction, every):
    """The places of a call: each line when it comes there first, or every place."""
    first, count = {}, 0

    def at(frame, event):
        nonlocal count
        count += 1
        if by_instruction or event == "line":
            first.setdefault((frame.f_code, frame.f_lasti if by_instruction else frame.f_lineno), count)

    made = subject.make()
    traced(lambda: subject.call(made), at, by_instruction)
    return range(1, count + 1) if every else sorted(set(first.values()))


def in_thread(call, seconds=SECONDS):
    """What the call returns in another thread; None where it does not return."""
    found = []
    thread = threading.Thread(target=lambda: found.append(call()), daemon=True)
    thread.start()
    thread.join(seconds)
    return found[0] if found else None


def of(subject, made):
    """What is seen of an object, which is opened again where it says that it has to be."""
    try:
        return made, subject.see(made)
    except ValueError:
        if subject.reopen is None:
            raise
        made = subject.reopen(made)
        return made, subject.see(made)


def fault_at(subject, place, states, by_instruction=False, seconds=SECONDS):
    """What is wrong after an interrupt at a place, or None."""
    made = subject.make()
    kept = interrupted(place, lambda: subject.call(made), by_instruction)
    where = "%s, place %d" % (subject.name, place)
    if kept is not None:
        trace = kept.__traceback__
        while trace.tb_next is not None:
            trace = trace.tb_next
        here = trace.tb_frame if trace.tb_frame.f_code.co_name != "trace" else trace.tb_frame.f_back
        where += " (%s:%d)" % (os.path.basename(here.f_code.co_filename), here.f_lineno)
    try:
        store = getattr(made, "_store", None)
        if not by_instruction and store is not None and store.base.in_transaction:
            return where + ": a transaction is left, which the end of the exception may end within another one"
        # of each object the thread that was interrupted is asked first: what is left of a turn between two instructions it gives back
        if not by_instruction and in_thread(lambda: of(subject, made), seconds) is None:
            return where + ": no other thread is served"
        made, seen = of(subject, made)
        if seen not in states:
            return where + ": neither as before the call nor as after it"
        subject.after(made)
        then = subject.see(made)
        if then != states[seen]:
            return where + ": the next call was not done"
        kept = trace = here = None
        gc.collect()
        if in_thread(lambda: subject.see(made), seconds) != then:
            return where + ": otherwise once the exception was gone"
        return None
    except Exception as error:
        return where + ": %r" % error
    finally:
        kept = None
        close = getattr(made, "close", None)
        if close is not None:
            try:
                close()
            except Exception:
                # it was said above
                pass


def states_of(subject):
    """What is seen before the call and after it, with what is seen behind the call that follows."""
    states = {}
    for calls in (False, True):
        made = subject.make()
        if calls:
            subject.call(made)
        made, seen = of(subject, made)
        subject.after(made)
        states[seen] = subject.see(made)
    return states


def faults(subject, by_instruction=False, most=None, seconds=SECONDS, every=False, step=1):
    """All that is wrong, at most so many, and the count of places."""
    states, found = states_of(subject), []
    places = places_of(subject, by_instruction, every)[::step]
    for place in places:
        fault = fault_at(subject, place, states, by_instruction, seconds)
        if fault is not None:
            found.append(fault)
        if most is not None and len(found) >= most:
            break
    return found, len(places)
