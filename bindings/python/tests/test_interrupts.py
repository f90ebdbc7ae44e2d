"""Interrupts: an exception of a signal's handler at each line of each call that takes a turn or a transaction."""
import contextlib
import gc
import os
import random
import signal
import tempfile
import threading
import time
import unittest
from unittest import mock

from paxidore import Log, Map, _batch, _nodes, _turn, hashes
from interrupted_calls import KEYS, of_hashes, of_logs, of_maps, of_poseidon, of_transcripts, of_trees, sha
from interrupts import Interrupt, faults, in_thread, interrupted, of, traced

# for how many seconds timers interrupt each class; where it is named, each place is taken each time that a call comes to it
SECONDS = float(os.environ.get("PAXIDORE_INTERRUPTS", "2"))
IS_LONG = "PAXIDORE_INTERRUPTS" in os.environ


def folder_of(test):
    # where a sync costs little, if there is such a place: what is lost with the power is no matter here
    folder = tempfile.TemporaryDirectory(dir="/dev/shm" if os.access("/dev/shm", os.W_OK) else None)
    test.addCleanup(folder.cleanup)
    return folder.name


class AtEachLine(unittest.TestCase):
    def setUp(self):
        self.folder = folder_of(self)

    def assert_sound(self, subjects, by_instruction=False, step=1):
        for subject in subjects:
            with self.subTest(subject.name):
                found, count = faults(subject, by_instruction, every=IS_LONG, step=1 if IS_LONG else step)
                self.assertEqual(found, [])
                self.assertGreater(count, 0)

    def test_hashes(self):
        self.assert_sound(of_hashes())

    def test_transcripts(self):
        self.assert_sound(of_transcripts())

    def test_trees(self):
        self.assert_sound(of_trees(self.folder))

    def test_logs(self):
        self.assert_sound(of_logs(self.folder))

    def test_logs_of_poseidon(self):
        self.assert_sound(of_poseidon())

    def test_maps_in_memory(self):
        self.assert_sound(of_maps(self.folder, False))

    def test_maps_in_files(self):
        self.assert_sound([each for each in of_maps(self.folder, True) if IS_LONG or "prove" not in each.name])

    def test_each_instruction(self):
        """Between two instructions of which no signal's handler comes, a trace function can leave a turn: its thread's next call gives it back."""
        subjects = of_hashes() + of_logs(self.folder)[:2] + of_poseidon()[:1] + of_maps(self.folder, False)[:2]
        self.assert_sound(subjects, True, 5)


class OldTurn(_turn.Turn):
    """A turn that is taken and given back in Python, line by line."""

    __slots__ = ("_is_taken",)

    def run(self, call, *given):
        with self:
            return call(*given)

    def __enter__(self):
        self._lock.acquire()
        if getattr(self, "_is_taken", False):
            self._lock.release()
            raise RuntimeError("this thread is in a call already")
        self._is_taken = True

    def __exit__(self, *error):
        self._is_taken = False
        self._lock.release()


@contextlib.contextmanager
def old_look_up(store, begin):
    """A transaction that a generator ends: as long as its exception is kept, it is left where an interrupt found it."""
    try:
        store.settle()
        store.base.execute(begin)
        yield
        if begin != "BEGIN":
            store.base.execute("COMMIT")
    finally:
        store.settle()


def old_within(store, begin, call, given):
    with old_look_up(store, begin):
        return call(*given)


class Planted(unittest.TestCase):
    """The test above finds what it is for."""

    def test_a_turn_in_python(self):
        with mock.patch.object(hashes, "Turn", OldTurn):
            found, _ = faults(of_hashes()[0], seconds=1)
        self.assertGreaterEqual(len([each for each in found if "served" in each or "already" in each]), 3, found)

    def test_a_transaction_in_a_generator(self):
        with mock.patch.object(_nodes._Store, "within", old_within):
            found, _ = faults(of_maps(folder_of(self), True)[5], seconds=1)
        self.assertTrue(found)

    def test_a_batch_in_a_generator(self):
        @contextlib.contextmanager
        def old_batch(own):
            changes = {}
            entered = _batch.Entered(changes, lambda: changes)
            own._batches[threading.get_ident()] = entered
            try:
                yield own
                own._change(changes)
            finally:
                del own._batches[threading.get_ident()]

        with mock.patch.object(Map, "batch", old_batch):
            found, _ = faults(of_maps(folder_of(self), False)[0], seconds=1)
        self.assertTrue(found)


class Kept(unittest.TestCase):
    """What an exception that is kept holds."""

    def places(self, call):
        for place in range(1, 10**6):
            kept = interrupted(place, call)
            if kept is None:
                return
            yield kept

    def test_an_open_log(self):
        """An interrupt while a file is opened leaves it neither open nor locked."""
        path = os.path.join(folder_of(self), "log")
        Log.open(path).close()
        count, opened = 0, []
        for kept in self.places(lambda: opened.append(Log.open(path))):
            # one that came behind the opening
            while opened:
                opened.pop().close()
            with Log.open(path) as log:
                log.append([b"one"])
            count += 1
            kept = None
        self.assertGreater(count, 50)

    def test_a_batch(self):
        """Behind a batch that was interrupted its thread is in none: what it changes is written."""
        own = Map()

        def change():
            with own.batch():
                own[KEYS[0]] = sha(b"first")

        for number, kept in enumerate(self.places(change)):
            version = own.version
            own[KEYS[1]] = sha(b"%d" % number)
            self.assertEqual(own.version, version + 1)
            kept = None
        self.assertGreater(number, 50)

    def test_a_batch_of_an_exit_stack(self):
        own = Map()
        with contextlib.ExitStack() as stack:
            stack.enter_context(own.batch())
            own[KEYS[0]] = sha(b"first")
            self.assertEqual((len(own), own.version), (1, 0))
            with self.assertRaises(RuntimeError):
                with own.batch():
                    pass
        self.assertEqual((len(own), own.version), (1, 1))
        with self.assertRaises(KeyError):
            with contextlib.ExitStack() as stack:
                stack.enter_context(own.batch())
                own[KEYS[1]] = sha(b"second")
                raise KeyError
        self.assertEqual((len(own), own.version), (1, 1))

    def test_a_call_within_a_call(self):
        """A handler that asks what its thread is in a call of is refused, and the call goes on."""
        own, refused = Map(), []

        def at(frame, event):
            if frame.f_code.co_name == "_write":
                try:
                    own.root
                except RuntimeError as error:
                    refused.append(error)

        traced(lambda: own.update({KEYS[0]: sha(b"")}), at)
        self.assertGreater(len(refused), 3)
        self.assertEqual((own.version, len(own)), (1, 1))


@unittest.skipUnless(hasattr(signal, "setitimer"), "no timers")
class ByTimers(unittest.TestCase):
    """Signals at times that are drawn. Behind them another thread is served too. Exceptions are kept in cycles, which the collector frees."""

    def by_timers(self, subjects):
        draws, interrupts, calls = random.Random(7), 0, 0

        def handle(number, frame):
            raise Interrupt

        before = signal.signal(signal.SIGALRM, handle)
        self.addCleanup(signal.signal, signal.SIGALRM, before)
        for subject in subjects:
            end, kept, made = time.monotonic() + SECONDS / len(subjects), [], None
            while made is None or time.monotonic() < end:
                if made is not None and hasattr(made, "close"):
                    made.close()
                made = subject.make()
                for _ in range(20):
                    error, is_over = None, False
                    # an interrupt that comes where Python ends an object is none of the call's
                    last = time.monotonic() + 0.05
                    try:
                        try:
                            signal.setitimer(signal.ITIMER_REAL, draws.uniform(0.0001, 0.0011))
                            while time.monotonic() < last:
                                subject.call(made)
                                calls += 1
                        except (KeyError, ValueError):
                            # there is nothing more to be removed; or the log is to be opened again
                            is_over = True
                        signal.setitimer(signal.ITIMER_REAL, 0)
                    except Interrupt as caught:
                        error = caught
                    if is_over:
                        made, _ = of(subject, made)
                    if error is None:
                        continue
                    interrupts += 1
                    error.self = error
                    kept.append(error)
                    del kept[:-3]
                made, seen = of(subject, made)
                then = in_thread(lambda: subject.see(made))
                self.assertEqual(then, seen, subject.name)
                if hasattr(made, "check"):
                    self.assertIsNot(made.check(), False)
        del kept
        gc.collect()
        self.assertGreater(interrupts, 20)
        if IS_LONG:
            print("%s: %d interrupts, %d calls, none refused" % (self.id().rpartition(".")[2], interrupts, calls))

    def test_hashes(self):
        self.by_timers(of_hashes())

    def test_transcripts(self):
        self.by_timers(of_transcripts())

    def test_trees(self):
        self.by_timers([each for each in of_trees(folder_of(self)) if "set_many" in each.name or "path" in each.name])

    def test_logs(self):
        self.by_timers([each for each in of_logs(folder_of(self)) if "append" in each.name or "len" in each.name])

    def test_logs_of_poseidon(self):
        self.by_timers([each for each in of_poseidon() if "append" in each.name or "root" in each.name])

    def test_maps_in_memory(self):
        self.by_timers(of_maps(folder_of(self), False)[:8])

    def test_maps_in_files(self):
        self.by_timers(of_maps(folder_of(self), True)[:8])


if __name__ == "__main__":
    unittest.main()
