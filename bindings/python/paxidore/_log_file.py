"""Logs in files: the library says what is to be read of a file and what is to be written, and this module does that."""
import ctypes
import errno
import fcntl
import io
import os
import stat
import time
import weakref
from typing import Any, Callable, List, Optional, Tuple

from ._library import MORE, NoLog, ShortLog, _bytes, _call, _Flat, _leaves, _refusal, _size, _sizes

# how many pieces and steps are enough, as the header has them
_PIECES = 384
_STEPS = 8

# the two sectors of a file's slots, and how each begins
_SECTOR = 4096
_SECTOR_TITLE = b"paxidore log of SHA-256, sectors"


class _Piece(ctypes.Structure):
    """Some bytes of a file: where they begin, and how many they are."""

    _fields_ = [("at", _size), ("len", _size)]


class _Pieces(ctypes.Structure):
    """What was read of a log's file, or is to be read."""

    _fields_ = [
        ("places", ctypes.POINTER(_Piece)),
        ("places_room", _size),
        ("places_len", _size),
        ("bytes", _bytes),
        ("bytes_len", _size),
        ("file_len", _size),
    ]


class _Steps(ctypes.Structure):
    """What is to be written to a log's file."""

    _fields_ = [
        ("places", ctypes.POINTER(_Piece)),
        ("places_room", _size),
        ("places_len", _size),
        ("bytes", ctypes.c_void_p),
        ("bytes_room", _size),
        ("bytes_len", _size),
    ]


_pieces, _steps = ctypes.POINTER(_Pieces), ctypes.POINTER(_Steps)
_file_room = _call("log_file_room", _size, _size)
_file_make = _call("log_file_make", ctypes.c_int32, _steps, _pieces)
_file_size = _call("log_file_size", ctypes.c_int32, _sizes, _pieces)
_file_append = _call("log_file_append", ctypes.c_int32, _steps, _sizes, _pieces, *_leaves)
_file_root = _call("log_file_root", ctypes.c_int32, ctypes.c_void_p, _pieces, _size)
_file_path = (ctypes.c_void_p, _size, _sizes, _pieces, _size, _size)
_file_inclusion = _call("log_file_inclusion", ctypes.c_int32, *_file_path)
_file_consistency = _call("log_file_consistency", ctypes.c_int32, *_file_path)
_file_check = _call("log_file_check", ctypes.c_int32, _bytes, _size)


class _File:
    """A log in a file. The library says what is to be read of it and what is to be written, and this class does that."""

    file: "Optional[io.FileIO]" = None

    def __init__(self, path: "os.PathLike[str] | str", read_only: bool, wait: float) -> None:
        self.read_only = read_only
        self.is_unknown = False
        self.is_refused = False
        self.process = os.getpid()
        self.places = (_Piece * _PIECES)()
        self.path = os.path.abspath(path)
        try:
            self.file = _opened(path) if read_only else _locked(path, wait)
            if not read_only:
                self.make()
                _files.add(self)
            self.own = self.asked_size()
        except BaseException:
            self.close()
            raise

    def opened(self) -> "_File":
        """This log, where it can be used."""
        self.number()
        if self.is_unknown:
            raise ValueError("an append to the file of this log failed: open it again")
        return self

    def number(self) -> int:
        # the descriptor of the file
        if self.file is None or self.file.closed:
            if self.process != os.getpid():
                raise ValueError("the log was opened before the process was forked: open it again")
            raise ValueError("the log is closed")
        return self.file.fileno()

    def asking(self, call: Callable[..., Any]) -> int:
        # the answer of a call, for which the pieces of the file are read that it asks for
        length = os.fstat(self.number()).st_size
        while True:
            answer = self.asked(call, length)
            # a keeper may have appended since: a head that was read later says more digests than the file had
            before, length = length, os.fstat(self.number()).st_size
            if answer != ShortLog.code or length <= before:
                return answer

    def asked(self, call: Callable[..., Any], length: int) -> int:
        # the same, of a file of this length
        file, places = self.number(), self.places
        data, read = b"", 0
        while True:
            pieces = _Pieces(places, _PIECES, read, data, len(data), length)
            answer: int = call(pieces)
            if answer != MORE:
                return answer
            data += b"".join([_read_piece(file, piece.len, piece.at) for piece in places[read : pieces.places_len]])
            read = pieces.places_len

    def steps_of(self, call: Callable[..., Any], room: int) -> "List[Tuple[int, memoryview]]":
        # the places and the bytes that a call hands over to be written
        data, places = ctypes.create_string_buffer(room), (_Piece * _STEPS)()
        steps = _Steps(places, _STEPS, 0, ctypes.addressof(data), room, 0)
        answer = self.asking(lambda pieces: call(steps, pieces))
        if answer != 0:
            raise _refusal(answer)
        begin, whole, found = 0, memoryview(data), []
        for step in places[: steps.places_len]:
            found.append((step.at, whole[begin : begin + step.len]))
            begin += step.len
        return found

    def carry_out(self, steps: "List[Tuple[int, memoryview]]") -> None:
        file = self.number()
        for place, part in steps:
            _write(file, part, place)
            os.fsync(file)

    def make(self) -> None:
        self.carry_out(self.steps_of(_file_make, _file_room(0)))
        # whoever made a log that has no entry may have ended before its name was on the disk
        if self.asked_size() == 0:
            folder = os.open(os.path.dirname(self.path), os.O_RDONLY | os.O_CLOEXEC)
            try:
                os.fsync(folder)
            finally:
                os.close(folder)

    def asked_size(self) -> int:
        size = _size()
        answer = self.asking(lambda pieces: _file_size(ctypes.byref(size), pieces))
        if answer != 0:
            raise _refusal(answer)
        return size.value

    def size(self) -> int:
        # a keeper may have appended to what is open for reading
        return self.asked_size() if self.read_only else self.own

    def keep_name(self) -> None:
        # what is appended to a file that was moved or removed is not in the log of that name
        try:
            if os.path.samestat(os.fstat(self.number()), os.stat(self.path)):
                return
        except FileNotFoundError:
            pass
        raise ValueError("another file has the name of this log now, or none: open it again")

    def append(self, flat: "_Flat") -> int:
        if self.read_only:
            raise io.UnsupportedOperation("the log is open for reading only")
        self.keep_name()
        if self.is_refused:
            # what is read may be gone after a power failure
            self.make()
            self.is_refused = False
        size = _size()
        steps = self.steps_of(lambda steps, pieces: _file_append(steps, ctypes.byref(size), pieces, *flat), _file_room(flat[3]))
        # until all is written, whatever cuts it off
        self.is_unknown = True
        try:
            self.carry_out(steps)
        except OSError:
            # what was written is no part of the log, where the file has the size that it had
            self.is_refused, self.is_unknown = True, self.is_other()
            raise
        self.own = size.value
        self.is_unknown = False
        self.keep_name()
        return size.value

    def is_other(self) -> bool:
        try:
            return self.asked_size() != self.own
        except Exception:
            return True

    def root(self, root: "ctypes.Array[ctypes.c_char]", size: int) -> int:
        return self.asking(lambda pieces: _file_root(root, pieces, size))

    def inclusion(self, path: "ctypes.Array[ctypes.c_char]", count: _size, size: int, index: int) -> int:
        return self.asking(lambda pieces: _file_inclusion(path, len(path), ctypes.byref(count), pieces, size, index))

    def consistency(self, proof: "ctypes.Array[ctypes.c_char]", count: _size, old_size: int, size: int) -> int:
        return self.asking(lambda pieces: _file_consistency(proof, len(proof), ctypes.byref(count), pieces, old_size, size))

    def check(self) -> int:
        file = self.number()
        whole = _read_piece(file, os.fstat(file).st_size, 0)
        answer: int = _file_check(whole, len(whole))
        return answer

    def close(self) -> None:
        if self.file is not None and not self.file.closed:
            if not self.read_only:
                # the lock would last while a process that was forked meanwhile has the file too
                fcntl.flock(self.file.fileno(), fcntl.LOCK_UN)
            self.file.close()

    def __del__(self) -> None:
        # at the end of the interpreter its modules may be gone, and the system closes what is open
        if fcntl is not None:
            self.close()

    def leave(self) -> None:
        if self.file is not None:
            self.file.close()


_files: "weakref.WeakSet[_File]" = weakref.WeakSet()


def _leave_files() -> None:
    # a forked process has its parent's locks as well: it lets go of them, so that they are the parent's alone
    for file in list(_files):
        file.leave()


os.register_at_fork(after_in_child=_leave_files)


def _opened(path: "os.PathLike[str] | str") -> io.FileIO:
    # the file at a path, for reading; an object, which closes it where nothing has it any more
    _look_at(path)
    return io.FileIO(path, "rb")


def _look_at(path: "os.PathLike[str] | str") -> None:
    # to open a pipe would wait for another process
    kind = os.stat(path).st_mode
    if not stat.S_ISREG(kind) and not stat.S_ISDIR(kind):
        raise _refusal(NoLog.code)


def _locked(path: "os.PathLike[str] | str", wait: float) -> io.FileIO:
    # the file at a path, made where there is none, and locked
    until = time.monotonic() + wait
    while True:
        try:
            _look_at(path)
        except FileNotFoundError:
            io.FileIO(path, "ab").close()
        file = None
        try:
            file = io.FileIO(path, "rb+")
            _lock(file.fileno(), until)
            if os.path.samestat(os.fstat(file.fileno()), os.stat(path)):
                return file
        except FileNotFoundError:
            pass
        except BaseException:
            if file is not None:
                file.close()
            raise
        # another file took its place before it was locked
        if file is not None:
            file.close()


def _lock(file: int, until: float) -> None:
    while True:
        try:
            return fcntl.flock(file, fcntl.LOCK_EX | fcntl.LOCK_NB)
        except BlockingIOError:
            left = until - time.monotonic()
            if left <= 0:
                raise
            time.sleep(min(left, 0.005))


def _read(file: int, count: int, at: int) -> bytes:
    part = os.pread(file, count, at)
    while len(part) < count:
        more = os.pread(file, count - len(part), at + len(part))
        if not more:
            raise ShortLog("the file of the log ends early: it was made shorter")
        part += more
    return part


def _read_piece(file: int, count: int, at: int) -> bytes:
    # the bytes of a piece, of which a sector that cannot be read is lost
    try:
        return _read(file, count, at)
    except OSError as error:
        if error.errno != errno.EIO or at >= 2 * _SECTOR:
            raise
    end, parts = at + count, []
    while at < end:
        sector = at // _SECTOR * _SECTOR
        upto = min(end, sector + _SECTOR) if sector < 2 * _SECTOR else end
        parts.append(_read_sector(file, upto - at, at, _SECTOR - sector))
        at = upto
    return b"".join(parts)


def _read_sector(file: int, count: int, at: int, other: int) -> bytes:
    # zeros stand for bytes of one of the two sectors that cannot be read, where the other one is there
    try:
        return _read(file, count, at)
    except OSError as error:
        if error.errno != errno.EIO or other < 0 or _read(file, len(_SECTOR_TITLE), other) != _SECTOR_TITLE:
            raise
        return bytes(count)


def _write(file: int, view: "memoryview", at: int) -> None:
    while view:
        count = os.pwrite(file, view, at)
        view, at = view[count:], at + count
