"""The C library, which answers within this process: see c/coop.h."""
from __future__ import annotations

import _thread
import threading
from typing import Any, Container, Optional, Sequence

from .errors import NotFound
from .version import VERSION

NO_ROOM, TOO_LATE = 6, 124
GROWTH, FIRST_ROOM, MOST_ROOM = 8, 1 << 16, 1 << 28


class Library:
    """The C library, which answers within this process: see c/coop.h. A call that takes more than so many seconds is
    ended, with the status 124. The library in plain C can be ended, so Ctrl-C ends a call too. In the one that c/build
    makes, Ctrl-C waits for the answer, and a call that is too late goes on after its status. A library of another
    version is refused if its first number is another; `version` is what it says, or None."""

    def __init__(self, path: str, seconds: Optional[float] = None):
        import ctypes

        self.path, self.seconds = path, seconds
        self.version: Optional[str] = None
        self.ctypes: Any = ctypes
        text, size, self.can_end = ctypes.c_char_p, ctypes.c_size_t, True
        kinds = [text, size, text, size, text, size, ctypes.POINTER(size), ctypes.POINTER(ctypes.c_int)]
        try:
            library = ctypes.CDLL(path)
            try:
                self.function: Any = library.coop_run_until
            except AttributeError:
                self.function, self.can_end = library.coop_run, False
        except (OSError, AttributeError) as fault:
            raise NotFound(f"{path} isn't a library of coop: {fault}") from None
        self.function.restype = ctypes.c_uint32
        self.function.argtypes = kinds if self.can_end else kinds[:-1]
        if hasattr(library, "coop_version"):
            library.coop_version.restype = text
            self.version = library.coop_version().decode()
            if self.version.split(".")[0] != VERSION.split(".")[0]:
                raise NotFound(f"{path} is coop {self.version}, and this package is {VERSION}")

    def __repr__(self) -> str:
        return f"Library({self.path!r})"

    def __reduce__(self) -> tuple[Any, ...]:
        return Library, (self.path, self.seconds)

    def run(self, words: Sequence[str], document: bytes) -> tuple[int, bytes]:
        """One call. Safe in threads."""
        call = Call(self.ctypes.c_int())
        _running.add(call)
        try:
            is_main = threading.current_thread() is threading.main_thread()
            if self.seconds is None and not (is_main and self.can_end):
                return self.answered(call.ends, words, document)
            if self.can_end:  # most calls are short, and then need no other thread
                status, line = self.answered(self.ctypes.c_int(1), words, document)
                if status != TOO_LATE:
                    return status, line
            return self.awaited(call, words, document)
        finally:
            _running.discard(call)

    def awaited(self, call: Call, words: Sequence[str], document: bytes) -> tuple[int, bytes]:
        """One call by another thread, so that Ctrl-C or the time ends it: the main thread is told of Ctrl-C only while
        it isn't in the library."""
        box: list[tuple[int, bytes]] = []
        done = threading.Lock()
        done.acquire()

        def answer() -> None:
            try:
                box.append(self.answered(call.ends, words, document))
            except MemoryError:
                pass
            finally:
                done.release()

        _thread.start_new_thread(answer, ())
        is_done = False
        try:
            is_done = done.acquire(timeout=-1 if self.seconds is None else self.seconds)
        finally:
            if not is_done:
                call.ends.value = 1
                if self.can_end:
                    done.acquire()
        if not is_done:
            return TOO_LATE, b""
        if not box:
            raise MemoryError
        return box[0]

    def answered(self, ends: Any, words: Sequence[str], document: bytes) -> tuple[int, bytes]:
        """One call by this thread, and where the line has no room, another with more. If the number that ends it isn't
        0 from the beginning, it ends after some milliseconds."""
        typed, room = b"\0".join(word.encode() for word in words), max(FIRST_ROOM, GROWTH * len(document))
        more = [ends] if self.can_end else []
        while True:
            line, count = self.ctypes.create_string_buffer(room), self.ctypes.c_size_t()
            given = (typed, len(typed), document, len(document), line, room, self.ctypes.byref(count))
            status = self.function(*given, *more)
            if status != NO_ROOM or room >= MOST_ROOM:
                return int(status), bytes(self.ctypes.string_at(line, count.value))
            room *= GROWTH


class Call:
    """A call of the library: the thread that asks, and the number that ends it where it isn't 0."""

    def __init__(self, ends: Any):
        self.thread, self.ends = threading.get_ident(), ends


_running: set[Call] = set()


def end_calls(threads: Container[int]) -> None:
    """Ends the calls of the library for which these threads wait, as when nobody wants them any more."""
    for call in list(_running):
        if call.thread in threads:
            call.ends.value = 1
