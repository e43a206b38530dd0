"""A folder in memory, and the program over it."""
from __future__ import annotations

import ctypes
import threading
from collections.abc import Callable, Iterator, Mapping, MutableMapping
from types import TracebackType
from typing import TYPE_CHECKING, Optional, Type

from ._library import NO_MEMORY, Handle, library, read

if TYPE_CHECKING:
    from _typeshed import ReadableBuffer


def _bytes_of(data: ReadableBuffer) -> bytes:
    return data if isinstance(data, bytes) else bytes(memoryview(data))


def _utf8(text: str) -> bytes:
    if not isinstance(text, str):
        raise TypeError(f"a name or a word is a str, not {type(text).__name__}")
    return text.encode()


def _done(answer: int) -> None:
    if answer == NO_MEMORY:
        raise MemoryError("memory was refused before the work began")


class Session(MutableMapping[str, bytes]):
    """A folder of files in memory, as a mapping of their names to their bytes, and the program.

    `run` takes the words of a command line, such as `run("gain", "-g", "-2", "a.mp3", "b.mp3")`,
    and edits the files of the session. `text` and `line` are what it writes. Names and words are
    text; a file is set from anything that is bytes-like, and read as bytes.

    Threads may share a session, which takes one call at a time; sessions share nothing.
    """

    def __init__(self, files: Optional[Mapping[str, ReadableBuffer]] = None) -> None:
        self._handle = Handle()
        self._lock = threading.Lock()
        self._has_words = False
        for name, data in (files or {}).items():
            self[name] = data

    def run(self, *words: str) -> int:
        """Does what the program does for these words, and gives its status, 0 to 4.

        If there is no memory to begin with, `MemoryError` is raised, and nothing was done.
        """
        encoded = [_utf8(it) for it in words]
        with self._lock:
            if self._has_words:
                # Words are left from a run that couldn't begin. With an empty word they are no
                # command, and a run forgets them.
                self._run([b""])
            return self._run(encoded)

    def _run(self, words: list[bytes]) -> int:
        self._has_words = True
        for it in words:
            _done(library.mp3edit_word(self._handle, it, len(it)))
        status: int = library.mp3edit_run(self._handle)
        _done(status)
        self._has_words = False
        return status

    @property
    def text(self) -> str:
        """What the last run wrote to standard output."""
        with self._lock:
            return (read("text", self._handle) or b"").decode()

    @property
    def line(self) -> str:
        """The line that the last run wrote to standard error, without its end."""
        with self._lock:
            return (read("line", self._handle) or b"").decode().rstrip("\n")

    def __getitem__(self, name: str) -> bytes:
        key = _utf8(name)
        with self._lock:
            data = read("get", self._handle, key, len(key))
        if data is None:
            raise KeyError(name)
        return data

    def __setitem__(self, name: str, data: ReadableBuffer) -> None:
        key, there = _utf8(name), _bytes_of(data)
        with self._lock:
            _done(library.mp3edit_put(self._handle, key, len(key), there, len(there)))

    def __delitem__(self, name: str) -> None:
        key = _utf8(name)
        with self._lock:
            if library.mp3edit_drop(self._handle, key, len(key)):
                raise KeyError(name)

    def __contains__(self, name: object) -> bool:
        if not isinstance(name, str):
            return False
        key, size = name.encode(), ctypes.c_size_t()
        with self._lock:
            found: int = library.mp3edit_get(
                self._handle, key, len(key), b"", 0, ctypes.byref(size)
            )
        return not found

    def _names(self) -> list[str]:
        names: list[str] = []
        with self._lock:
            while (name := read("name", self._handle, len(names))) is not None:
                names.append(name.decode())
        return names

    def __iter__(self) -> Iterator[str]:
        """The names that there are now, in the order of their bytes."""
        return iter(self._names())

    def __len__(self) -> int:
        return len(self._names())

    def close(self) -> None:
        """Gives all memory back. The session is empty then, and can be used again."""
        with self._lock:
            library.mp3edit_free(self._handle)
            self._has_words = False

    def __enter__(self) -> Session:
        return self

    def __exit__(
        self,
        kind: Optional[Type[BaseException]],
        it: Optional[BaseException],
        trace: Optional[TracebackType],
    ) -> None:
        self.close()

    # The default keeps the call for the end of the interpreter, when names of modules are gone.
    def __del__(self, free: Callable[[Handle], None] = library.mp3edit_free) -> None:
        free(self._handle)
