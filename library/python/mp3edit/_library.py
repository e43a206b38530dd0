"""The calls of libmp3edit, by ctypes; mp3edit.h says what each does. ctypes frees the interpreter's
lock during a call."""
from __future__ import annotations

import ctypes
import os
from pathlib import Path
from typing import Any, Iterator, Optional

NAME = "libmp3edit.so.1"
NO_MEMORY = 7


class Handle(ctypes.Structure):
    """A session as C holds it. A null pointer is an empty one."""

    _fields_ = [("at", ctypes.c_void_p)]


def _places() -> Iterator[str]:
    """Where the library can be: the first place that there is counts."""
    here = Path(__file__).resolve().parent
    if "MP3EDIT_LIBRARY" in os.environ:
        yield os.environ["MP3EDIT_LIBRARY"]
    # In a wheel, and where the library was built.
    for path in (here / NAME, here.parent.parent / "out" / NAME):
        if path.exists():
            yield str(path)
    yield NAME


def _load() -> ctypes.CDLL:
    place = next(_places())
    try:
        library = ctypes.CDLL(place)
    except OSError as it:
        raise ImportError(f"{it}; MP3EDIT_LIBRARY can name {NAME}") from it
    session, data, size = ctypes.POINTER(Handle), ctypes.c_char_p, ctypes.c_size_t
    reading: list[Any] = [data, size, ctypes.POINTER(size)]
    calls: dict[str, list[Any]] = {
        "put": [data, size, data, size],
        "drop": [data, size],
        "word": [data, size],
        "run": [],
        "get": [data, size, *reading],
        "name": [size, *reading],
        "text": reading,
        "line": reading,
    }
    for name, kinds in calls.items():
        call = getattr(library, f"mp3edit_{name}")
        call.argtypes, call.restype = [session, *kinds], ctypes.c_uint8
    library.mp3edit_free.argtypes, library.mp3edit_free.restype = [session], None
    return library


library = _load()

_new_bytes = ctypes.PYFUNCTYPE(ctypes.py_object, ctypes.c_void_p, ctypes.c_ssize_t)(
    ("PyBytes_FromStringAndSize", ctypes.pythonapi)
)


def read(name: str, *front: object) -> Optional[bytes]:
    """All bytes that a reading call has for what comes before its room, or None if it has none."""
    call, size = getattr(library, f"mp3edit_{name}"), ctypes.c_size_t()
    if call(*front, b"", 0, ctypes.byref(size)):
        return None
    # The call fills bytes that nobody else has seen yet, which saves a copy.
    into: bytes = _new_bytes(None, size.value)
    call(*front, into, size.value, ctypes.byref(size))
    return into
