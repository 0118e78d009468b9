"""Streams of size-prefixed buffers."""
from __future__ import annotations

from typing import Any, Iterator, Optional, Protocol, Union

from flatc._inputs import Buffer

_PREFIX = 4
# A prefix may be wrong: what it announces isn't allocated before it is there.
_PIECE = 1 << 20


class BinaryFile(Protocol):
    """A file that is open for reading bytes. None or no bytes are its end."""

    def read(self, size: int, /) -> Optional[bytes]: ...


def split_prefixed(source: Union[Buffer, BinaryFile]) -> Iterator[memoryview]:
    """The messages of a stream, each with its prefix. A truncated one is the last."""
    opened: Any = source
    try:
        view = memoryview(opened)
    except TypeError:
        if not hasattr(opened, "read"):
            raise
        return _read_messages(opened)
    return _slice_messages(view)


def _slice_messages(view: memoryview) -> Iterator[memoryview]:
    start = 0
    with view, view.cast("B") as whole:
        while start < len(whole):
            end = start + _size_of(whole[start : start + _PREFIX])
            yield whole[start:end]
            start = end


def _read_messages(file: BinaryFile) -> Iterator[memoryview]:
    while True:
        message = bytearray()
        _fill(message, _PREFIX, file)
        if not message:
            return
        _fill(message, _size_of(message[:_PREFIX]), file)
        yield memoryview(message)


def _size_of(prefix: Union[bytearray, memoryview]) -> int:
    """How long the message with this prefix is."""
    return _PREFIX + int.from_bytes(prefix, "little")


def _fill(message: bytearray, size: int, file: BinaryFile) -> None:
    """Reads until the message is this long, or the file ends."""
    while len(message) < size:
        piece = file.read(min(size - len(message), _PIECE))
        if not piece:
            return
        message += piece
