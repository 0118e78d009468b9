"""Schemas, and the conversion of messages under them."""
from __future__ import annotations

import os
import threading
from typing import Any, Dict, Iterable, Iterator, Tuple, TypeVar, Union

from flatc import _library
from flatc._inputs import Buffer, Document, Text, as_data, as_json
from flatc._library import MAX_CELLS, MAX_DEPTH, FaultStruct, Lent, Options, OwnedBytes, SchemaHandle
from flatc._refused import Call, Refused, refusal_of
from flatc._streams import BinaryFile, split_prefixed

SchemaType = TypeVar("SchemaType", bound="Schema")


class _Origin:
    """The handle that others are made from, one at a time."""

    def __init__(self, handle: SchemaHandle) -> None:
        self._handle = handle
        self._lock = threading.Lock()

    def share(self) -> SchemaHandle:
        handle = SchemaHandle()
        with self._lock:
            _library.raise_failure(_library.schema_share(self._handle, handle))
        return handle


class _Handles(threading.local):
    """A handle for each thread, made when the thread first needs it."""

    def __init__(self, origin: _Origin) -> None:
        self.own = origin.share()


def _raise(status: int, fault: FaultStruct, call: Call) -> None:
    """Raises what the status of a call says."""
    if status == _library.REFUSED:
        raise refusal_of(fault, call)
    _library.raise_failure(status)


class Schema:
    """A schema, parsed once and used for any number of messages.

    It never changes. Threads may use it side by side without a lock: each gets a handle of its own, and the calls
    release the GIL. It can be copied, and pickled by its text.

    A bytes-like argument is bytes, bytearray, memoryview, mmap or any other contiguous buffer. It isn't copied, and may
    not change during the call.

    Options of several methods:
    size_prefixed: the buffer begins with its length, as 32 bits.
    raw_binary: skips the file identifier check.
    max_depth: how deep tables may be nested, 1 to 127.
    max_cells: the maximum number of tables, strings, vectors, elements and bytes of strings.
    """

    __module__ = "flatc"

    def __init__(self, text: Text) -> None:
        """Parses a schema text (.fbs) without includes. Raises Refused if it declares no schema."""
        self._text = bytes(memoryview(as_data(text)))
        handle, fault = SchemaHandle(), FaultStruct()
        status = _library.schema_parse(handle, self._text, len(self._text), fault)
        if status:
            _raise(status, fault, Call(self._text, None, _library.options()))
        self._hold(handle)

    def _hold(self, handle: SchemaHandle) -> None:
        self._origin = _Origin(handle)
        self._handles = _Handles(self._origin)

    @classmethod
    def from_file(cls: type[SchemaType], path: Union[str, os.PathLike[str]]) -> SchemaType:
        """The schema in a file."""
        with open(path, "rb") as file:
            return cls(file.read())

    @property
    def text(self) -> str:
        """The schema's text."""
        return self._text.decode()

    def __repr__(self) -> str:
        return f"<flatc.Schema of {len(self._text)} bytes>"

    def __reduce__(self) -> Tuple[Any, ...]:
        return type(self), (self._text,)

    def __copy__(self: SchemaType) -> SchemaType:
        other = type(self).__new__(type(self))
        other.__dict__.update(self.__dict__)
        other._hold(self._origin.share())
        return other

    def __deepcopy__(self: SchemaType, memo: Dict[int, Any]) -> SchemaType:
        return self.__copy__()

    def encode(
        self,
        document: Document,
        *,
        unknown_json: bool = False,
        size_prefixed: bool = False,
        max_depth: int = MAX_DEPTH,
        max_cells: int = MAX_CELLS,
    ) -> bytes:
        """The FlatBuffer of a JSON text (str or bytes-like), or of a dict, which json.dumps writes.

        unknown_json: ignores unknown JSON fields.
        """
        options = _library.options(
            unknown_json=unknown_json, size_prefixed=size_prefixed, max_depth=max_depth, max_cells=max_cells
        )
        with OwnedBytes() as made:
            self._run(_library.encode, as_json(document), options, made)
            return made.to_bytes()

    def decode(
        self,
        buffer: Buffer,
        *,
        raw_binary: bool = False,
        defaults_json: bool = False,
        size_prefixed: bool = False,
        compact: bool = False,
        max_depth: int = MAX_DEPTH,
        max_cells: int = MAX_CELLS,
    ) -> str:
        """The JSON text of a FlatBuffer, which is verified first.

        defaults_json: includes fields with default values.
        compact: no blanks and line feeds outside strings.
        """
        options = _library.options(
            raw_binary=raw_binary,
            defaults_json=defaults_json,
            size_prefixed=size_prefixed,
            compact=compact,
            max_depth=max_depth,
            max_cells=max_cells,
        )
        with OwnedBytes() as made:
            self._run(_library.decode, buffer, options, made)
            return made.to_text()

    def verify(
        self,
        buffer: Buffer,
        *,
        raw_binary: bool = False,
        size_prefixed: bool = False,
        max_depth: int = MAX_DEPTH,
        max_cells: int = MAX_CELLS,
    ) -> None:
        """Raises Refused unless the bytes encode a value."""
        options = _library.options(
            raw_binary=raw_binary, size_prefixed=size_prefixed, max_depth=max_depth, max_cells=max_cells
        )
        self._run(_library.verify, buffer, options)

    def _run(self, call: Any, source: Buffer, options: Options, *made: OwnedBytes) -> None:
        """Makes a call over a message, by this thread's handle."""
        fault = FaultStruct()
        with Lent(source) as (data, size):
            status = call(self._handles.own, data, size, options, *made, fault)
        if status:
            _raise(status, fault, Call(self._text, source, options))

    def conform(self, newer: Schema) -> None:
        """Raises Refused, with the first breach, unless the newer schema conforms to this one.

        Then programs with either schema read the other's data. Names aren't compared.
        """
        fault = FaultStruct()
        status = _library.conform(self._handles.own, newer._origin.share(), fault)
        if status:
            _raise(status, fault, Call(self._text, newer._text, _library.options()))

    def encode_stream(
        self,
        documents: Iterable[Document],
        *,
        unknown_json: bool = False,
        max_depth: int = MAX_DEPTH,
        max_cells: int = MAX_CELLS,
    ) -> Iterator[bytes]:
        """The size-prefixed buffer of each document. Written one after the other, they are a stream.

        A refusal ends the stream; its `index` says which document was refused.
        """
        for index, document in enumerate(documents):
            try:
                buffer = self.encode(
                    document, unknown_json=unknown_json, size_prefixed=True, max_depth=max_depth, max_cells=max_cells
                )
            except Refused as refused:
                refused._place_in_stream(index)
                raise
            yield buffer

    def decode_stream(
        self,
        source: Union[Buffer, BinaryFile],
        *,
        raw_binary: bool = False,
        defaults_json: bool = False,
        compact: bool = False,
        max_depth: int = MAX_DEPTH,
        max_cells: int = MAX_CELLS,
    ) -> Iterator[str]:
        """The JSON text of each buffer of a stream: a bytes-like object, or a file that is open for reading bytes.

        A refusal ends the stream; its `index` says which buffer was refused.
        """
        for index, message in enumerate(split_prefixed(source)):
            try:
                text = self.decode(
                    message,
                    raw_binary=raw_binary,
                    defaults_json=defaults_json,
                    size_prefixed=True,
                    compact=compact,
                    max_depth=max_depth,
                    max_cells=max_cells,
                )
            except Refused as refused:
                refused._place_in_stream(index)
                raise
            finally:
                message.release()
            yield text
