"""The exception of a refusal."""
from __future__ import annotations

from typing import Any, NamedTuple, Optional, Tuple

from flatc import _library
from flatc._inputs import Buffer, Text, as_data
from flatc._library import MAX_CELLS, MAX_DEPTH, FaultStruct, Options


class Position(NamedTuple):
    """A line and a column of a text, both counted from 1."""

    lineno: int
    colno: int


def position_at(text: bytes, offset: int) -> Position:
    """The position of an offset in bytes. A column counts characters; a byte order mark is none."""
    before = text[:offset].decode("utf-8", "replace")
    if before.startswith("\ufeff"):
        before = before[1:]
    return Position(before.count("\n") + 1, len(before) - before.rfind("\n"))


class Call(NamedTuple):
    """What was refused: the schema's text, the other input and the options."""

    schema: bytes
    source: Any
    options: Options


class Refused(ValueError):
    """An input was refused. The same input is refused each time.

    number, name: the fault. No other fault has this number, in any version; `Fault` has names for the numbers.
    message: what is wrong and where, in one sentence.
    offset: in bytes from the start of the schema text or the buffer, or None.
    type_id, slot: the number of a declared type and of a slot in it, or None.
    lineno, colno: where the offset is in a schema text, both counted from 1, or None.
    index: how many messages of a stream come before the refused one, or None.
    """

    __module__ = "flatc"

    def __init__(self, fault: bytes, position: Optional[Position] = None, index: Optional[int] = None) -> None:
        self._fault = FaultStruct.from_buffer_copy(fault)
        self._call: Optional[Call] = None
        self.number: int = self._fault.number
        self.name: str = self._fault.name.decode()
        self.offset: Optional[int] = self._fault.offset if self._fault.has_offset else None
        self.type_id: Optional[int] = self._fault.type_id if self._fault.has_type else None
        self.slot: Optional[int] = self._fault.slot if self._fault.has_slot else None
        self.message: str = _library.fault_message(self._fault)
        self._position = position
        self.lineno: Optional[int] = position.lineno if position else None
        self.colno: Optional[int] = position.colno if position else None
        self.index = index
        super().__init__(fault, position, index)

    def _place_in_stream(self, index: int) -> None:
        """Notes which message was refused, and copies it: a view of it ends with the stream."""
        self.index = index
        if self._call is not None:
            self._call = self._call._replace(source=bytes(self._call.source))

    def __str__(self) -> str:
        message = "" if self.index is None else f"message {self.index + 1}: "
        position = "" if self._position is None else f" (line {self.lineno}, column {self.colno})"
        return f"{message}{self.number} {self.name}: {self.message}{position}"

    def __repr__(self) -> str:
        return f"<flatc.Refused {self}>"

    def __reduce__(self) -> Tuple[Any, ...]:
        return type(self), (bytes(self._fault), self._position, self.index)

    def explain(
        self,
        schema: Optional[Text] = None,
        source: Optional[Text] = None,
        *,
        unknown_json: bool = False,
        raw_binary: bool = False,
        size_prefixed: bool = False,
        max_depth: int = MAX_DEPTH,
        max_cells: int = MAX_CELLS,
    ) -> str:
        """What is wrong, where, and what would be right, in human-readable lines. It reads the inputs again.

        The exception has the inputs of the call that refused, unless it was pickled, as by another process. Then pass
        them and the options: `schema` is the schema's text (for `conform` the old one), and `source` the JSON text,
        the buffer or the new schema's text.
        """
        if schema is not None:
            options = _library.options(
                unknown_json=unknown_json,
                raw_binary=raw_binary,
                size_prefixed=size_prefixed,
                max_depth=max_depth,
                max_cells=max_cells,
            )
            return _library.explain(self._fault, as_data(schema), b"" if source is None else as_data(source), options)
        if self._call is None:
            raise ValueError("a refusal that was pickled is without its inputs: pass schema and source")
        schema, source, options = self._call
        return _library.explain(self._fault, schema, b"" if source is None else source, options)


def refusal_of(fault: FaultStruct, call: Call) -> Refused:
    """The refusal of a call. A schema text is refused without another input."""
    is_text = fault.has_offset and call.source is None
    refused = Refused(bytes(fault), position_at(call.schema, fault.offset) if is_text else None)
    refused._call = call
    return refused
