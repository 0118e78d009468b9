"""The numbers of faults. Made by tools/faults.py."""
from enum import IntEnum


class Fault(IntEnum):
    """The number of a fault, for comparisons with `Refused.number`."""

    __module__ = "flatc"

    #: The schema text isn't UTF-8.
    NOT_UTF8 = 1
    #: No token begins with this byte, or it may not be in a quoted text.
    BAD_BYTE = 2
    #: A comment or a quoted text has no end.
    UNTERMINATED = 3
    #: An integer doesn't fit in 64 bits.
    NUMBER_TOO_BIG = 4
    #: A token isn't expected where it is.
    UNEXPECTED = 5
    #: A vector's elements are vectors.
    NESTED_VECTOR = 6
    #: A name is declared twice in one place, or may not be taken.
    DUPLICATE_NAME = 10
    #: No type has this name, seen from its namespace.
    UNKNOWN_TYPE = 11
    #: A default isn't one that its field can have.
    BAD_DEFAULT = 12
    #: The `id` attributes of a table aren't 0, 1, 2 and so on, one on each field.
    BAD_IDS = 13
    #: A struct has a field of a struct that isn't declared before it.
    INCOMPLETE_STRUCT = 14
    #: A struct has no field.
    EMPTY_STRUCT = 15
    #: An attribute may not be here, is repeated, or has a wrong value.
    BAD_ATTRIBUTE = 16
    #: An attribute is neither built in nor declared.
    UNKNOWN_ATTRIBUTE = 17
    #: Something of FlatBuffers' schema language isn't supported.
    UNSUPPORTED = 18
    #: An enum's value is outside its type, or has the number of another.
    BAD_ENUM_VALUE = 19
    #: A type can't be a union's member or a struct's field.
    BAD_MEMBER = 20
    #: The root isn't a table, or the text names none.
    BAD_ROOT = 21
    #: A file identifier doesn't have four printable ASCII characters.
    BAD_IDENTIFIER = 22
    #: A struct takes more than 65,535 bytes.
    STRUCT_TOO_BIG = 30
    #: A table's fields take more than 65,535 bytes together, or more than 32,765 slots.
    TABLE_TOO_WIDE = 31
    #: The buffer would be longer than 2,147,483,647 bytes.
    TOO_BIG = 40
    #: The buffer is too short for its header: 4 bytes, or 8 with a file identifier.
    SHORT = 50
    #: The buffer is longer than 2,147,483,647 bytes.
    TOO_LONG = 51
    #: The file identifier isn't the schema's.
    WRONG_IDENTIFIER = 52
    #: A value isn't at a multiple of its alignment.
    MISALIGNED = 53
    #: A value ends past the buffer.
    OUT_OF_BOUNDS = 54
    #: An offset to a table, string or vector is 0.
    ZERO_OFFSET = 55
    #: A table's vtable isn't inside the buffer, or its size is odd or below 4.
    BAD_VTABLE = 56
    #: A required field of a table is absent.
    BUFFER_MISSING_REQUIRED = 57
    #: A string isn't followed by a zero byte.
    NO_TERMINATOR = 58
    #: A string isn't UTF-8.
    BAD_UTF8 = 59
    #: A union has a type and no value.
    BUFFER_UNION_MISMATCH = 60
    #: Tables are nested deeper than `max_depth`.
    BUFFER_TOO_DEEP = 62
    #: A buffer has more cells than `max_cells`. What is reached twice counts twice.
    BUFFER_TOO_MANY_CELLS = 63
    #: A JSON value is of another kind than the field.
    WRONG_SHAPE = 70
    #: A number isn't written as a whole number of at most 64 bits.
    NOT_WHOLE = 71
    #: A number isn't one of its type's.
    OUT_OF_RANGE = 72
    #: An enum has no value, or a union no member, of this name.
    UNKNOWN_NAME = 73
    #: No field of the table or struct has this name.
    UNKNOWN_MEMBER = 74
    #: A field of a struct isn't there.
    MISSING_MEMBER = 75
    #: A required field isn't there, or is null.
    JSON_MISSING_REQUIRED = 76
    #: A union has a value without a type, or a type without a value.
    JSON_UNION_MISMATCH = 77
    #: Tables are nested deeper than `max_depth`.
    JSON_TOO_DEEP = 78
    #: The text has more cells than `max_cells`.
    JSON_TOO_MANY_CELLS = 79
    #: A union in the buffer has a type that the schema has no member for, so it has no JSON.
    NO_MEMBER_NAME = 81
    #: The root is a table of another name.
    ROOT_CHANGED = 90
    #: The file identifier was added, removed or changed.
    IDENTIFIER_CHANGED = 91
    #: A type of the old schema is gone.
    TYPE_GONE = 92
    #: A type was a table, struct, enum or union, and is another of these.
    KIND_CHANGED = 93
    #: A struct's fields have other types, or its alignment changed.
    STRUCT_CHANGED = 94
    #: A table has fewer slots than before.
    SLOT_GONE = 95
    #: A field has another type.
    FIELD_TYPE_CHANGED = 96
    #: A field has another default.
    DEFAULT_CHANGED = 97
    #: A field was required and isn't, or the other way round.
    REQUIRED_CHANGED = 98
    #: A field was deprecated and isn't any more.
    DEPRECATED_TAKEN_BACK = 99
    #: A new field is required, which old buffers don't have.
    NEW_REQUIRED = 100
    #: An enum has another type or mark, or an old value is gone or has another number.
    ENUM_CHANGED = 101
    #: A union's member is gone, or its number names another table.
    UNION_CHANGED = 102
    #: The text isn't JSON as RFC 8259 has it, is nested deeper than 127 levels, or isn't UTF-8.
    BAD_JSON = 113
