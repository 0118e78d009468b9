"""What the calls take: texts, bytes-like objects and dicts."""
from __future__ import annotations

import json
import sys
from typing import TYPE_CHECKING, Any, Dict, Union

if sys.version_info >= (3, 12):
    from collections.abc import Buffer
elif TYPE_CHECKING:
    from typing_extensions import Buffer
else:
    Buffer = Union[bytes, bytearray, memoryview]

Text = Union[str, Buffer]
Document = Union[str, Buffer, Dict[str, Any]]


def as_data(text: Text) -> Buffer:
    """A text as bytes-like. What is bytes-like isn't copied."""
    return text.encode() if isinstance(text, str) else text


def as_json(document: Document) -> Buffer:
    """A JSON text as bytes-like."""
    if isinstance(document, dict):
        return json.dumps(document, ensure_ascii=False, separators=(",", ":")).encode()
    return as_data(document)
