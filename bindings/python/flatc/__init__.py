"""Converts JSON to FlatBuffers and back, under schemas that are read at run time.

    schema = flatc.Schema.from_file("monster.fbs")
    buffer = schema.encode({"name": "Orc"})
    text = schema.decode(buffer)

The package calls libflatc by ctypes. The library is the one in the wheel, else the one that LIBFLATC names, else the
loader's libflatc.so.0.
"""
from flatc._faults import Fault
from flatc._library import version
from flatc._refused import Refused
from flatc._schema import Schema
from flatc._version import __version__

__all__ = ["Fault", "Refused", "Schema", "__version__", "version"]
