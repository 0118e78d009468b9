import array
import mmap
import tempfile
import tracemalloc
import unittest

import flatc
from examples import JSON, TEXT

MIB = 1 << 20


class Types(unittest.TestCase):
    def setUp(self):
        self.schema = flatc.Schema(TEXT)
        self.buffer = self.schema.encode(JSON)

    def test_bytes_like(self):
        for kind in (bytes, bytearray, memoryview, mapped, lambda data: array.array("B", data)):
            with self.subTest(kind):
                self.assertEqual(self.schema.encode(kind(JSON)), self.buffer)
                self.assertEqual(self.schema.decode(kind(self.buffer)), self.schema.decode(self.buffer))
                self.schema.verify(kind(self.buffer))
                self.assertEqual(flatc.Schema(kind(TEXT)).encode(JSON), self.buffer)

    def test_elements_may_be_longer_than_a_byte(self):
        padded = JSON + b" " * (-len(JSON) % 4)
        self.assertEqual(self.schema.encode(array.array("I", padded)), self.buffer)
        self.assertEqual(self.schema.encode(memoryview(padded).cast("I")), self.buffer)

    def test_a_part_of_a_buffer(self):
        framed = b"before" + self.buffer + b"after"
        self.schema.verify(memoryview(framed)[6:-5])

    def test_a_buffer_with_gaps_is_no_input(self):
        with self.assertRaises(BufferError):
            self.schema.verify(memoryview(self.buffer)[::2])

    def test_other_types_are_no_input(self):
        for other in (5, 0, None, 1.5, True, [1], [], (1, 2), {1}, object()):
            with self.subTest(other):
                self.assertRaises(TypeError, self.schema.encode, other)
                self.assertRaises(TypeError, self.schema.decode, other)
                self.assertRaises(TypeError, self.schema.verify, other)
                self.assertRaises(TypeError, flatc.Schema, other)

    def test_a_buffer_is_no_text(self):
        self.assertRaises(TypeError, self.schema.decode, "MONS")
        self.assertRaises(TypeError, self.schema.verify, "MONS")

    def test_an_input_is_released(self):
        whole, cut = bytearray(self.buffer), bytearray(self.buffer[:-1])
        self.schema.decode(whole)
        with self.assertRaises(flatc.Refused):
            self.schema.decode(cut)
        whole.append(0)
        cut.append(0)


class Copies(unittest.TestCase):
    """Inputs of some MiB, while Python's allocations are counted."""

    def setUp(self):
        self.schema = flatc.Schema(TEXT)
        self.json = b'{"name": "Orc", "inventory": [' + b"200, " * (4 * MIB) + b"1]}"
        self.buffer = self.schema.encode(self.json)

    def grown(self, call, *arguments):
        """How much more memory Python needed during a call."""
        tracemalloc.start()
        try:
            call(*arguments)
            return tracemalloc.get_traced_memory()[1]
        finally:
            tracemalloc.stop()

    def test_no_buffer_is_copied(self):
        for kind in (bytes, bytearray, memoryview, mapped):
            buffer = kind(self.buffer)
            with self.subTest(kind):
                self.assertLess(self.grown(self.schema.verify, buffer), MIB)

    def test_no_json_is_copied(self):
        for kind in (bytes, bytearray, memoryview, mapped):
            json = kind(self.json)
            with self.subTest(kind):
                self.assertLess(self.grown(self.schema.encode, json), len(self.buffer) + MIB)

    def test_a_text_is_copied_once(self):
        size = len(self.schema.decode(self.buffer))
        self.assertLess(self.grown(self.schema.decode, memoryview(self.buffer)), size + MIB)


def mapped(data):
    """The bytes as a file that is mapped for reading."""
    with tempfile.TemporaryFile() as file:
        file.write(data)
        file.flush()
        return mmap.mmap(file.fileno(), 0, access=mmap.ACCESS_READ)


if __name__ == "__main__":
    unittest.main()
