import io
import json
import mmap
import os
import tempfile
import threading
import unittest

import flatc
from examples import JSON, TEXT
from flatc import Refused

DOCUMENTS = [JSON, {"name": "Orc"}, '{"name": "Elf", "hp": 3}']


class Streams(unittest.TestCase):
    def setUp(self):
        self.schema = flatc.Schema(TEXT)
        self.stream = b"".join(self.schema.encode_stream(DOCUMENTS))
        self.texts = [self.schema.decode(self.schema.encode(it)) for it in DOCUMENTS]

    def test_a_stream_is_its_buffers(self):
        buffers = [self.schema.encode(it, size_prefixed=True) for it in DOCUMENTS]
        self.assertEqual([*self.schema.encode_stream(iter(DOCUMENTS))], buffers)

    def test_bytes_like(self):
        for source in (self.stream, bytearray(self.stream), memoryview(self.stream)):
            self.assertEqual([*self.schema.decode_stream(source)], self.texts)

    def test_a_mapped_file(self):
        with tempfile.TemporaryFile() as file:
            file.write(self.stream)
            file.flush()
            with mmap.mmap(file.fileno(), 0, access=mmap.ACCESS_READ) as mapped:
                self.assertEqual([*self.schema.decode_stream(mapped)], self.texts)
                begun = self.schema.decode_stream(mapped)
                self.assertEqual(next(begun), self.texts[0])
                begun.close()

    def test_a_mapped_file_is_closed_after_a_refusal(self):
        with tempfile.TemporaryFile() as file:
            file.write(self.stream[:-1])
            file.flush()
            with self.assertRaises(Refused) as caught:
                with mmap.mmap(file.fileno(), 0, access=mmap.ACCESS_READ) as mapped:
                    for _ in self.schema.decode_stream(mapped):
                        pass
        self.assertEqual(caught.exception.index, 2)
        self.assertTrue(caught.exception.explain())

    def test_a_file(self):
        with tempfile.TemporaryFile() as file:
            for buffer in self.schema.encode_stream(DOCUMENTS):
                file.write(buffer)
            file.seek(0)
            self.assertEqual([*self.schema.decode_stream(file)], self.texts)

    def test_a_pipe_message_by_message(self):
        reader, writer = os.pipe()
        with open(reader, "rb", buffering=0) as file, open(writer, "wb", buffering=0) as ours:
            texts = self.schema.decode_stream(file)
            for buffer, text in zip(self.schema.encode_stream(DOCUMENTS), self.texts):
                ours.write(buffer)
                self.assertEqual(next(texts), text)
            ours.close()
            self.assertEqual([*texts], [])

    def test_reads_that_return_less(self):
        class Dripping(io.BytesIO):
            def read(self, size=-1):
                return super().read(min(size, 3))

        self.assertEqual([*self.schema.decode_stream(Dripping(self.stream))], self.texts)

    def test_nothing(self):
        self.assertEqual([*self.schema.encode_stream([])], [])
        for source in (b"", io.BytesIO()):
            self.assertEqual([*self.schema.decode_stream(source)], [])

    def test_options(self):
        texts = [*self.schema.decode_stream(self.stream, compact=True, defaults_json=True)]
        self.assertEqual([json.loads(it)["name"] for it in texts], ["Orc", "Orc", "Elf"])
        self.assertEqual(json.loads(texts[1])["hp"], 100)
        self.assertFalse(any("\n" in it for it in texts))
        hairy = [{"name": "Orc", "hair": 1}]
        self.assertEqual(len([*self.schema.encode_stream(hairy, unknown_json=True)]), 1)
        self.assertRaises(Refused, next, self.schema.encode_stream(hairy))

    def test_a_refused_document(self):
        texts = self.schema.encode_stream([JSON, {"name": "Orc", "hp": 70000}, JSON])
        next(texts)
        with self.assertRaises(Refused) as caught:
            next(texts)
        refused = caught.exception
        self.assertEqual((refused.index, refused.slot), (1, 2))
        self.assertEqual(str(refused), f"message 2: 72 OutOfRange: {refused.message}")
        self.assertIn("JSON:1:", refused.explain())
        self.assertEqual([*texts], [])

    def test_a_truncated_stream(self):
        first, second = (len(it) for it in [*self.schema.encode_stream(DOCUMENTS)][:2])
        for end in (first + 1, first + 4, first + 5, first + second - 1):
            cut = self.stream[:end]
            for source in (cut, io.BytesIO(cut)):
                texts = self.schema.decode_stream(source)
                self.assertEqual(next(texts), self.texts[0])
                with self.assertRaises(Refused) as caught:
                    next(texts)
                refused = caught.exception
                self.assertEqual(refused.index, 1)
                self.assertEqual(refused.explain(), refused.explain(TEXT, cut[first:], size_prefixed=True))

    def test_a_length_that_is_wrong(self):
        for source in (b"\xff" * 8, io.BytesIO(b"\xff" * 8)):
            with self.assertRaises(Refused) as caught:
                next(self.schema.decode_stream(source))
            self.assertEqual(caught.exception.index, 0)

    def test_no_stream(self):
        for source in (5, None, "text", [self.stream], io.StringIO("text")):
            with self.subTest(source), self.assertRaises(TypeError):
                next(self.schema.decode_stream(source))

    def test_two_threads_decode(self):
        got = []
        work = [threading.Thread(target=lambda: got.append([*self.schema.decode_stream(self.stream)])) for _ in "ab"]
        for thread in work:
            thread.start()
        for thread in work:
            thread.join()
        self.assertEqual(got, [self.texts] * 2)


if __name__ == "__main__":
    unittest.main()
