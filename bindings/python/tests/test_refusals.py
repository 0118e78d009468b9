import copy
import multiprocessing
import pickle
import unittest

import flatc
from examples import JSON, TEXT
from flatc import Fault, Refused

TOO_LARGE = '{"name": "Orc", "hp": 70000}'
SECONDS = 120


class Refusals(unittest.TestCase):
    def setUp(self):
        self.schema = flatc.Schema(TEXT)

    def refusal(self, call, *arguments, **options):
        with self.assertRaises(Refused) as caught:
            call(*arguments, **options)
        return caught.exception

    def test_a_schema_text(self):
        refused = self.refusal(flatc.Schema, "table T { a:[[int]]; }")
        self.assertEqual((refused.number, refused.name, refused.offset), (Fault.NESTED_VECTOR, "NestedVector", 13))
        self.assertIn("13", refused.message)
        self.assertEqual((refused.type_id, refused.slot, refused.index), (None, None, None))

    def test_a_number_that_is_too_large(self):
        refused = self.refusal(self.schema.encode, TOO_LARGE)
        self.assertEqual((refused.number, refused.name), (Fault.OUT_OF_RANGE, "OutOfRange"))
        self.assertEqual((refused.type_id, refused.slot), (7, 2))
        self.assertEqual((refused.offset, refused.lineno, refused.colno), (None, None, None))

    def test_bad_json(self):
        self.assertEqual(self.refusal(self.schema.encode, "{").number, Fault.BAD_JSON)

    def test_a_buffer_that_is_cut(self):
        buffer = self.schema.encode(JSON)
        for size in (0, 3, len(buffer) - 1):
            for call in (self.schema.verify, self.schema.decode):
                refused = self.refusal(call, buffer[:size])
                self.assertIsNotNone(refused.offset)
                self.assertIsNone(refused.lineno)

    def test_it_is_a_value_error(self):
        self.assertIsInstance(self.refusal(self.schema.encode, "{"), ValueError)

    def test_it_reads_well(self):
        refused = self.refusal(flatc.Schema, "// a\ntable T {\n  a:[[int]];\n}")
        self.assertEqual(str(refused), f"6 NestedVector: {refused.message} (line 3, column 6)")
        self.assertEqual(repr(refused), f"<flatc.Refused {refused}>")
        refused = self.refusal(self.schema.encode, TOO_LARGE)
        self.assertEqual(str(refused), f"72 OutOfRange: {refused.message}")


class Positions(unittest.TestCase):
    """Lines and columns, beside those of the explanation."""

    def test_positions(self):
        for before, position in {
            "": (1, 14),
            "\n\n": (3, 14),
            "// äöü \U0001f409\n": (2, 14),
            "/* äöü \U0001f409 */ ": (1, 26),
            "\ufeff": (1, 14),
            "\ufeff\n": (2, 14),
            "\r\n": (2, 14),
            "/* \u2028 */": (1, 21),
        }.items():
            with self.subTest(before), self.assertRaises(Refused) as caught:
                flatc.Schema(f"{before}table T {{ a:[[int]]; }} root_type T;")
            refused = caught.exception
            self.assertEqual((refused.lineno, refused.colno), position)
            self.assertIn(f"schema:{refused.lineno}:{refused.colno}:", refused.explain())

    def test_a_text_that_is_not_utf8(self):
        with self.assertRaises(Refused) as caught:
            flatc.Schema(b"table T { }\n// \xe4\xff")
        self.assertEqual((caught.exception.number, caught.exception.lineno), (Fault.NOT_UTF8, 2))


class Explanations(unittest.TestCase):
    def setUp(self):
        self.schema = flatc.Schema(TEXT)

    def refusal(self, call, *arguments, **options):
        with self.assertRaises(Refused) as caught:
            call(*arguments, **options)
        return caught.exception

    def test_of_json(self):
        for document in (TOO_LARGE, TOO_LARGE.encode(), bytearray(TOO_LARGE.encode())):
            refused = self.refusal(self.schema.encode, document)
            self.assertIn("JSON:1:", refused.explain())
            self.assertEqual(refused.explain(), refused.explain(TEXT, TOO_LARGE))

    def test_of_a_dict(self):
        self.assertIn("JSON:1:", self.refusal(self.schema.encode, {"name": "Orc", "hp": 70000}).explain())

    def test_of_a_buffer(self):
        cut = memoryview(self.schema.encode(JSON))[:-1]
        for call in (self.schema.verify, self.schema.decode):
            refused = self.refusal(call, cut)
            self.assertEqual(refused.explain(), refused.explain(TEXT, cut))

    def test_of_a_schema(self):
        text = "table T {\n  a:[[int]];\n}"
        refused = self.refusal(flatc.Schema, text)
        self.assertIn("schema:2:", refused.explain())
        self.assertEqual(refused.explain(), refused.explain(text))

    def test_with_options(self):
        refused = self.refusal(self.schema.encode, JSON, max_depth=1)
        self.assertEqual(refused.explain(), refused.explain(TEXT, JSON, max_depth=1))
        buffer = self.schema.encode(JSON, size_prefixed=True)[:-1]
        refused = self.refusal(self.schema.verify, buffer, size_prefixed=True)
        self.assertEqual(refused.explain(), refused.explain(TEXT, buffer, size_prefixed=True))

    def test_after_pickling(self):
        refused = pickle.loads(pickle.dumps(self.refusal(self.schema.encode, TOO_LARGE)))
        with self.assertRaises(ValueError):
            refused.explain()
        self.assertIn("JSON:1:", refused.explain(TEXT, TOO_LARGE))


class Processes(unittest.TestCase):
    """A refusal in another process reaches this one."""

    def same(self, refused, other):
        names = "number name offset type_id slot message lineno colno index".split()
        self.assertIs(type(other), Refused)
        self.assertEqual([getattr(refused, it) for it in names], [getattr(other, it) for it in names])
        self.assertEqual(str(refused), str(other))

    def test_pickled_and_copied(self):
        for call, source in (
            (flatc.Schema, "table T {\n a:[[int]]; }"),
            (flatc.Schema(TEXT).encode, TOO_LARGE),
            (flatc.Schema(TEXT).encode, memoryview(TOO_LARGE.encode())),
            (flatc.Schema(TEXT).verify, b""),
            (lambda it: [*flatc.Schema(TEXT).encode_stream(it)], [JSON, TOO_LARGE]),
        ):
            with self.assertRaises(Refused) as caught:
                call(source)
            refused = caught.exception
            for protocol in range(pickle.HIGHEST_PROTOCOL + 1):
                self.same(refused, pickle.loads(pickle.dumps(refused, protocol)))
            self.same(refused, copy.copy(refused))
            self.same(refused, copy.deepcopy(refused))

    def test_a_pool(self):
        schema = flatc.Schema(TEXT)
        with multiprocessing.get_context("spawn").Pool(2) as pool:
            wanted = [schema.encode(JSON)] * 3
            self.assertEqual(pool.map_async(schema.encode, [JSON] * 3).get(SECONDS), wanted)
            with self.assertRaises(Refused) as caught:
                pool.map_async(schema.encode, [JSON, TOO_LARGE]).get(SECONDS)
            self.assertEqual((caught.exception.number, caught.exception.slot), (Fault.OUT_OF_RANGE, 2))
            with self.assertRaises(Refused) as caught:
                pool.map_async(flatc.Schema, ["table T {\n  a:[[int]]; }"]).get(SECONDS)
            self.assertEqual((caught.exception.lineno, caught.exception.colno), (2, 6))


if __name__ == "__main__":
    unittest.main()
