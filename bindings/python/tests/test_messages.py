import json
import unittest

import flatc
from examples import EXAMPLES, JSON, ROOT, TEXT


class Messages(unittest.TestCase):
    def setUp(self):
        self.schema = flatc.Schema(TEXT)

    def test_a_monster_there_and_back(self):
        buffer = self.schema.encode(JSON)
        self.assertIs(type(buffer), bytes)
        self.assertEqual(buffer[4:8], b"MONS")
        self.assertIsNone(self.schema.verify(buffer))
        self.assertEqual(json.loads(self.schema.decode(buffer)), json.loads(JSON))

    def test_a_schema_in_a_file(self):
        schema = flatc.Schema.from_file(EXAMPLES / "monster.fbs")
        self.assertEqual(schema.encode(JSON), self.schema.encode(JSON))
        self.assertEqual(schema.text, TEXT.decode())

    def test_text_may_be_str(self):
        self.assertEqual(flatc.Schema(TEXT.decode()).encode(JSON.decode()), self.schema.encode(JSON))

    def test_a_dict_is_a_document(self):
        document = {"name": "Ünî \U0001f409", "hp": -7, "colors": ["Red", 2], "at": {"x": 1, "y": 2, "z": 3}}
        buffer = self.schema.encode(document)
        self.assertEqual(buffer, self.schema.encode(json.dumps(document)))
        self.assertEqual(json.loads(self.schema.decode(buffer))["name"], document["name"])

    def test_the_buffer_and_the_text_of_the_repository(self):
        buffer = bytes.fromhex((ROOT / "tests/monster.hex").read_text(encoding="ascii"))
        self.assertEqual(self.schema.encode(JSON), buffer)
        self.assertEqual(self.schema.decode(buffer), (ROOT / "tests/monster.printed.json").read_text(encoding="utf-8"))


class Options(unittest.TestCase):
    def setUp(self):
        self.schema = flatc.Schema(TEXT)

    def test_defaults_are_printed_where_asked(self):
        buffer = self.schema.encode({"name": "Orc"})
        self.assertEqual(json.loads(self.schema.decode(buffer)), {"name": "Orc"})
        self.assertEqual(json.loads(self.schema.decode(buffer, defaults_json=True))["hp"], 100)

    def test_unknown_fields_are_ignored_where_asked(self):
        bald, hairy = {"name": "Orc"}, {"name": "Orc", "hair": 1}
        with self.assertRaises(flatc.Refused):
            self.schema.encode(hairy)
        self.assertEqual(self.schema.encode(hairy, unknown_json=True), self.schema.encode(bald))

    def test_a_length_is_first_where_asked(self):
        buffer = self.schema.encode(JSON, size_prefixed=True)
        self.assertEqual(int.from_bytes(buffer[:4], "little"), len(buffer) - 4)
        self.assertEqual(buffer[8:12], b"MONS")
        self.schema.verify(buffer, size_prefixed=True)
        self.assertEqual(json.loads(self.schema.decode(buffer, size_prefixed=True)), json.loads(JSON))
        with self.assertRaises(flatc.Refused):
            self.schema.verify(buffer)

    def test_a_text_is_compact_where_asked(self):
        text = self.schema.decode(self.schema.encode(JSON), compact=True)
        self.assertEqual(text, json.dumps(json.loads(JSON), separators=(",", ":")))

    def test_the_identifier_is_skipped_where_asked(self):
        buffer = self.schema.encode(JSON).replace(b"MONS", b"BEES", 1)
        with self.assertRaises(flatc.Refused) as caught:
            self.schema.decode(buffer)
        self.assertEqual(caught.exception.number, flatc.Fault.WRONG_IDENTIFIER)
        self.schema.verify(buffer, raw_binary=True)
        self.assertEqual(json.loads(self.schema.decode(buffer, raw_binary=True)), json.loads(JSON))

    def test_limits(self):
        with self.assertRaises(flatc.Refused) as caught:
            self.schema.encode(JSON, max_depth=1)
        self.assertEqual(caught.exception.number, flatc.Fault.JSON_TOO_DEEP)
        with self.assertRaises(flatc.Refused) as caught:
            self.schema.encode(JSON, max_cells=1)
        self.assertEqual(caught.exception.number, flatc.Fault.JSON_TOO_MANY_CELLS)

    def test_limits_out_of_range_are_no_refusal(self):
        for options in ({"max_depth": 0}, {"max_depth": 128}, {"max_depth": 256 + 64}, {"max_depth": -192}):
            with self.subTest(options), self.assertRaises(ValueError) as caught:
                self.schema.encode(JSON, **options)
            self.assertNotIsInstance(caught.exception, flatc.Refused)
        for cells in (-1, 1 << 32, (1 << 32) + 100_000):
            with self.subTest(cells), self.assertRaises(ValueError) as caught:
                self.schema.verify(b"", max_cells=cells)
            self.assertNotIsInstance(caught.exception, flatc.Refused)

    def test_each_method_has_only_its_own_options(self):
        others = {
            self.schema.encode: ("raw_binary", "defaults_json", "compact", "deepness"),
            self.schema.decode: ("unknown_json", "deepness"),
            self.schema.verify: ("unknown_json", "defaults_json", "compact", "deepness"),
            self.schema.encode_stream: ("raw_binary", "defaults_json", "compact", "size_prefixed"),
            self.schema.decode_stream: ("unknown_json", "size_prefixed"),
        }
        for method, names in others.items():
            for name in names:
                with self.subTest(f"{method.__name__}: {name}"), self.assertRaises(TypeError):
                    method(b"{}", **{name: True})

    def test_options_are_keywords(self):
        with self.assertRaises(TypeError):
            self.schema.encode(JSON, True)


class Versions(unittest.TestCase):
    def setUp(self):
        self.schema = flatc.Schema(TEXT)

    def test_a_schema_conforms_to_itself_and_to_a_copy(self):
        self.schema.conform(self.schema)
        self.schema.conform(flatc.Schema(TEXT))

    def test_a_later_version_conforms(self):
        self.schema.conform(flatc.Schema.from_file(EXAMPLES / "monster_v2.fbs"))

    def test_a_field_of_another_type_breaks(self):
        newer = flatc.Schema(TEXT.replace(b"hp:short = 100", b"hp:int = 100"))
        with self.assertRaises(flatc.Refused) as caught:
            self.schema.conform(newer)
        refused = caught.exception
        self.assertEqual((refused.number, refused.slot), (flatc.Fault.FIELD_TYPE_CHANGED, 2))
        self.assertIn("Monster.hp", refused.explain())
        self.assertEqual(refused.explain(), refused.explain(TEXT, newer.text))

    def test_the_library_and_the_package_have_one_version(self):
        self.assertEqual(".".join(map(str, flatc.version())), flatc.__version__)


if __name__ == "__main__":
    unittest.main()
