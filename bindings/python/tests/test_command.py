import subprocess
import sys
import tempfile
import unittest
from pathlib import Path

import flatc
from examples import EXAMPLES, JSON, TEXT

ORC, VALUE = str(EXAMPLES / "orc.fbs"), str(EXAMPLES / "orc.json")
REFUSED = EXAMPLES / "refused"


class Command(unittest.TestCase):
    def setUp(self):
        self.folder = tempfile.TemporaryDirectory()
        self.addCleanup(self.folder.cleanup)
        self.out = Path(self.folder.name, "out.bin")

    def run_it(self, *words, status=0, stdin=b"", **more):
        more = {"stdout": subprocess.PIPE, "stderr": subprocess.PIPE, "timeout": 60, "check": False, **more}
        run = subprocess.run([sys.executable, "-m", "flatc", *map(str, words)], input=stdin, **more)
        self.assertEqual(run.returncode, status, run)
        return run.stdout, run.stderr.decode()

    def test_there_and_back(self):
        schema = flatc.Schema(TEXT)
        monster, value = EXAMPLES / "monster.fbs", EXAMPLES / "monster.json"
        self.assertEqual(self.run_it("binary", monster, value, self.out), (b"", ""))
        self.assertEqual(self.out.read_bytes(), schema.encode(JSON))
        self.assertEqual(self.run_it("check", monster, self.out), (b"ok\n", ""))
        text = schema.decode(self.out.read_bytes()).encode()
        self.assertEqual(self.run_it("json", monster, self.out), (text, ""))

    def test_standard_streams(self):
        buffer, _ = self.run_it("binary", ORC, "-", "-", stdin=b'{"name": "Orc"}')
        self.assertEqual(buffer, flatc.Schema.from_file(ORC).encode({"name": "Orc"}))
        self.assertEqual(self.run_it("json", "--compact", ORC, "-", stdin=buffer), (b'{"name":"Orc"}', ""))
        self.assertEqual(self.run_it("check", "-", stdin=TEXT), (b"ok\n", ""))

    def test_options(self):
        hairy = b'{"name": "Orc", "hair": 1}'
        buffer, _ = self.run_it("binary", "--unknown-json", "--size-prefixed", ORC, "-", "-", stdin=hairy)
        text, _ = self.run_it("json", "--defaults-json", "--size-prefixed", ORC, "-", stdin=buffer)
        self.assertIn(b'"hp": 100', text)
        self.run_it("check", "--raw-binary", "--size-prefixed", ORC, "-", stdin=buffer)

    def test_versions(self):
        monsters = EXAMPLES / "monster.fbs", EXAMPLES / "monster_v2.fbs"
        self.assertEqual(self.run_it("conform", *monsters), (b"conforms\n", ""))
        broken = self.run_it("conform", ORC, REFUSED / "orc_v2.fbs", status=1)
        self.assertEqual(broken, (b"", "97 DefaultChanged in type 1 slot 1\n"))
        _, line = self.run_it("conform", REFUSED / "hp.fbs", ORC, status=1)
        self.assertEqual(line, "old: 12 BadDefault at 55\n")

    def test_refusals(self):
        words = "binary", ORC, REFUSED / "orc.json", self.out
        self.assertEqual(self.run_it(*words, status=1), (b"", "73 UnknownName in type 1 slot 2\n"))
        self.assertFalse(self.out.exists())
        _, lines = self.run_it(*words, "--explain", status=1)
        self.assertTrue(lines.startswith("73 UnknownName in type 1 slot 2\nJSON:3:21: "), lines)
        self.assertEqual(self.run_it("check", REFUSED / "hp.fbs", status=1), (b"", "12 BadDefault at 55\n"))

    def test_files(self):
        self.assertEqual(self.run_it("check", "missing.fbs", status=1), (b"", "110 FileRead\n"))
        _, lines = self.run_it("check", "--explain", "missing.fbs", status=1)
        self.assertEqual(lines, "110 FileRead\nmissing.fbs: No such file or directory\n")
        folder = self.folder.name
        self.assertEqual(self.run_it("binary", ORC, VALUE, folder, status=1), (b"", "111 FileWrite\n"))
        with open("/dev/full", "wb") as full:
            self.assertEqual(self.run_it("check", ORC, status=1, stdout=full), (None, "111 FileWrite\n"))

    def test_no_input_is_overwritten(self):
        schema, value = Path(self.folder.name, "orc"), Path(self.folder.name, "value")
        schema.write_bytes(Path(ORC).read_bytes())
        value.write_bytes(Path(VALUE).read_bytes())
        precious = Path(self.folder.name, "other.json")
        precious.write_bytes(b"{}")
        for out in (schema, value, precious):
            kept = out.read_bytes()
            self.assertEqual(self.run_it("binary", schema, value, out, status=1), (b"", "111 FileWrite\n"))
            self.assertEqual(out.read_bytes(), kept)

    def test_usage(self):
        for line in ("", "bite", "binary orc.fbs", "json --names orc.fbs orc.bin", "json - -", "conform orc.fbs"):
            out, said = self.run_it(*line.split(), status=2)
            self.assertEqual((out, said.startswith("usage: python -m flatc")), (b"", True), said)
        for line in ("--help", "binary --help", "--version"):
            self.run_it(*line.split())


if __name__ == "__main__":
    unittest.main()
