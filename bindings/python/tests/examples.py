"""The files of examples/ that the tests read."""
from pathlib import Path

ROOT = Path(__file__).resolve().parents[3]
EXAMPLES = ROOT / "examples"
TEXT = (EXAMPLES / "monster.fbs").read_bytes()
JSON = (EXAMPLES / "monster.json").read_bytes()
