"""The examples of README.md."""
import doctest
import os
import re
import shutil
import subprocess
import sys
import tempfile
import unittest
from pathlib import Path

from examples import EXAMPLES

PAGE = (Path(__file__).parents[1] / "README.md").read_text(encoding="utf-8")


def blocks(kind):
    return re.findall(rf"^```{kind}\n(.*?)^```", PAGE, re.M | re.S)


class Readme(unittest.TestCase):
    def test_python(self):
        parser, runner = doctest.DocTestParser(), doctest.DocTestRunner(optionflags=doctest.ELLIPSIS)
        lines = []
        runner.run(parser.get_doctest("".join(blocks("python")), {}, "README.md", "README.md", 0), out=lines.append)
        self.assertEqual(runner.failures, 0, "".join(lines))
        self.assertGreater(runner.tries, 10)

    def test_shell(self):
        with tempfile.TemporaryDirectory() as folder:
            shutil.copytree(EXAMPLES, folder, dirs_exist_ok=True)
            for step in "".join(blocks("console")).split("$ ")[1:]:
                line, _, wanted = step.partition("\n")
                words = line.replace("python3", sys.executable).split()
                env = {**os.environ, "PYTHONPATH": os.pathsep.join(sys.path)}
                pipes = {"stdout": subprocess.PIPE, "stderr": subprocess.STDOUT}
                run = subprocess.run(words, cwd=folder, env=env, **pipes, text=True, timeout=60, check=False)
                self.assertEqual(run.stdout, wanted, line)


if __name__ == "__main__":
    unittest.main()
