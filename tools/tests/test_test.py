"""tools/test with an rt that only prints: when it fails, and what its last line is."""
import os
import pathlib
import shutil
import subprocess
import tempfile
import unittest

TOOLS = pathlib.Path(__file__).resolve().parent.parent
AFTER = ["tools/numbers", "tools/papers", "rust/programs/test", "rust/test", "arm/test"]
OK = "rt: ok; handles allowed: none; must-fail edits: 4 refused{}; every proof was done in this run"
COUNT = "9 passed, 0 failed"


class Gate(unittest.TestCase):
    def setUp(self):
        folder = tempfile.TemporaryDirectory()
        self.addCleanup(folder.cleanup)
        self.root = pathlib.Path(folder.name)
        (self.root / "tools/tests").mkdir(parents=True)
        shutil.copy(TOOLS / "test", self.root / "tools")
        for path in AFTER:
            self.script(path, f"echo {path}")
        self.script("python3", "echo unit tests")

    def script(self, path, text):
        file = self.root / path
        file.parent.mkdir(parents=True, exist_ok=True)
        file.write_text(f"#!/bin/sh\n{text}\n")
        file.chmod(0o755)

    def gate(self, *said, status=0):
        lines = "\n".join(said)
        self.script("rt", f"[ \"$*\" = ci ] || exit 9\ncat <<'END'\n{lines}\nEND\nexit {status}")
        path = {**os.environ, "PATH": f"{self.root}:{os.environ['PATH']}"}
        return subprocess.run([self.root / "tools/test"], env=path, capture_output=True, text=True)

    def fails(self, ran, text):
        self.assertNotEqual(ran.returncode, 0)
        self.assertIn(text, ran.stdout + ran.stderr)
        self.assertNotIn("tools/numbers\n", ran.stdout)

    def test_all_well(self):
        for edits in ("", ", 1 of them only by a limit"):
            ran = self.gate("rt: one proved", OK.format(edits), COUNT)
            lines = ["rt: one proved", OK.format(edits), *AFTER[:2], "unit tests", *AFTER[2:], COUNT]
            self.assertEqual((ran.stdout.splitlines(), ran.returncode), (lines, 0))

    def test_not_proved(self):
        ran = self.gate("rt: FAILED: one", "8 passed, 1 failed", status=1)
        self.fails(ran, "8 passed, 1 failed")
        self.assertEqual(ran.stdout.splitlines()[-1], "8 passed, 1 failed")

    def test_bad_edit(self):
        for edits in (", 1 bad", ", 2 of them only by a limit, 13 bad"):
            ran = self.gate(OK.format(edits), COUNT)
            self.fails(ran, f"tools/test: must-fail edits: 4 refused{edits}")
            self.assertNotIn(COUNT, ran.stdout)

    def test_no_line_ok(self):
        self.fails(self.gate("rt: one proved", COUNT), "rt ci has no line 'rt: ok'")

    def test_a_later_step_fails(self):
        self.script("arm/test", "exit 1")
        ran = self.gate(OK.format(""), COUNT)
        self.assertNotEqual(ran.returncode, 0)
        self.assertNotIn(COUNT, ran.stdout)


if __name__ == "__main__":
    unittest.main()
