"""A folder to try a script on, made anew for each test."""
import subprocess
import tempfile
import unittest
from pathlib import Path


class Scratch(unittest.TestCase):
    def setUp(self):
        folder = tempfile.TemporaryDirectory()
        self.addCleanup(folder.cleanup)
        self.root = Path(folder.name)

    def write(self, name, text):
        path = self.root / name
        path.parent.mkdir(parents=True, exist_ok=True)
        path.write_text(text, encoding="utf-8")

    def run_script(self, name):
        """Runs tools/NAME on the folder. Its exit status, and what it printed."""
        script = Path(__file__).resolve().parent.parent / name
        done = subprocess.run([str(script), str(self.root)], capture_output=True, text=True, check=False)
        return done.returncode, done.stdout
