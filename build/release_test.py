#!/usr/bin/env python3
"""Tries build/release over a small repository, with scripts that build nothing: `build/release_test.py`."""

from __future__ import annotations

import os
import shutil
import subprocess
import sys
import tempfile
import unittest
from pathlib import Path
from typing import Tuple

TOP = Path(__file__).resolve().parent.parent
NOTE = '#!/bin/sh\necho "$0 $@" >>calls\n'
PACKS = """def build_wheel(folder):
    open(folder + "/mechdes.whl", "w").write("the wheel")
    return "mechdes.whl"
"""
FILES = {
    ".gitignore": "calls\ndist/\n__pycache__/\nkit/\nout/\n",
    "site/index.html": "the page",
    "page/check": NOTE + "exit $(cat status 2>/dev/null || echo 0)\n",
    "python/build": NOTE,
    "python/backend.py": PACKS,
    "build/libraries": NOTE + "mkdir -p crates/md_prog/out\necho the program >crates/md_prog/out/md_prog\n",
    "kit/bin/rt": NOTE,
    "kit/KIT-ID": "a kit of its own\n",
}


@unittest.skipIf(sys.version_info < (3, 11) or not shutil.which("git"), "no Python 3.11 or no git")
class ReleaseTest(unittest.TestCase):
    def setUp(self) -> None:
        room = tempfile.TemporaryDirectory()
        self.addCleanup(room.cleanup)
        self.top = Path(room.name).resolve()
        for name, text in FILES.items():
            self.write(name, text)
            (self.top / name).chmod(0o755)
        for name in ("release", "crates.py"):
            shutil.copy(TOP / "build" / name, self.top / "build" / name)
        self.git("init", "-q")
        self.commit()

    def write(self, name: str, text: str) -> None:
        (self.top / name).parent.mkdir(parents=True, exist_ok=True)
        (self.top / name).write_text(text)

    def git(self, *words: str) -> str:
        own = ["git", "-c", "user.name=a", "-c", "user.email=a@localhost", *words]
        return subprocess.run(own, cwd=self.top, check=True, stdout=subprocess.PIPE, text=True).stdout.strip()

    def commit(self) -> None:
        self.git("add", "-A")
        self.git("commit", "-qm", "all")

    def release(self, *words: str) -> Tuple[int, str]:
        """The status of a call, and what it told."""
        environment = {**os.environ, "PATH": f"{self.top / 'kit/bin'}:{os.environ['PATH']}", "CC": "git"}
        call = [sys.executable, str(self.top / "build/release"), *words]
        ran = subprocess.run(call, env=environment, stderr=subprocess.PIPE, text=True, timeout=60)
        return ran.returncode, ran.stderr

    def calls(self) -> list[str]:
        file = self.top / "calls"
        return file.read_text().splitlines() if file.exists() else []

    def test_all_is_there_with_its_sum(self) -> None:
        self.write("dist/old", "")
        status, told = self.release()
        self.assertEqual(status, 0, told)
        self.assertEqual(self.calls(), ["page/check ", "python/build ", "build/libraries --cpu x86-64-v2 md_prog"])
        dist = self.top / "dist"
        contents = {it.name: it.read_text() for it in dist.iterdir()}
        text, sums = contents.pop("PROVED.txt"), contents.pop("SHA256SUMS")
        self.assertEqual(contents, {"mechdes": "the program\n", "mechdes.html": "the page", "mechdes.whl": "the wheel"})
        for word in (f"commit {self.git('rev-parse', 'HEAD')}", "Kit: a kit of its own", "mechdes.whl", "git version"):
            self.assertIn(word, text)
        self.assertEqual([row.split()[1] for row in sums.splitlines()], ["mechdes", "mechdes.whl", "mechdes.html", "PROVED.txt"])
        subprocess.run(["sha256sum", "--quiet", "-c", "SHA256SUMS"], cwd=dist, check=True)

    def test_it_is_built_over_what_the_gate_left(self) -> None:
        self.assertEqual(self.release("--proved")[0], 0)
        self.assertEqual(self.calls()[1:], ["python/build --proved", "build/libraries --alone --cpu x86-64-v2 md_prog"])

    def test_changes_are_refused(self) -> None:
        self.write("site/index.html", "another page")
        self.assertEqual(self.release(), (1, "build/release: the checkout has changes that are not committed\n"))
        self.assertEqual(self.calls(), [])

    def test_a_page_of_other_files_is_refused(self) -> None:
        self.write("status", "1")
        self.commit()
        self.assertEqual(self.release(), (1, "build/release: page/check failed\n"))
        self.assertEqual(len(self.calls()), 1)
        self.assertFalse((self.top / "dist").exists())

    def test_other_words_are_refused(self) -> None:
        self.assertEqual(self.release("--all")[0], 64)


if __name__ == "__main__":
    unittest.main()
