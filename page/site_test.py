#!/usr/bin/env python3
"""Tries page/build and page/check over small repositories, with a kit that proves and compiles nothing: `page/site_test.py`."""

from __future__ import annotations

import os
import re
import shutil
import subprocess
import sys
import tempfile
import unittest
from pathlib import Path
from typing import List, Tuple

TOP = Path(__file__).resolve().parent.parent
# A module that has a memory and nothing else, as it is compiled and as narrow.py leaves it, and another of the second kind.
WIDE = b"\0asm\1\0\0\0" + b"\1\1\0" + b"\3\1\0" + b"\5\3\1\4\1" + b"\x0a\1\0"
MODULE = WIDE.replace(b"\5\3\1\4\1", b"\5\3\1\0\1")
OTHER = WIDE.replace(b"\5\3\1\4\1", b"\5\3\1\0\2")
SENTENCES = "python/mechdes/refusals/sentences.json"
EXAMPLES = ("posted-price", "auction-reserve", "own", "calls")
# Leaves what rattle leaves, and notes its calls. Where it compiles, it gives its compiler a module of LLVM.
RATTLE = f"""#!{sys.executable}
import os, subprocess, sys
words = sys.argv[1:]
behind = lambda it: words[words.index(it) + 1]
name, made = behind("--crate-name"), behind("-o")
open("../../calls", "a").write(name + "\\n")
print("function by function")
if made.endswith(".rlib"):
    os.makedirs(made)
    open(made + "/format", "w").write(open("src/lib.rt").read())
else:
    open(made + ".bc", "w").write("of " + name)
    subprocess.run([behind("--toolchain") + "/bin/clang", made + ".bc", "-o", made], check=True)
"""
# Compiles everything to the same module.
CLANG = f"""#!{sys.executable}
import sys
open(sys.argv[sys.argv.index("-o") + 1], "wb").write({WIDE!r})
"""
# Writes a page with a module, as if it were made of the files as they are.
PACK = """import sys, crates, sheet, sums
sums.SITE.parent.mkdir(exist_ok=True)
sums.SITE.write_text(sheet.page(bytes.fromhex(sys.argv[1]), sheet.sums_now(crates.find_kit()).module))
"""
# Changes one file after the other, and tells which of the two sums differ by it.
CHANGED = """import os, sys, crates, sheet
before = sheet.sums_now(crates.find_kit())
for name in sys.argv[1:]:
    text = open(name).read() if os.path.exists(name) else None
    os.makedirs(os.path.dirname(name) or ".", exist_ok=True)
    more = {"crates.txt": "md_low: std\\n", "crates/md_cli_words/src/command.rt": '"more" => Some'}.get(name, "// more\\n")
    made = text.replace("{", '{"more": 1,', 1) if name.endswith(".json") else (text or "") + more
    open(name, "w").write(made)
    now = sheet.sums_now(crates.find_kit())
    print(name, now.module != before.module, now.page != before.page)
    os.remove(name) if text is None else open(name, "w").write(text)
"""


class Repository:
    """A throw-away repository with the page, a few examples, three crates and the kit above."""

    def __init__(self, top: Path) -> None:
        self.top = top
        for name in ("page", "build", "python/mechdes/refusals"):
            shutil.copytree(TOP / name, top / name, ignore=shutil.ignore_patterns("__pycache__", "mechdes.html", "tests"))
        few = [path for name in EXAMPLES for path in (TOP / "examples").glob(f"{name}*.*")]
        for path in (*few, *(TOP / it for it in ("HANDLES", "mechdes", "crates/md_cli_words/src/command.rt"))):
            self.write(str(path.relative_to(TOP)), path.read_text(encoding="utf-8"))
        self.write("crates.txt", "md_low:\nmd_embed staticlib: md_low\nmd_above: md_embed\n")
        for name in ("md_low", "md_embed", "md_above"):
            self.write(f"crates/{name}/src/lib.rt", f"// {name}\n")
        self.write("kit/KIT-ID", "a kit\n")
        for name, text in (("bin/rt", "#!/bin/sh\n"), ("bin/rattle", RATTLE), ("toolchain/bin/clang", CLANG)):
            self.write(f"kit/{name}", text)
            (top / "kit" / name).chmod(0o755)
        (top / "kit/toolchain/lib").mkdir()
        self.path = f"{top / 'kit/bin'}:{os.environ['PATH']}"

    def write(self, name: str, text: str) -> None:
        (self.top / name).parent.mkdir(parents=True, exist_ok=True)
        (self.top / name).write_text(text, encoding="utf-8")

    def change(self, name: str, more: str = "\n") -> None:
        self.write(name, (self.top / name).read_text(encoding="utf-8") + more)

    def run(self, *words: str) -> Tuple[int, str, str]:
        """The status of a call, what it printed and what it told."""
        own = {"PATH": self.path, "PYTHONPATH": "page:build", "PYTHONDONTWRITEBYTECODE": "1", "MECHDES_JOBS": "1"}
        environment = {**os.environ, **own}
        environment.pop("MECHDES_MODULE", None)
        ran = subprocess.run([sys.executable, *words], cwd=self.top, env=environment, capture_output=True, text=True, timeout=60)
        return ran.returncode, ran.stdout, ran.stderr

    def pack(self, module: bytes = MODULE) -> None:
        status, _, err = self.run("-c", PACK, module.hex())
        if status:
            raise RuntimeError(err)

    def site(self) -> Path:
        return self.top / "site/index.html"

    def proved(self) -> List[str]:
        """The crates whose proofs were begun."""
        file = self.top / "calls"
        return file.read_text().split() if file.exists() else []


class Case(unittest.TestCase):
    def setUp(self) -> None:
        room = tempfile.TemporaryDirectory()
        self.addCleanup(room.cleanup)
        self.made = Repository(Path(room.name).resolve() / "top")

    def check(self, *words: str) -> str:
        """What page/check finds, which agrees with its status."""
        status, out, err = self.made.run("page/check", *words)
        self.assertEqual((status, out), (1 if err else 0, ""))
        return err

    def build(self, *words: str) -> str:
        """What page/build tells on standard error, where all is well."""
        status, _, err = self.made.run("page/build", *words)
        self.assertEqual(status, 0, err)
        return err


class CheckTest(Case):
    def test_a_page_of_these_files_is_well(self) -> None:
        self.made.pack()
        self.assertEqual(self.check(), "")

    def test_a_page_that_is_not_there_is_missed(self) -> None:
        self.assertIn("there is no site/index.html", self.check())

    def test_what_the_module_is_made_of_is_told_from_the_page_around_it(self) -> None:
        of_module = ["HANDLES", "crates.txt", "kit/KIT-ID"]
        of_module += [f"page/{it}" for it in ("memory.c", "arithmetic.c", "narrow.py", "module.py")]
        of_module += [f"crates/{it}" for it in ("md_low/src/lib.rt", "md_embed/specs/Lib.antt", "md_embed/proofs/Laws.antt")]
        of_page = [f"page/{it}" for it in ("page.css", "main.js", "worker.js", "index.html", "own-auction.toml")]
        of_page += ["examples/posted-price.toml", "crates/md_cli_words/src/command.rt", SENTENCES]
        of_none = ["page/build", "build/libraries", "mechdes", "examples/calls.txt", "site/index.html"]
        of_none += [f"crates/{it}" for it in ("md_above/src/lib.rt", "md_embed/must-fail/first.edit")]
        named = [*of_module, *of_page, *of_none]
        status, out, err = self.made.run("-c", CHANGED, *named)
        self.assertEqual(status, 0, err)
        self.assertEqual(out.splitlines(), [f"{it} {it in of_module} {it in of_page}" for it in named])

    def test_the_sum_that_is_out_of_date_is_named(self) -> None:
        self.made.pack()
        self.made.change("page/page.css", "/* more */\n")
        self.assertEqual(re.findall("mechdes-[a-z]+", self.check()), ["mechdes-page"])
        self.made.change("crates/md_embed/src/lib.rt", "// more\n")
        self.assertEqual(re.findall("mechdes-[a-z]+", self.check()), ["mechdes-module", "mechdes-page"])
        self.made.pack()
        self.made.change("HANDLES")
        self.assertEqual(re.findall("mechdes-[a-z]+", self.check()), ["mechdes-module"])

    def test_what_was_changed_in_the_page_itself_is_found(self) -> None:
        self.made.pack()
        text = self.made.site().read_text()
        self.made.write("site/index.html", text.replace("<h1>", "<h1>best "))
        self.assertIn("it was changed after it was written", self.check())
        self.made.write("site/index.html", text.replace('id="module">', 'id="module">AAAA'))
        self.assertIn("cannot be unpacked", self.check())
        self.made.write("site/index.html", "<<<<<<<")
        self.assertIn("is no page of mechdes", self.check())

    def test_the_sums_are_the_same_in_another_folder(self) -> None:
        self.made.pack()
        moved = self.made.top.parent / "elsewhere"
        shutil.move(str(self.made.top), moved)
        self.made.path = self.made.path.replace(str(self.made.top), str(moved))
        self.made.top = moved
        self.assertEqual(self.check(), "")

    def test_the_kit_is_missed(self) -> None:
        self.made.pack()
        self.made.path = "/nowhere"
        self.assertIn("rt of the Rattle kit is not on the path", self.check())

    def test_the_whole_is_compared(self) -> None:
        self.made.pack(OTHER)
        self.assertEqual(self.check(), "")
        status, _, err = self.made.run("page/check", "--whole")
        self.assertEqual(status, 1)
        self.assertIn("its module is not the one that these files make", err)
        self.made.pack()
        self.assertEqual(self.made.run("page/check", "--whole")[0], 0)

    def test_other_words_are_refused(self) -> None:
        for words in (["--proved"], ["--all"], ["site/index.html"]):
            self.assertEqual(self.made.run("page/check", *words)[0], 64)
        self.assertEqual(self.made.run("page/build", "--all")[0], 64)


class BuildTest(Case):
    def test_the_page_is_built_quietly_and_stays(self) -> None:
        told = self.build("--site")
        self.assertEqual(self.made.proved(), ["md_low", "md_embed"])
        self.assertNotIn("function by function", told)
        log = self.made.top / "crates/md_embed/out/build.log"
        self.assertEqual(log.read_text(), "function by function\n")
        self.assertEqual(self.check(), "")
        before = self.made.site().stat().st_mtime_ns
        self.assertEqual(self.build("--site"), "")
        self.assertEqual(self.made.site().stat().st_mtime_ns, before)

    def test_both_pages_are_the_same(self) -> None:
        self.build()
        self.build("--site")
        self.assertEqual(self.made.site().read_bytes(), (self.made.top / "page/mechdes.html").read_bytes())
        self.assertEqual(self.made.proved(), ["md_low", "md_embed"])

    def test_the_old_module_is_packed_anew_without_a_proof(self) -> None:
        self.made.pack(OTHER)
        self.made.change("page/page.css", "/* more */\n")
        self.build("--site")
        self.assertEqual(self.made.proved(), [])
        self.assertEqual(self.check(), "")
        code = "import sums; print(sums.module_in(sums.SITE.read_text()).hex())"
        self.assertEqual(self.made.run("-c", code)[1], f"{OTHER.hex()}\n")

    def test_another_module_is_proved(self) -> None:
        self.made.pack(OTHER)
        self.made.change("crates/md_low/src/lib.rt", "// more\n")
        self.build("--site")
        self.assertEqual(self.made.proved(), ["md_low", "md_embed"])
        self.assertEqual(self.check("--whole"), "")

    def test_a_broken_page_is_made_anew(self) -> None:
        self.made.write("site/index.html", "<<<<<<<")
        self.build("--site")
        self.assertEqual(self.check(), "")

    def test_a_module_that_is_given_has_no_sum(self) -> None:
        self.made.write("given.bc", "of somebody")
        path = f"PATH={self.made.path}"
        words = ["env", path, "MECHDES_MODULE=given.bc", sys.executable, "page/build", "--site"]
        self.assertEqual(subprocess.run(words, cwd=self.made.top, capture_output=True).returncode, 0)
        self.assertEqual(self.made.proved(), [])
        self.assertIn("mechdes-module", self.check())

    def test_a_proof_that_fails_is_told_in_a_line(self) -> None:
        self.build()
        self.made.write("kit/bin/rattle", "#!/bin/sh\necho wrong\nexit 1\n")
        self.made.change("crates/md_embed/src/lib.rt", "// more\n")
        status, _, err = self.made.run("page/build")
        self.assertEqual(status, 1)
        self.assertRegex(err, r"page/build: the library was not built: see .*/md_embed/out/build.log\n$")


class GateTest(Case):
    """Over libraries as `rt ci` leaves them."""

    def setUp(self) -> None:
        super().setUp()
        self.made.write("crates/md_low/out/rlib/md_low.rlib/format", "of rt ci")

    def test_they_are_not_built_again(self) -> None:
        self.build("--site", "--proved")
        self.assertEqual(self.made.proved(), ["md_embed"])
        self.assertEqual(self.check("--whole", "--proved"), "")

    def test_others_are_refused(self) -> None:
        for mark in ("stamp", "built"):
            self.made.write(f"crates/md_low/out/rlib/{mark}", "")
            status, _, err = self.made.run("page/build", "--site", "--proved")
            self.assertEqual(status, 1)
            self.assertIn(f"crates/md_low/out/rlib/{mark} says that another command than `rt ci` made this library", err)
            (self.made.top / f"crates/md_low/out/rlib/{mark}").unlink()
        shutil.rmtree(self.made.top / "crates/md_low/out")
        self.assertIn("`rt ci` has left no library of md_low", self.made.run("page/build", "--proved")[2])
        self.assertEqual(self.made.proved(), [])


if __name__ == "__main__":
    unittest.main()
