"""Makes the module of the page: proves the library, and compiles it for browsers.

What was proved of these files is not proved again; the rest is proved as for the program, by build/libraries. The kit's own way to
WebAssembly refuses a library that allocates. So the library is built for x86-64 as python/build does, with the module of LLVM kept
that its compiler is given; that module is then compiled for WebAssembly by the same compiler, and linked with memory.c and
arithmetic.c. What comes has addresses of 64 bits, which few browsers take; narrow.py makes 32 bits of them where they meet the
memory.
"""

from __future__ import annotations

import os
import re
import subprocess
import sys
import tempfile
import time
from pathlib import Path
from typing import Iterable, List, Optional, Sequence

from narrow import narrowed
from sums import LIBRARY, TOP

from crates import Crate, Failed, Kit, base_words, crates_of

HERE = Path(__file__).resolve().parent
TARGET = "wasm64-unknown-unknown"
EXPORTS = ["mechdes_call", "page_take", "page_give"]
STACK = 1 << 20
LEVEL = "x86-64"
SECONDS_BETWEEN_LINES = 30


def tell(text: str) -> None:
    print(f"{os.path.relpath(sys.argv[0], TOP)}: {text}", file=sys.stderr, flush=True)


def clang(kit: Kit) -> Path:
    return kit.folder / "toolchain/bin/clang"


def run(words: Iterable[object], tool: Path) -> None:
    """Runs the kit's compiler, or under another name one of the tools that it is, too."""
    subprocess.run([str(it) for it in words], executable=tool, check=True)


# The library


def libraries_of_gate(below: Sequence[Crate]) -> None:
    """Looks whether the libraries are those that `rt ci` has left."""
    for mark in (it.out(f"rlib/{name}") for it in below for name in ("stamp", "built")):
        if mark.exists():
            where = mark.relative_to(TOP)
            raise Failed(f"{where} says that another command than `rt ci` made this library: run .ci/run in a clean clone")
    for it in below:
        if not it.made().exists():
            raise Failed(f"`rt ci` has left no library of {it.name}")


def toolchain(kit: Kit, room: Path, kept: Path) -> Path:
    """A folder like the kit's toolchain, whose compiler keeps the module that it is given, and makes little of it, since what it makes
    for x86-64 is not used here."""
    bin_folder = room / "toolchain/bin"
    bin_folder.mkdir(parents=True)
    (room / "toolchain/lib").symlink_to(kit.folder / "toolchain/lib")
    for tool in clang(kit).parent.iterdir():
        if tool.name != "clang":
            (bin_folder / tool.name).symlink_to(tool)
    wrapper = bin_folder / "clang"
    keeps = f'for word in "$@"; do\n    case $word in *.bc) cp "$word" "{kept}" ;; esac\ndone'
    wrapper.write_text(f'#!/bin/sh\n{keeps}\nexec "{clang(kit)}" "$@" -O0\n')
    wrapper.chmod(0o755)
    return room / "toolchain"


def proved(crate: Crate, room: Path) -> Path:
    """Proves the library, and gives the module of LLVM that it is compiled from."""
    fresh = room / "module.bc"
    words = [crate.kit.tool("rattle"), "build", *base_words(crate), "--cpu", LEVEL, "--jobs", "2", "--backend", "llvm"]
    words += ["--logic-built", str(crate.kit.folder / "logic_built"), "--toolchain", str(toolchain(crate.kit, room, fresh))]
    tell(f"proving and compiling the library; what the prover says stands in {crate.log()}")
    with open(crate.log(), "wb") as log:
        words += ["-o", str(room / "unused.a")]
        if waited(subprocess.Popen(words, cwd=crate.folder, stdout=log, stderr=log), "proving and compiling the library"):
            raise Failed(f"the library was not built: see {crate.log()}")
    return fresh


def waited(process: "subprocess.Popen[bytes]", what: str) -> int:
    """Waits for a process, and tells each half minute that it is at work. Returns its status."""
    began = time.monotonic()
    try:
        while True:
            try:
                return process.wait(timeout=SECONDS_BETWEEN_LINES)
            except subprocess.TimeoutExpired:
                tell(f"{what} ({time.monotonic() - began:.0f} s)")
    finally:
        if process.poll() is None:
            process.kill()
            process.wait()


def module_of_library(kit: Kit, room: Path, over_gate: bool) -> Path:
    """The module of LLVM that the library is compiled from. What it stands on is proved first, where it was not; or it is what `rt ci`
    has left, where that is asked for."""
    crate = crates_of(TOP, LIBRARY, kit)[-1]
    if over_gate:
        libraries_of_gate(crate.below)
    elif subprocess.run([str(TOP / "build/libraries"), "--below", LIBRARY]).returncode:
        raise Failed("what the library stands on was not built")
    kept, record = crate.out("module.bc"), crate.out("module.built")
    if not (kept.exists() and record.exists() and record.read_text() == crate.built(LEVEL)):
        kept.parent.mkdir(parents=True, exist_ok=True)
        kept.write_bytes(proved(crate, room).read_bytes())
        record.write_text(crate.built(LEVEL))
    return kept


# The module for browsers


def for_wasm(text: str) -> str:
    """The text of a module for x86-64 as one for WebAssembly: another target, and none of the attributes that speak of a processor.
    Sizes and alignments are the same in both."""
    if re.search(r'\basm (?:\w+ )*"|@llvm\.x86\.|x86_fp80', text):
        raise Failed("the module of the library has code that is for x86-64 alone")
    text = re.sub(r"(?m)^target datalayout = .*\n", "", text)
    text = re.sub(r"(?m)^target triple = .*$", f'target triple = "{TARGET}"', text)
    return re.sub(r"(?m)^attributes #\d+ = .*$", lambda found: re.sub(r' "[^"]*"="[^"]*"', "", found[0]), text)


def compiled(kit: Kit, room: Path, module: Path) -> bytes:
    """The module for browsers, made of a module of LLVM for x86-64."""
    text, changed, tool = room / "module.ll", room / "wasm.ll", clang(kit)
    reading = ["--target=x86_64-unknown-linux-gnu", "-x", "ir", module, "-S", "-emit-llvm", "-Xclang", "-disable-llvm-passes"]
    run(["clang", *reading, "-o", text], tool)
    changed.write_text(for_wasm(text.read_text()))
    how = ["clang", f"--target={TARGET}", "-mcpu=lime1", "-ffunction-sections", "-fdata-sections", "-Werror", "-c"]
    run([*how, "-O3", "-x", "ir", changed, "-o", room / "library.o"], tool)
    for name in ("memory", "arithmetic"):
        run([*how, "-O2", "-ffreestanding", "-fno-builtin", HERE / f"{name}.c", "-o", room / f"{name}.o"], tool)
    words: List[object] = ["-mwasm64", "--no-entry", "--gc-sections", "--stack-first", "-z", f"stack-size={STACK}", "-s"]
    words += [*(f"--export={it}" for it in EXPORTS), "-o", room / "mechdes.wasm"]
    run(["wasm-ld", *words, *(room / f"{it}.o" for it in ("library", "memory", "arithmetic"))], tool)
    return narrowed((room / "mechdes.wasm").read_bytes())


def made(kit: Kit, over_gate: bool, given: Optional[Path] = None) -> bytes:
    """The module for browsers, of the library, or of a module of LLVM that is given."""
    with tempfile.TemporaryDirectory() as folder:
        room = Path(folder)
        return compiled(kit, room, given or module_of_library(kit, room, over_gate))
