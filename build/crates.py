"""The crates of the repository, the kit that proves them, and the records of what was built."""

from __future__ import annotations

import contextlib
import hashlib
import os
import shutil
from pathlib import Path
from typing import Dict, Iterator, List, Mapping, Sequence, Tuple

PARTS = ("src", "specs", "proofs")

Seen = List[Tuple[Path, int, int]]


class Failed(Exception):
    """What ends a call with the status 1, in words."""


def sum_of(*parts: object) -> str:
    return hashlib.sha256(repr(parts).encode()).hexdigest()


class Kit:
    """The Rattle kit: its folder, and the texts that tell it from another."""

    def __init__(self, rt: str) -> None:
        self.rt = Path(rt).resolve()
        self.folder = self.rt.parent.parent
        marks = [self.folder / name for name in ("KIT-ID", "WHAT")]
        self.marks = [it.read_text() for it in marks if it.is_file()]

    def line(self) -> str:
        """The line that `rt version` prints."""
        return self.marks[0].strip() if self.marks else "a kit without a name"

    def tool(self, name: str) -> str:
        return str(self.folder / "bin" / name)

    def library(self, name: str) -> str:
        return str(self.folder / "rlibs" / f"{name}.rlib")


def find_kit() -> Kit:
    found = shutil.which("rt")
    if not found:
        raise Failed("the command rt of the Rattle kit is not on the path")
    return Kit(found)


def files_of(folder: Path) -> Iterator[Path]:
    """The files that a proof of the crate in the folder reads, in a fixed order."""
    for part in PARTS:
        for at, folders, names in os.walk(folder / part):
            folders.sort()
            yield from (Path(at, name) for name in sorted(names))


class Crate:
    """A crate with those that it stands on, directly and in all, its lines, and the sum of its own files and of its line in
    crates.txt."""

    def __init__(self, folder: Path, row: Sequence[str], uses: Sequence[Crate], kit: Kit) -> None:
        self.folder, self.name, self.uses, self.kit = folder, folder.name, uses, kit
        below = {it.name: it for use in uses for it in [*use.below, use]}
        self.below: List[Crate] = [below[name] for name in sorted(below)]
        own = {it.name for it in uses}
        self.of_kit = ["std", *(it for it in row if it not in own and it not in ("std", "staticlib"))]
        is_program = (folder / "src/main.rt").is_file()
        self.kind = "program" if is_program else "archive" if "staticlib" in row else "library"
        files = [*files_of(folder)]
        self.seen, texts = self.see(), [it.read_bytes() for it in files]
        counts = [(it.suffix, text.count(b"\n")) for it, text in zip(files, texts)]
        self.source_lines = sum(lines for suffix, lines in counts if suffix == ".rt")
        self.lines = sum(lines for _, lines in counts)
        names = [str(it.relative_to(folder)) for it in files]
        self.sum = sum_of(kit.marks, [*row], names, texts)

    def see(self) -> Seen:
        """What tells whether anything was changed that it is built of."""
        files = [self.folder.parent.parent / "crates.txt", *files_of(self.folder)]
        return [(path, found.st_size, found.st_mtime_ns) for path in files for found in [path.lstat()]]

    def out(self, name: str) -> Path:
        return self.folder / "out" / name

    def rlib(self) -> Path:
        """The folder of the library, where `rt ci` leaves its own: the kit takes libraries from no other place."""
        return self.out("rlib") / f"{self.name}.rlib"

    def made(self) -> Path:
        """The file that is there once the crate is built."""
        if self.kind == "library":
            return self.rlib() / "format"
        return self.out(self.name if self.kind == "program" else f"lib{self.name}.a")

    def record(self) -> Path:
        """The file that tells of what it was built: a library's stands beside it, so that both go together."""
        return self.out("rlib/built" if self.kind == "library" else "built")

    def log(self) -> Path:
        return self.out("build.log")

    def built(self, cpu: str) -> str:
        """What the record holds where the crate was built of these files over the libraries as they are. The first word of a
        program's is the level of its instructions, which `mechdes` reads."""
        libraries = [*self.below, *[self] * (self.kind == "library")]
        formats = [(it.name, (it.rlib() / "format").read_bytes()) for it in libraries]
        return f"{cpu if self.kind == 'program' else self.kind} {self.sum} {sum_of(formats)}\n"

    def is_built(self, cpu: str) -> bool:
        """Whether it was built of these files over the libraries as they are, by this builder and by nothing else since. (The kit's
        own commands leave a stamp beside a library.)"""
        with contextlib.suppress(OSError):
            is_last = self.made().stat().st_mtime_ns <= self.record().stat().st_mtime_ns
            return is_last and not self.out("rlib/stamp").exists() and self.record().read_text() == self.built(cpu)
        return False


Row = Tuple[List[str], List[str]]


def listed(top: Path) -> Dict[str, Row]:
    """The words of each crate's line in crates.txt, by its name: those before the colon and those behind it."""
    found = {}
    for line in (top / "crates.txt").read_text().splitlines():
        head, _, uses = line.partition("#")[0].partition(":")
        if head.split():
            found[head.split()[0]] = (head.split()[1:], uses.replace(",", " ").split())
    return found


def crates_of(top: Path, name: str, kit: Kit) -> List[Crate]:
    """A crate and all that it stands on, each behind those that it stands on."""
    rows = listed(top)
    found: Dict[str, Crate] = {}

    def add(name: str) -> Crate:
        if name not in found:
            uses = [add(it) for it in rows[name][1] if it in rows]
            found[name] = Crate(top / "crates" / name, [*rows[name][0], *rows[name][1]], uses, kit)
        return found[name]

    if name not in rows:
        raise Failed(f"{name} is no crate of {top / 'crates.txt'}")
    add(name)
    return list(found.values())


def is_all_built(crates: Sequence[Crate], cpu: str) -> bool:
    return all(it.is_built(cpu) for it in crates)


def chains(crates: Sequence[Crate], weights: Mapping[Crate, float]) -> Dict[Crate, float]:
    """For each crate the weight of the longest chain from it upwards."""
    found: Dict[Crate, float] = {}
    for crate in reversed(crates):
        above = [found[it] for it in found if crate in it.uses]
        found[crate] = weights[crate] + max(above, default=0)
    return found


# The words of the kit's tools


def base_words(crate: Crate) -> List[str]:
    """The words that name a crate, its root and its libraries."""
    words = ["--crate-name", crate.name, "src/main.rt" if crate.kind == "program" else "src/lib.rt"]
    for name in crate.of_kit:
        words += ["--extern", f"{name}={crate.kit.library(name)}"]
    words += ["-L", f"dependency={crate.kit.folder / 'rlibs'}"]
    for it in crate.uses:
        words += ["--extern", f"{it.name}={it.rlib()}"]
    for it in crate.below:
        words += ["-L", f"dependency={it.rlib().parent}"]
    words += ["--antt-project", str(crate.kit.folder / "rattle/logic/antt-project.json"), "--links", f"{crate.name}="]
    return words + ["--crate-type", "staticlib"] * (crate.kind == "archive")


def commands_of(crate: Crate, jobs: int, cpu: str) -> List[List[str]]:
    """The commands that prove and build a crate, one behind the other, in its folder: those that `rt ci` calls."""
    rattle, toolchain = crate.kit.tool("rattle"), ["--toolchain", str(crate.kit.folder / "toolchain")]
    words = base_words(crate) + ["--cpu", cpu] * (crate.kind == "program")
    proof = ["--logic-built", str(crate.kit.folder / "logic_built"), "--jobs", str(jobs)]
    if crate.kind == "library":
        return [[rattle, "build", *words, *proof, "--statements", "-o", f"out/rlib/{crate.name}.rlib"]]
    if crate.kind == "archive":
        return [[rattle, "build", *words, *proof, *toolchain, "--backend", "llvm", "-o", f"out/lib{crate.name}.a"]]
    made, checked = f"out/{crate.name}", "out/checked"
    compiling = [rattle, "build", *words, "--crate-checked", checked, *toolchain, "--backend", "llvm", "-o", f"{made}.o"]
    linking = [crate.kit.tool("rattle-link"), "--target", "x86_64-unknown-linux-gnu", *toolchain, "-o", made, f"{made}.o"]
    system = [str(crate.kit.folder / "c" / name) for name in ("libos_c.a", "liblibc_c.a")]
    return [[rattle, "check", *words, *proof, "-o", checked], compiling, [*linking, *system]]


def clear_for(crate: Crate) -> None:
    """Removes what an earlier call made of a crate, also where it was stopped."""
    for name in ("rlib", "checked"):
        shutil.rmtree(crate.out(name), ignore_errors=True)
    with contextlib.suppress(FileNotFoundError):
        crate.out("built").unlink()
    crate.out("rlib" if crate.kind == "library" else "").mkdir(parents=True, exist_ok=True)

