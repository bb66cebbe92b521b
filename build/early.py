"""An answer before the proof: what the program prints before it is proved, shown on standard error while the proof goes on."""

from __future__ import annotations

import contextlib
import os
import re
import shutil
import signal
import stat
import subprocess
import sys
import tempfile
from pathlib import Path
from typing import List, NamedTuple, Optional, Sequence, Tuple

from machine import Group, processors, tell

MEMORY = 4_000_000_000  # what it counts for beside the proofs, with one processor
LONGEST_FILE = 1 << 20  # bytes
MOST_LINES = 200
LEFT_OUT = ("make", "drill", "explain")
MARK = "before the proof | "


class Answer(NamedTuple):
    """What a call of the program came to."""

    status: int
    out: bytes
    err: bytes


def as_data(words: Sequence[str]) -> Optional[Tuple[List[str], List[str]]]:
    """The words with a name of its own for each file, and what gives these names to `rt try`. None where a word is something else
    than a regular file that is short enough."""
    data: List[str] = []
    named: List[str] = []
    for number, word in enumerate(words):
        try:
            found = os.stat(word)
        except (OSError, ValueError):
            named.append(word)
            continue
        if not stat.S_ISREG(found.st_mode) or found.st_size > LONGEST_FILE:
            return None
        data += ["--data", f"f{number}={os.path.abspath(word)}"]
        named.append(f"f{number}")
    return data, named


def is_wanted(words: Sequence[str]) -> bool:
    """Whether an early answer to these words may be tried: it wants a processor of its own."""
    return os.environ.get("MECHDES_EARLY") != "0" and bool(words) and words[0] not in LEFT_OUT and processors() > 1


def answer_in(out: bytes, err: bytes) -> Optional[Answer]:
    """The answer in what `rt try` wrote: its own last lines are dropped. None where the program did not end by itself."""
    said = re.sub(rb"(?m)^checked: .*\n", b"", err)
    end = re.search(rb"(?m)^run=ended status=(\d+)\b.*\n?\Z", said)
    return Answer(int(end[1]), out, said[: end.start()]) if end else None


def shown(answer: Answer) -> List[str]:
    """The lines that show an answer, none where there are too many of them."""
    lines = (answer.out + answer.err).decode(errors="replace").splitlines()
    return [MARK + it for it in lines] if len(lines) <= MOST_LINES else []


class Early:
    """The program, compiled without a proof and run on the words of a call. Nothing of it is kept."""

    def __init__(self, group: Group, rt: str, top: Path, data: Sequence[str], words: Sequence[str]) -> None:
        self.room = Path(tempfile.mkdtemp(prefix="mechdes-early-"))
        self.answer: Optional[Answer] = None
        with open(self.room / "out", "wb") as out, open(self.room / "err", "wb") as err:
            how = {"cwd": top / "crates/md_prog", "stdout": out, "stderr": err}
            # (rt ends what it began when it is told to, so that it is told before its group is ended)
            self.process: Optional[subprocess.Popen[bytes]] = group.start([rt, "try", *data, "--", *words], **how)

    def is_running(self) -> bool:
        """Whether it is still at work. Its answer is shown once, when it has ended."""
        if self.process and self.process.poll() is not None:
            self.process = None
            self.show()
        return self.process is not None

    def show(self) -> None:
        found = answer_in((self.room / "out").read_bytes(), (self.room / "err").read_bytes())
        lines = shown(found) if found else []
        if found and lines:
            self.answer = found
            tell(f"the program answers, with the status {found.status}, but is not proved yet:")
            with contextlib.suppress(OSError):
                print(*lines, sep="\n", file=sys.stderr, flush=True)
            tell("the proof goes on; its answer comes on standard output")

    def end(self) -> None:
        """Ends it, and all that it began."""
        if self.process:
            with contextlib.suppress(ProcessLookupError):
                self.process.send_signal(signal.SIGTERM)
            with contextlib.suppress(subprocess.TimeoutExpired):
                self.process.wait(timeout=5)
            self.process = None
        shutil.rmtree(self.room, ignore_errors=True)


def begun(group: Group, rt: str, top: Path, words: Optional[Sequence[str]]) -> Optional[Early]:
    """An early answer to these words that is begun, if one may be tried."""
    if words is None or not is_wanted(words):
        return None
    found = as_data(words)
    return Early(group, rt, top, *found) if found else None


def answer_of(program: Path, words: Sequence[str]) -> Answer:
    """What the proved program answers."""
    ran = subprocess.run([str(program), *words], stdout=subprocess.PIPE, stderr=subprocess.PIPE)
    return Answer(ran.returncode if ran.returncode >= 0 else 128 - ran.returncode, ran.stdout, ran.stderr)


def print_proved(program: Path, words: Sequence[str], early: Answer) -> int:
    """Prints what the proved program answers, and returns its status; where the early answer was another one, says so, and returns
    1."""
    proved = answer_of(program, words)
    sys.stdout.buffer.write(proved.out)
    sys.stdout.buffer.flush()
    with contextlib.suppress(OSError):
        sys.stderr.buffer.write(proved.err)
        sys.stderr.buffer.flush()
    if proved != early:
        tell("the program answered otherwise before its proof: do not rely on either answer, and report this")
        return 1
    return proved.status
