"""measure SETTING...: runs `find` on settings, has what it prints checked, and tells the times.

It prints for each setting the seconds that `find` took (those that passed, and those of the processor), its status, what
`check` says and, where mechdes's program is there, what `mechdes check` says and the status of `mechdes solve`; then how
often each came, and the greatest times. The program is that of the variable MECHDES, or the one that the repository's tests
build.
"""

import collections
import os
import resource
import subprocess
import sys
import tempfile
import time
from pathlib import Path

from second_opinion.places import FOLDER, program_path


def run(*words: str | Path) -> tuple[int, bytes]:
    """The status of a command, and what it prints."""
    done = subprocess.run([str(word) for word in words], stdout=subprocess.PIPE, stderr=subprocess.DEVNULL)
    return done.returncode, done.stdout


def processor_seconds() -> float:
    """The processor time of all commands so far that have ended."""
    used = resource.getrusage(resource.RUSAGE_CHILDREN)
    return used.ru_utime + used.ru_stime


def main() -> None:
    """Runs and tells all."""
    program = program_path([])
    counts: collections.Counter[tuple[str, int | str]] = collections.Counter()
    times = []
    for setting in sys.argv[1:]:
        start, used = time.perf_counter(), processor_seconds()
        status, printed = run(FOLDER / "find", setting)
        times.append((time.perf_counter() - start, processor_seconds() - used))
        words: dict[str, int | str] = {"find": status}
        if printed:
            with tempfile.NamedTemporaryFile() as file:
                file.write(printed)
                file.flush()
                words["check"] = run(FOLDER / "check", setting, file.name)[1].decode().strip()
                if os.access(program, os.X_OK):
                    words["mechdes check"] = run(program, "check", setting, file.name)[1].decode().strip()
        if os.access(program, os.X_OK):
            words["mechdes solve"] = run(program, "solve", setting)[0]
        counts.update(words.items())
        said = ", ".join(f"{name}: {said}" for name, said in words.items())
        print("{:7.2f} s, {:6.2f} s,".format(*times[-1]), f"{Path(setting).name}, {said}", flush=True)
    for (name, word), count in sorted(counts.items(), key=str):
        print(f"{count:4} of {len(sys.argv) - 1}: {name}: {word}")
    print("greatest times of find: {:.2f} s, {:.2f} s".format(*map(max, zip(*times))))

