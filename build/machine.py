"""The machine: its processors, its memory, and processes that end together."""

from __future__ import annotations

import contextlib
import os
import re
import subprocess
import sys
from pathlib import Path
from typing import Any, Optional, Sequence

from crates import Failed

# The limit of the control group and what of it is in use, and its part of the processors with the period, in both versions of them.
MEMORY_LIMITS = [
    ("/sys/fs/cgroup/memory.max", "/sys/fs/cgroup/memory.stat", r"(?m)^anon (\d+)"),
    ("/sys/fs/cgroup/memory/memory.limit_in_bytes", "/sys/fs/cgroup/memory/memory.stat", r"(?m)^total_rss (\d+)"),
]
PROCESSOR_LIMITS = [
    ("/sys/fs/cgroup/cpu.max", "/sys/fs/cgroup/cpu.max", r" (\d+)"),
    ("/sys/fs/cgroup/cpu/cpu.cfs_quota_us", "/sys/fs/cgroup/cpu/cpu.cfs_period_us", r"(\d+)"),
]


def tell(text: object) -> None:
    """Writes a line to standard error, where there is one that takes it."""
    with contextlib.suppress(OSError):
        if sys.stderr:
            print(f"mechdes: {text}", file=sys.stderr, flush=True)


def number_in(file: str, pattern: str) -> Optional[int]:
    with contextlib.suppress(OSError):
        found = re.search(pattern, Path(file).read_text())
        return int(found[1]) if found else None
    return None


def processors() -> int:
    """How many processors there are to use: those of this process, or fewer by the limit of its control group."""
    wanted = os.environ.get("MECHDES_JOBS", "")
    if wanted:
        if not re.fullmatch("[1-9][0-9]{0,3}", wanted):
            raise Failed(f"MECHDES_JOBS is a number from 1 on, and not {wanted}")
        return int(wanted)
    found = len(os.sched_getaffinity(0))
    for quota, period, pattern in PROCESSOR_LIMITS:
        most, each = number_in(quota, r"^(\d+)"), number_in(period, pattern)
        if most and each:
            found = min(found, max(most // each, 1))
    return found


def free_memory() -> int:
    """The bytes that can still be taken, in the control group too."""
    found = [1024 * (number_in("/proc/meminfo", r"MemAvailable:\s+(\d+)") or 0)]
    for limit, used, pattern in MEMORY_LIMITS:
        most, taken = number_in(limit, r"^(\d+)"), number_in(used, pattern)
        if most is not None and taken is not None:
            found.append(most - taken)
    return min(found)


class Group:
    """Processes that end when this one ends, however it ends: a shell among them waits for the end of a pipe that this one
    holds."""

    def __init__(self) -> None:
        ends, self.held = os.pipe()
        how: Any = {"stdin": ends, "stdout": subprocess.DEVNULL, "stderr": subprocess.DEVNULL}
        self.guard = subprocess.Popen(["sh", "-c", "read _; kill -9 0"], preexec_fn=os.setpgrp, **how)
        os.close(ends)

    def start(self, words: Sequence[str], **how: Any) -> subprocess.Popen[bytes]:
        return subprocess.Popen(words, stdin=subprocess.DEVNULL, preexec_fn=lambda: os.setpgid(0, self.guard.pid), **how)

    def end(self) -> None:
        os.close(self.held)
        self.guard.wait()
