"""What the scripts of this folder share: the program, the calls that are tried, and calls with faults."""

import os
import pathlib
import subprocess
import sys
import tempfile

TOP = pathlib.Path(__file__).resolve().parent.parent
PROGRAM = pathlib.Path(os.environ.get("MECHDES_PROGRAM", TOP / "crates/md_prog/out/md_prog"))

# One call of each command on each kind of setting, and calls that are refused. The words are those of the program, in the
# folder of the examples.
CALLS = [
    "solve posted-price.toml",
    "solve vote.toml",
    "solve too-wide.toml",
    "solve unbounded-revenue.toml",
    "solve auction-single.toml",
    "solve auction-cuts.toml",
    "check posted-price.toml posted-price-answer.csv",
    "check too-wide.toml too-wide-answer.csv",
    "check auction-single.toml auction-single-answer.csv",
    "audit posted-price.toml posted-price.csv",
    "audit bilateral-trade.toml bilateral-trade-answer.csv",
    "audit subsidy.toml subsidy-none-required.csv",
    "rows posted-price.toml",
    "rows auction-single.toml",
    "fair welfare-vote.toml",
    "find too-wide.toml",
    "find posted-price.toml --from posted-price.csv",
    "findfair welfare-vote.toml",
    "check welfare-vote.toml welfare-vote-fairest.csv",
    "require school-quota.toml school-quota-3.csv",
    "require subsidy.toml subsidy-none.csv",
    "require revenue-floor.toml revenue-floor-6.csv",
    "check subsidy.toml subsidy-none-required.csv",
    "check revenue-floor.toml revenue-floor-6-required.csv",
    "check strong-and-weak.toml strong-and-weak-by-hand.csv",
    "check seats.toml seats-three.csv --units 3",
    "replay too-wide.toml too-wide-pivots.csv",
    "realise two-bidders.toml two-bidders-odds-by-value.csv",
    "realise two-bidders.toml two-bidders-odds-too-often.csv",
    "run two-goods.toml two-goods-answer.csv v3_3 0 0",
    "run auction-single.toml auction-single-answer.csv 8 0 0",
    "report bilateral-trade.toml bilateral-trade-answer.csv",
    "report auction-single.toml auction-single-answer.csv",
    "run strong-and-weak.toml strong-and-weak-by-hand.csv v3,v4 0 0",
    "run seats.toml seats-three.csv 2,2,2,2,3 0 0 --units 3",
    "report strong-and-weak.toml strong-and-weak-by-hand.csv",
    "report seats.toml seats-three.csv --units 3",
    "iron auction-single.toml",
    "asym strong-and-weak.toml",
    "units auction-cuts.toml 2",
    "ironunits seats.toml 3",
    "threshold used-car.toml 1",
    "threshold seats.toml 3",
    "award seats.toml 3 3,2,2,1,2 1",
    "determ two-goods.toml",
    "determcheck two-goods.toml two-goods-rule.csv",
    "make 1",
    "make 2",
    "drill 1",
    "drill 2",
    "solve",
    "make 1000000",
    "units auction-cuts.toml 13",
    "threshold seats.toml 13",
    "award seats.toml 3 3,2,2,1,2 3",
    "audit auction-single.toml posted-price.csv",
    "check posted-price.toml posted-price.toml",
    "require budget.toml school-quota-3.csv",
    "require auction-single.toml budget-1.csv",
    "check budget.toml budget-1.csv",
    "solve absent.toml",
    "check posted-price.toml absent.csv",
]

WANT_OF_MEMORY = b"mechdes: want of memory\n"
READ_FAULT = b"mechdes: read fault\n"


class Ended:
    """How a call ended, and how many requests, openings, reads, writes and faults there were."""

    def __init__(self, status, out, err, counts):
        self.status, self.out, self.err = status, out, err
        self.requests, self.openings, self.reads, self.writes, self.faults = counts

    def said(self):
        return self.status, self.out, self.err


class Faults:
    """The library that lets calls fail, compiled into a folder of its own."""

    def __enter__(self):
        self.folder = tempfile.TemporaryDirectory()
        self.library = os.path.join(self.folder.name, "faults.so")
        source = str(TOP / "hostile/faults.c")
        subprocess.run(["cc", "-O2", "-shared", "-fPIC", "-o", self.library, source, "-ldl"], check=True)
        self.counts = os.path.join(self.folder.name, "counts")
        return self

    def __exit__(self, *_):
        self.folder.cleanup()

    def call(self, words, **chosen):
        """Carries a call out, with the faults that are chosen, as `alloc=3` for the third request for memory."""
        environment = {"LD_PRELOAD": self.library, "FAULTS_COUNTS": self.counts}
        for kind, number in chosen.items():
            environment[f"FAULTS_{kind.upper()}"] = str(number)
        ran = subprocess.run([PROGRAM, *words.split()], cwd=TOP / "examples", env=environment, capture_output=True,
                             stdin=subprocess.DEVNULL, timeout=600)
        with open(self.counts) as counts:
            return Ended(ran.returncode, ran.stdout, ran.stderr, map(int, counts.read().split()))


class Tally:
    """How many trials there were, and what was wrong with some."""

    def __init__(self):
        self.tried = 0
        self.wrong = 0

    def expect(self, holds, what):
        self.tried += 1
        if not holds:
            self.wrong += 1
            print(f"wrong: {what}", file=sys.stderr)

    def end(self, what):
        print(f"{what}: {self.tried} tried, {self.wrong} wrong")
        sys.exit(1 if self.wrong else 0)
