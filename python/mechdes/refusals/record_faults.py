"""Finds in a file of records what it was refused for: in an answer, or in a file of conditions, of pivots or of odds."""

from __future__ import annotations

import itertools
import math
import re
from typing import Iterator, List, NamedTuple, Optional, Sequence, Tuple

from .faults import TABLE, Fault, asked_for, between, counted, listed, nearest, quoted
from .setting_faults import CALLED, Setting, not_a_sale

ANSWERS, RECORDS, NAMED = TABLE["answers"], TABLE["records"], TABLE["named"]
FIELD = re.compile(r'"([^"]*(?:""[^"]*)*)(?:"([^,\r\n]*)|\Z)|([^,\r\n]*)')
NUMBER = re.compile(r"0|-?[1-9][0-9]*")
CONDITIONS = " ".join(TABLE["conditions"].values()).split()
MOST_DIGITS = 60
UNITS_PARTS = 27720  # a number that 1 to 12 divide: the draws of several units are so many times finer


class Record(NamedTuple):
    """The fields of a record, with its place."""

    fields: List[str]
    at: int


def _field_at(text: str, at: int) -> Tuple[str, int]:
    """The field at a place of a text, and where it ends."""
    match = FIELD.match(text, at)
    assert match is not None  # an empty field matches
    whole, rest, plain = match.groups()
    return plain if whole is None else whole.replace('""', '"') + (rest or ""), match.end()


def read_records(text: str) -> Iterator[Record]:
    """The records of a file, one after the other; lines in which nothing stands are passed over."""
    at = 1 if text.startswith("\ufeff") else 0
    while at < len(text):
        if text[at] in "\r\n":
            at += 1
            continue
        record, separator = Record([], at), ","
        while separator == ",":
            field, end = _field_at(text, at)
            record.fields.append(field)
            at, separator = end + 1, text[end : end + 1]
        yield record


class Asked(NamedTuple):
    """What a call asks about a file: its command, how many units it is about, if it says so, and the setting."""

    command: str
    units: Optional[int]
    setting: Setting


class Step(NamedTuple):
    """Records of one word that stand next: the name of their form, and how many there are, or None for any number."""

    name: str
    times: Optional[int]

    @property
    def words(self) -> List[str]:
        """The words that these records may begin with."""
        if self.name == "condition":
            return [*TABLE["conditions"]]
        return {"tree": ["branch", "leaf"], "face": ["row"]}.get(self.name, [self.name.partition("_")[0]])


class Walk:
    """The forms of the records of a file, in their order, and what was said so far."""

    def __init__(self, asked: Asked, kind: str, steps: str) -> None:
        self.asked, self.setting, self.kind = asked, asked.setting, kind
        self.steps = self._parsed(steps)
        self.turn = 0  # how many records of this step there were
        self.denominator = 0
        self.last = -1  # the index before
        self.sets: List[int] = []
        self.conditions = self.condition_rows = 0

    def size(self, name: str) -> int:
        """How many there are of something."""
        setting = self.setting
        if name in ("values", "counts"):
            values = len(setting.top["values"])
            return values if name == "values" else math.comb(setting.top["bidders"].value + values - 1, values - 1)
        if name == "own":
            return len(setting.types()[self.turn])
        profiles = setting.count_of("profile", None)
        paid = profiles if setting.top["payments"].value else 0
        return {"profiles": profiles, "paid": paid, "agents": len(setting.agents), "outcomes": len(setting.outcomes)}[name]

    def _parsed(self, steps: str) -> List[Step]:
        found = []
        for step in steps.split():
            name, star, times = step.partition("*")
            found.append(Step(name, self.size(times) if times else None if star else 1))
        return found

    def next_form(self, fields: Sequence[str]) -> Tuple[Optional[str], List[str]]:
        """The form of the next record, which is passed over, or None where its word may not stand there; and the words that may."""
        words: List[str] = []
        while self.steps:
            step = self.steps[0]
            if step.times == 0:
                self._drop()
                continue
            words += step.words
            if fields and fields[0] in step.words:
                return self._taken(step, fields), words
            if step.times is not None:
                break
            self._drop()
        return None, words

    def _drop(self) -> None:
        self.steps.pop(0)
        self.turn, self.last = 0, -1

    def _taken(self, step: Step, fields: Sequence[str]) -> str:
        self.steps[0] = Step(step.name, None if step.times is None else step.times - 1)
        if step.name == "condition":
            forms = TABLE["conditions"][fields[0]].split()
            return next((it for it in forms if len(RECORDS[it]) == len(fields) - 1), forms[0])
        if step.name == "tree":
            inner = TABLE["tree"].get(" ".join(fields[:2]) if fields[0] == "leaf" else "branch")
            self.steps[:0] = self._parsed(inner) if inner else []
            return self._taken(self.steps[0], fields) if inner else "leaf"
        return step.name

    def pass_over(self, records: Sequence[Record]) -> None:
        """Passes over records that were taken."""
        for record in records:
            form, _ = self.next_form(record.fields)
            self.note(form or "", record.fields)

    def note(self, form: str, fields: Sequence[str]) -> None:
        """Keeps what a record says that was taken."""
        self.turn += 1
        if form in ("table", "interim"):
            self.denominator = int(fields[1])
        elif form in ("row", "face", "shadow", "fix"):
            self.last = int(fields[1])
        elif form.startswith("cut"):
            self.sets.append(int(fields[1]))
        elif form in CONDITIONS:
            self.conditions += 1
            self.condition_rows += self._rows_of(form, fields)

    def _rows_of(self, form: str, fields: Sequence[str]) -> int:
        """How many rows a condition has."""
        if not form.startswith("pay"):
            return 1
        agent = [it["name"].value for it in self.setting.agents].index(fields[1])
        return self.size("profiles") // (len(self.setting.types()[agent]) if form == "pay_of_type" else 1)

    def places(self, form: str) -> List[Tuple[str, str, int]]:
        """The fields of a form behind its word: the label of each, its type, and its place among those of its type."""
        found = []
        for spec in RECORDS[form]:
            label, _, rest = spec.partition(":")
            name, _, times = rest.partition("*")
            found += [(label, name, place) for place in range(self.size(times) if times else 1)]
        return found

    def rows(self) -> Optional[int]:
        """How many rows the program of the answer has, where it is known."""
        if self.kind in ("auction", "units"):
            return self.size("values") ** 2 + len(self.sets)
        more = {"general": 0, "fair": self.size("agents"), "required": self.condition_rows}.get(self.kind)
        return None if more is None else self.setting.rows() + more

    def counts(self) -> List[int]:
        """How many bidders have each value, in the next record of masses."""
        return _counts_at(self.turn, self.setting.top["bidders"].value, self.size("values"))

    def profile(self) -> Tuple[int, ...]:
        """The profile of the next record, by the places of its types."""
        return next(itertools.islice(self.setting.profiles(), self.turn, None))


def _counts_at(turn: int, bidders: int, values: int) -> List[int]:
    """The list of counts at a place, from 0, among all of so many bidders and values."""
    counts: List[int] = []
    for left in range(values - 1, 0, -1):
        count = 0
        while turn >= (lists := math.comb(bidders - count + left - 1, left - 1)):
            turn, count = turn - lists, count + 1
        counts.append(count)
        bidders -= count
    return [*counts, bidders]


def counts_weight(setting: Setting, counts: Sequence[int]) -> int:
    """The weight of all profiles of an auction with these counts."""
    orders = math.factorial(sum(counts)) // math.prod(map(math.factorial, counts))
    return orders * math.prod(it.value**count for it, count in zip(setting.top["weights"], counts))


# A field


def _number(text: str) -> Optional[int]:
    return int(text) if NUMBER.fullmatch(text) and len(text) <= MOST_DIGITS else None


def _known_words(walk: Walk, name: str, fields: Sequence[str]) -> Optional[List[str]]:
    """The words that a field may have, where they are few."""
    setting = walk.setting
    agents = [it["name"].value for it in setting.agents] if setting.kind == "general" else []
    if name == "type":
        return setting.types()[agents.index(fields[1])]
    known = {"side": TABLE["sides"], "leaf": TABLE["leaves"], "one": ["1"], "agent": agents}
    return setting.outcomes if name == "outcome" else known.get(name)


def _next_words(walk: Walk, name: str, place: int) -> Optional[str]:
    """The one text that a field may have, in records that stand in an order."""
    if name == "profile":
        return walk.setting.types()[place][walk.profile()[place]]
    if name == "turn":
        return str(walk.setting.agents[walk.turn]["name"].value)
    return str(walk.counts()[place]) if name == "counts" else None


def _ranged(name: str, number: Optional[int]) -> Optional[str]:
    """What is wanted where a number is none of those of a type."""
    spec = TABLE["fields"][name]
    least, most = spec.get("from", 1 - (1 << spec["bits"])), (1 << spec["bits"]) - 1
    return spec["wanted"] if number is None or not least <= number <= most else None


def _of_program(walk: Walk, name: str, number: Optional[int]) -> Optional[str]:
    """The same of a number that depends on what stands in front of it."""
    rows = walk.rows() if name == "index" else None
    if name in ("index", "condition") and (number is None or number <= walk.last):
        return NAMED["index.above"].format(least=walk.last)
    if name == "condition":
        return NAMED[name].format(least=walk.last + 1, most=walk.conditions - 1) if (number or 0) >= walk.conditions else None
    if name == "index":
        return NAMED["index.row"] if rows is None else NAMED["index.below"].format(most=rows - 1) if (number or 0) >= rows else None
    if name == "set":
        most = (1 << (walk.size("values") if walk.setting.kind == "auction" else sum(map(len, walk.setting.types())))) - 1
        if number is None or not 1 <= number <= most:
            return NAMED["set"].format(most=most)
        return NAMED["set.once"] if number in walk.sets else None
    most = {"share": walk.denominator}.get(name, 0) or walk.size("profiles" if name == "rank" else "outcomes") - 1
    return NAMED.get(name) if number is not None and 0 <= number <= most else between(0, most)


def _mass(walk: Walk, place: int, number: int) -> Optional[str]:
    """What is wanted where a mass of an auction is more than those who have the value can get."""
    if walk.setting.kind != "auction":
        return None
    counts = walk.counts()
    most = counts[place] * walk.denominator * counts_weight(walk.setting, counts)
    if counts[place] == 0 and number:
        return NAMED["mass.nobody"]
    return NAMED["mass.units"].format(most=f"{most:,}") if walk.asked.units and number > most else None


def wanted_of(walk: Walk, name: str, place: int, fields: Sequence[str], text: str) -> Tuple[Optional[str], Optional[str]]:
    """What is wanted in a field of a type where its text will not do, and the word that was perhaps meant."""
    known, number = _known_words(walk, name, fields), _number(text)
    if known is not None:
        return (None, None) if text in known else (listed([quoted(it) for it in known]), nearest(text, known))
    only = _next_words(walk, name, place)
    if only is not None:
        return (quoted(only) if name != "counts" else only) if text != only else None, None
    if name in ("index", "condition", "set", "share", "rank", "outcome_place"):
        return _of_program(walk, name, number), None
    if name == "nothing":
        return NAMED[name], None
    if name == "joined":
        profiles = {walk.setting.name_of(it) for it in walk.setting.profiles()}
        return None if text in profiles else NAMED["joined"], nearest(text, sorted(profiles))
    wanted = _ranged(name, number)
    if wanted is None and name in ("numerator", "divisor"):
        wanted = NAMED[name]
    return wanted or (_mass(walk, place, number or 0) if name == "mass" else None), None


# A record


def _field_fault(walk: Walk, form: str, record: Record, number: int) -> Optional[Fault]:
    """What is wrong with a field, counted from 1."""
    word, text = record.fields[0], record.fields[number - 1]
    label, name, place = walk.places(form)[number - 2]
    wanted, meant = wanted_of(walk, name, place, record.fields, text)
    if wanted is None:
        return None
    more = {"number": str(number), "label": f" ({label})", "meant": asked_for(meant)}
    return Fault("record.field", quoted(text), wanted, record.at, word, more=more)


def _record_fault(walk: Walk, form: Optional[str], words: Sequence[str], record: Record) -> Optional[Fault]:
    """What is wrong with a record as a whole."""
    word = record.fields[0]
    if form is None:
        known = [*dict.fromkeys(words)]
        if not known:
            return Fault("record.after", quoted(word), "", record.at, word)
        return Fault("record.word", quoted(word), listed(known), record.at, word, more={"meant": asked_for(nearest(word, known))})
    forms = TABLE["conditions"][word].split() if form in CONDITIONS else [form]
    sizes = [len(walk.places(it)) for it in forms]
    if len(record.fields) - 1 not in sizes:
        wanted = f"{listed(sizes)} {'is' if sizes == [1] else 'are'}"
        return Fault("record.fields", counted(len(record.fields) - 1, "field"), wanted, record.at, word)
    return Fault("record.conditions", "", "1,000", record.at, word, more={"rows": f"{TABLE['limits']['rows']:,}"})


def _sum_fault(walk: Walk, form: str, record: Record) -> Optional[Fault]:
    """By how much the numbers of a record are wrong together."""
    types = [name for _, name, _ in walk.places(form)]
    numbers = [int(text) for text, name in zip(record.fields[1:], types) if name in ("natural", "mass")]
    total, most = sum(numbers), walk.denominator
    if form == "mass":
        most *= counts_weight(walk.setting, walk.counts()) * (walk.asked.units or 1)
    elif form == "mass_of":
        most *= walk.setting.weight(walk.profile())
    is_lottery = form == "lottery"
    if total == most if is_lottery else total <= most:
        return None
    return Fault("record.sum" if is_lottery else "record.masses", f"{total:,}", f"{most:,}", record.at, form.partition("_")[0])


# The first record


def kinds_read(asked: Asked) -> List[str]:
    """The kinds of answers that a command reads of a setting."""
    if asked.units is not None:
        return ["units"]
    reads = TABLE["commands"][asked.command]["reads"].split()
    return [it for it in reads if ANSWERS[it]["of"] == asked.setting.kind]


def _first_field_fault(asked: Asked, record: Record, number: int) -> Optional[Fault]:
    """What is wrong with a field of the first record of an answer."""
    _, version, kind, word = record.fields
    forms = [it for it in ANSWERS.get(kind, {}) if " " in it]
    only = TABLE["only"]
    words = [it.split()[0] for it in forms if it.endswith(version) and only.get(f"{kind} {it}", asked.command) == asked.command]
    versions = [*dict.fromkeys(it.split()[1] for it in forms)] or ["1", "2"]
    known, text = (versions, version) if number == 2 else (words, word)
    if number == 4 and forms and not known:
        known = [f"an answer of version {it}" for it in versions if it != version]
        more = {"number": "4", "label": " (WORD)", "meant": ""}
        return Fault("record.field", quoted(word), listed(known), record.at, "answer", more=more)
    if text in known or not known:
        return None
    label, meant = ("VERSION", None) if number == 2 else ("WORD", nearest(text, known))
    more = {"number": str(number), "label": f" ({label})", "meant": asked_for(meant)}
    return Fault("record.field", quoted(text), listed([quoted(it) for it in known]), record.at, "answer", more=more)


def _first_fault(asked: Asked, records: Sequence[Record], field: int) -> Optional[Fault]:
    """What is wrong with the first record of an answer."""
    if not records:
        return Fault("record.ended", counted(0, "record"), "answer", 0, "answer")
    fields, at = records[0]
    if field == 3 and len(fields) > 2:
        return _kind_fault(asked, records[0], fields[2])
    if field:
        return _first_field_fault(asked, records[0], field) if len(fields) == 4 else None
    if fields[0] != "answer":
        meant = asked_for(nearest(fields[0], ["answer"]))
        return Fault("record.word", quoted(fields[0]), "answer", at, fields[0], more={"meant": meant})
    return Fault("record.fields", counted(len(fields) - 1, "field"), "3 are", at, "answer")


def _kind_fault(asked: Asked, record: Record, kind: str) -> Optional[Fault]:
    """What is wrong with the kind of an answer."""
    reads, of, setting = kinds_read(asked), ANSWERS.get(kind, {}).get("of"), asked.setting
    if kind in reads:
        no_sale = next(not_a_sale(setting), None) if kind == "asym" else None
        return no_sale or Fault("answer.plain", quoted(kind), "", record.at, "answer")
    if of is not None and of != setting.kind:
        about = {"general": "a general setting", "auction": "an auction"}[of]
        return Fault("answer.setting", about, CALLED[setting.kind], record.at, "answer")
    texts = TABLE["sentences"]
    others = asked_for(nearest(kind, reads))
    if of is not None:
        takes_units = kind == "units" and "--units" in TABLE["commands"][asked.command].get("options", "")
        others = texts["answer.units"] if takes_units else texts["answer.reads"]
    wanted = "those of the kind " + listed([quoted(it) for it in reads])
    more = {"command": f"{asked.command} --units" if asked.units else asked.command, "others": others}
    return Fault("answer.kind", quoted(kind), wanted, record.at, "answer", more=more)


def _walk_of(asked: Asked, kind: str, first: Optional[Record]) -> Optional[Walk]:
    """The walk through a file of a kind, or None where its first record does not tell it."""
    if kind == "pivots":
        return Walk(asked, kind, ANSWERS[kind][asked.setting.kind])
    if kind:
        return Walk(asked, kind, ANSWERS[kind]["1"])
    if first is None or len(first.fields) != 4 or first.fields[0] != "answer":
        return None
    _, version, of, word = first.fields
    steps = ANSWERS.get(of, {}).get(f"{word} {version}")
    return Walk(asked, of, f"answer {steps}") if steps else None


def record_fault(asked: Asked, kind: str, text: str, cause: str) -> Optional[Fault]:
    """What is wrong with a file of records that was refused for a cause, as docs/FORMATS.md names it; None where nothing is found.

    kind  `conditions`, `pivots`, `odds` or `basis`, or empty of an answer
    """
    line = re.fullmatch(r"line (\d+): (record|sum|ended|field (\d+))", cause)
    if line is None:
        return Fault("answer.none", more={"command": asked.command}) if cause == "no table" else None
    number, field = int(line[1]), int(line[3] or 0)
    records = [*itertools.islice(read_records(text), number)]
    if kind == "basis":
        return _basis_fault(asked.setting, records, line[2], len(text))
    if not kind and (number == 0 or number == 1 and line[2] != "ended"):
        return _first_fault(asked, records, field)
    walk = _walk_of(asked, kind, records[0] if records else None)
    if walk is None or line[2] == "ended":
        return _ended_fault(walk, records, len(text)) if walk else None
    *passed, record = records
    walk.pass_over(passed)
    form, words = walk.next_form(record.fields)
    if line[2] == "record":
        return _record_fault(walk, form, words, record)
    if form is None:
        return None
    return _field_fault(walk, form, record, field) if field else _sum_fault(walk, form, record)


def _ended_fault(walk: Walk, records: Sequence[Record], at: int) -> Optional[Fault]:
    """What is missing at the end of a file, which is at a place."""
    walk.pass_over(records)
    words = [*dict.fromkeys(walk.next_form([])[1])]
    return Fault("record.ended", counted(len(records), "record"), listed(words), at, "end") if words else None


def _basis_fault(setting: Setting, records: Sequence[Record], what: str, at: int) -> Optional[Fault]:
    """What is wrong with the last of some records of a basis file, or with its end, which is at a place."""
    counts = {"column": setting.columns(), "slack": setting.rows()}
    passed = records if what == "ended" else records[:-1]
    words = [*counts] if len(passed) < counts["slack"] else ["end"] if not passed or passed[-1].fields[0] != "end" else []
    if what == "ended":
        return Fault("record.ended", counted(len(records), "record"), listed(words), at, "end")
    record = records[-1]
    word = record.fields[0]
    if what == "record":
        return _basis_record_fault(record, words)
    number = _number(record.fields[1])
    is_there = number is not None and 0 <= number < counts[word]
    wanted = f"a {word} that no record before has" if is_there else between(0, counts[word] - 1)
    more = {"number": "2", "label": "", "meant": ""}
    return Fault("record.field", quoted(record.fields[1]), wanted, record.at, word, more=more)


def _basis_record_fault(record: Record, words: Sequence[str]) -> Optional[Fault]:
    """What is wrong with a record of a basis file as a whole, where it may begin with some words."""
    word = record.fields[0]
    if not words:
        return Fault("record.after", quoted(word), "", record.at, word)
    if word not in words:
        return Fault("record.word", quoted(word), listed(words), record.at, word, more={"meant": asked_for(nearest(word, words))})
    wanted = "0 are" if word == "end" else "1 is"
    return Fault("record.fields", counted(len(record.fields) - 1, "field"), wanted, record.at, word)


def pivot_fault(asked: Asked, text: str, number: int) -> Optional[Fault]:
    """Why a pivot, counted from 1, cannot be carried out."""
    records = [*itertools.islice(read_records(text), number + (1 << 12))]
    cuts = [it for it in records if it.fields[0] == "cut"]
    _, row, column = (pivot := records[len(cuts) + number - 1]).fields
    setting = asked.setting
    if setting.kind == "auction":
        values = len(setting.top["values"])
        rows = slacks = values**2 + len(cuts)
        columns = 3 * values + slacks
    else:
        rows, columns = setting.rows(), setting.columns() + setting.conditions()
    more = {"number": str(number), "row": row, "column": column}
    for name, found, most in (("pivot.row", row, rows), ("pivot.column", column, columns)):
        if int(found) >= most:
            return Fault(name, found, between(0, most - 1), pivot.at, "pivot", more=more)
    return Fault("pivot.entry", "", "above 0", pivot.at, "pivot", more=more)
