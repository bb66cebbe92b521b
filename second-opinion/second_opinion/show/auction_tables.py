"""The tables of a page about an auction: its values, odds and pays, what values count, sets of values, masses."""

from fractions import Fraction
from html import escape

from second_opinion.auction import Counts, weight_of
from second_opinion.setting import AuctionSetting
from second_opinion.show.auction_facts import Sale, counted_values, highest_chances, ironed, virtual_values
from second_opinion.show.tables import Cell, head, multiplier_text, numeric, table
from second_opinion.show.text import MINUS, TIMES, count, html_name, html_number, number, set_words

PLAIN_ROWS = 40  # of a table; more are folded
MOST_ROWS = 400  # of masses; more are left out


def values_table(auction: AuctionSetting) -> str:
    """The values with their weights."""
    total = sum(auction.weights)
    rows: list[list[Cell]] = [
        [head(number(value)), numeric(weight), numeric(Fraction(weight, total))]
        for value, weight in zip(auction.values, auction.weights)
    ]
    heads = [("Value", False), ("Weight", True), ("Chance", True)]
    return table("Values", heads, rows, "what the item may be worth to a bidder")


def odds_table(sale: Sale) -> str:
    """How often a bidder wins, what it pays and what it keeps, by its value."""
    heads = [("Value", False), ("Odds", True), ("Pays", True), ("Pays per win", True), ("Keeps", True)]

    def cells(place: int, value: int) -> list[Cell]:
        per_win = sale.per_win(place)
        made: list[Cell] = [head(number(value)), numeric(sale.odds[place]), numeric(sale.pays[place])]
        made.append(("never wins", "soft") if per_win is None else numeric(per_win))
        return [*made, numeric(sale.keeps(place))]

    rows = [cells(place, value) for place, value in enumerate(sale.auction.values)]
    return table("Odds and pays by value", heads, rows, "on average over the values of the others")


def counts_table(auction: AuctionSetting) -> str:
    """The virtual values, what the objective makes of them, and the averages of those that fall."""
    blocks = ironed(auction)
    averages = {place: block for block in blocks for place in range(block.first, block.last + 1)}
    counted, virtual = counted_values(auction), virtual_values(auction)
    falls = len(blocks) < len(auction.values)
    heads = [("Value", False), ("Virtual value", True)]
    heads += [("Counts", True)] if counted != virtual else []
    heads += [("Ironed", True)] if falls else []
    rows: list[list[Cell]] = []
    for place, value in enumerate(auction.values):
        cells: list[Cell] = [head(number(value)), (virtual_words(auction, place, virtual[place]), "num")]
        cells += [numeric(counted[place])] if counted != virtual else []
        cells += [numeric(averages[place].counts)] if falls else []
        rows.append(cells)
    return table("Virtual values", heads, rows)


def virtual_words(auction: AuctionSetting, place: int, virtual: Fraction) -> str:
    """How a virtual value is worked out, as HTML."""
    found = f"<strong>{html_number(virtual)}</strong>"
    if place + 1 == len(auction.values):
        return found
    value, following = auction.values[place : place + 2]
    weight, above = auction.weights[place], sum(auction.weights[place + 1 :])
    return f"{value} {MINUS} {following - value} {TIMES} {above}/{weight} = {found}"


def value_parts_table(sale: Sale) -> str:
    """The parts of the expected objective."""
    auction = sale.auction
    parts = [
        ("Revenue: what all bidders pay", auction.revenue, sale.revenue()),
        ("Welfare: what the item is worth to who gets it", auction.welfare, sale.welfare()),
        ("The chance that the item is kept", auction.keep, sale.kept()),
    ]
    rows: list[list[Cell]] = [[head(words), numeric(factor), numeric(amount)] for words, factor, amount in parts]
    value = f"<strong>{html_number(sale.value())}</strong>"
    rows.append([head("Value: the sum of these, each times its factor"), "", (value, "num")])
    return table("Where the value comes from", [("Part", False), ("Factor", True), ("Expected", True)], rows)


def blocks_table(auction: AuctionSetting, greatest: Fraction) -> str:
    """The greatest value that there is, by what the highest value counts."""
    blocks = ironed(auction)
    rows: list[list[Cell]] = []
    for block, chance in zip(blocks, highest_chances(auction, blocks)):
        words = set_words(auction.values, range(block.first, block.last + 1))
        gain = numeric(block.counts * chance) if block.counts >= 0 else ("kept", "soft")
        rows.append([head(words), numeric(block.counts), numeric(chance), gain])
    if auction.keep:
        rows.append([head("keeping the item"), numeric(auction.keep), "", numeric(auction.keep)])
    rows.append([head("Sum"), "", "", (f"<strong>{html_number(greatest)}</strong>", "num")])
    heads = [("Highest value", False), ("Counts", True), ("Chance", True), ("Counts times chance", True)]
    return table("The greatest value that there is", heads, rows)


def cuts_table(sale: Sale) -> str:
    """The sets of the answer with what they ask for and what there is."""
    rows: list[list[Cell]] = []
    for cut in sale.cuts():
        binds = ("<strong>binds</strong>" if cut.binds else "") + ("broken" if cut.asked > cut.most else "")
        multiplier = multiplier_text(cut.multipliers, sale.answer.bound) if cut.weighed else "none"
        cells: list[Cell] = [head(set_words(sale.auction.values, cut.places)), numeric(cut.asked), numeric(cut.most), binds]
        rows.append([*cells, (multiplier, "num" if cut.weighed else "soft"), numeric(cut.number), numeric(cut.row)])
    heads = [("Set", False), ("Asks for", True), ("At most", True), ("Binds", False), ("Multiplier", True)]
    heads += [("Number", True), ("Row", True)]
    return table("Sets of values", heads, rows, f"in profiles, by weight, of {sale.profiles}")


def prices_table(sale: Sale, weighed: list[tuple[int, str]]) -> str:
    """The conditions of truth and rationality with a positive multiplier."""
    rows: list[list[Cell]] = []
    for row, words in weighed:
        multiplier = multiplier_text(sale.multipliers(row), sale.answer.bound)
        name = head(html_name(sale.program.rows[row].name))
        rows.append([(str(row), "num"), name, (escape(words), "wide"), (multiplier, "num")])
    heads = [("Row", True), ("Name", False), ("Demands", False), ("Multiplier", True)]
    return table("Conditions with a positive multiplier", heads, rows)


def counts_words(auction: AuctionSetting, counts: Counts) -> str:
    """How many bidders have each value, in words."""
    return ", ".join(f"{many} with {number(value)}" for value, many in zip(auction.values, counts) if many)


def masses_table(sale: Sale) -> str:
    """Who wins, by how many bidders have each value: folded where there are many rows, and cut off where too many."""
    auction = sale.auction
    rows: list[list[Cell]] = []
    for counts in list(sale.answer.masses)[:MOST_ROWS]:
        shares = sale.shares(counts)
        goes = ", ".join(f"{number(value)}: {html_number(share)}" for value, share in zip(auction.values, shares) if share)
        cells: list[Cell] = [head(counts_words(auction, counts)), goes or ("to nobody", "soft"), numeric(1 - sum(shares))]
        weight, masses = weight_of(auction, counts), sale.answer.masses[counts]
        given = " + ".join(str(mass) for mass in masses if mass) or "0"
        rows.append([*cells, numeric(weight), (f"{given} of {weight * sale.interim.den}", "num")])
    heads = [("Bidders", False), ("Goes to a bidder with", False), ("Is kept", True), ("Weight", True), ("Mass", True)]
    every = len(sale.answer.masses)
    caption = "Who wins, by the values that are there"
    if every > MOST_ROWS:
        caption = f"Who wins: the first {MOST_ROWS:,} of {count(every, 'list')}, {every - MOST_ROWS:,} are left out"
    return folded(table(caption, heads, rows), caption, len(rows))


def folded(made: str, caption: str, rows: int) -> str:
    """A table, folded where it has many rows."""
    if rows <= PLAIN_ROWS:
        return made
    return f"<details>\n<summary>{caption} ({count(rows, 'row')})</summary>\n{made}</details>\n"
