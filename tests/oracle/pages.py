"""Pages of a table's file: their one spelling, what some bytes spell, and which page fits behind which.

A page is a tuple: ("Header", params), ("Forward", first, entries), ("Final", first, entries) or ("Done", rows). An entry of a Forward page is
(number, row, combination), one of a Final page (row, combination). A row is a tuple of pairs of a column and a residue, a combination one of
pairs of a relation's number and a residue.
"""
from .command_line import Refused, column_count, may_be_preferred, test_table
from .lyndon import MODES
from .relations import listing

NAME, VERSION = b"MZVDATA", 2
KINDS = ("Header", "Forward", "Final", "Done")
PER_PAGE, MAX_PAIRS, MAX_RESIDUE, MAX_WEIGHT = 64, 2048, 2**63 - 2, 24


def little(n, size):
    """A number in so many bytes, the lowest first."""
    return n.to_bytes(size, "little")


def spelled_pairs(pairs, size):
    """The number of pairs and the pairs; the first of each has so many bytes."""
    return little(len(pairs), 2) + b"".join(little(key, size) + little(residue, 8) for key, residue in pairs)


def spelled_entry(entry):
    """An entry of a Forward page, or one of a Final page, which has no number."""
    *numbers, row, combination = entry
    return b"".join(little(number, 4) for number in numbers) + spelled_pairs(row, 2) + spelled_pairs(combination, 4)


def spelled_header(params):
    """The body of a Header."""
    weight, most, modulus, mode, preferred = params
    words = b"".join(little(len(word), 1) + little(int(word.replace("x", "0").replace("y", "1"), 2), 4) for word in preferred)
    return NAME + bytes([VERSION, weight, most, MODES.index(mode)]) + little(modulus, 8) + little(len(preferred), 1) + words


def spelling(page):
    """The bytes of a page."""
    kind, said, *entries = page
    if kind == "Header":
        body = spelled_header(said)
    else:
        body = little(said, 4 if kind == "Forward" else 2)
        body += b"".join(little(len(some), 1) + b"".join(map(spelled_entry, some)) for some in entries)
    return bytes([1 + KINDS.index(kind)]) + little(len(body), 4) + body


class Unspelled(Exception):
    """Bytes that spell no page."""


def demand(holds):
    """A rule of the spelling of pages."""
    if not holds:
        raise Unspelled


class Body:
    """The bytes of a page's body, read from the front."""

    def __init__(self, left):
        self.left = left

    def take(self, size):
        """The next bytes."""
        demand(len(self.left) >= size)
        taken, self.left = self.left[:size], self.left[size:]
        return taken

    def number(self, size):
        """The next number."""
        return int.from_bytes(self.take(size), "little")

    def pairs(self, size, limit):
        """Pairs whose first numbers increase and are below a limit."""
        pairs = [(self.number(size), self.number(8)) for _ in range(self.number(2))]
        keys = [key for key, _ in pairs]
        demand(1 <= len(pairs) <= MAX_PAIRS and sorted(set(keys)) == keys and keys[-1] < limit)
        demand(all(1 <= residue <= MAX_RESIDUE for _, residue in pairs))
        return tuple(pairs)

    def row_and_combination(self):
        """A row, whose first residue is 1, and a combination."""
        row = self.pairs(2, MAX_PAIRS)
        demand(row[0][1] == 1)
        return row, self.pairs(4, 1 << 32)

    def preferred(self):
        """A preferred word."""
        weight, letters = self.number(1), self.number(4)
        demand(1 <= weight <= MAX_WEIGHT and letters < 1 << weight)
        return bin(letters)[2:].zfill(weight).replace("0", "x").replace("1", "y")

    def header(self):
        """A Header, whose parameters pass their test."""
        demand(self.take(len(NAME)) == NAME and self.number(1) == VERSION)
        weight, most, mode, modulus = self.number(1), self.number(1), self.number(1), self.number(8)
        demand(mode < len(MODES))
        words = [self.preferred() for _ in range(self.number(1))]
        try:
            test_table(weight, most, modulus, MODES[mode])
        except Refused:
            raise Unspelled
        demand(all(may_be_preferred(weight, most, words[:i], word) for i, word in enumerate(words)))
        return "Header", (weight, most, modulus, MODES[mode], tuple(words))

    def forward(self):
        """A Forward page, whose numbers are those of one block and increase."""
        first, count = self.number(4), self.number(1)
        demand(first % PER_PAGE == 0 and count <= PER_PAGE)
        entries = [(self.number(4), *self.row_and_combination()) for _ in range(count)]
        numbers = [entry[0] for entry in entries]
        demand(sorted(set(numbers)) == numbers and all(first <= number < first + PER_PAGE for number in numbers))
        return "Forward", first, tuple(entries)

    def final(self):
        """A Final page."""
        first, count = self.number(2), self.number(1)
        demand(first % PER_PAGE == 0 and 1 <= count <= PER_PAGE)
        return "Final", first, tuple(self.row_and_combination() for _ in range(count))

    def done(self):
        """A Done page."""
        rows = self.number(2)
        demand(rows <= MAX_PAIRS)
        return "Done", rows


def read_page(given):
    """The page that stands at the front of some bytes, and how many of them spell it; None where there is none."""
    try:
        front = Body(given[:5])
        kind, length = front.number(1), front.number(4)
        demand(1 <= kind <= len(KINDS) and len(given) >= 5 + length)
        body = Body(given[5:5 + length])
        page = (Body.header, Body.forward, Body.final, Body.done)[kind - 1](body)
        demand(not body.left)
    except Unspelled:
        return None
    return page, 5 + length


class Walk:
    """The pages of some parameters, one behind the other."""

    def __init__(self, params):
        self.params, self.modulus = params, params[2]
        self.columns, self.relations = column_count(*params[:2]), len(listing(*params[:2]))
        self.blocks = -(-self.relations // PER_PAGE)
        self.pages = []

    def rows(self):
        """How many rows stand in the Final pages so far."""
        return sum(len(page[2]) for page in self.pages if page[0] == "Final")

    def are_within(self, pairs, limit):
        """Whether columns or numbers are below a limit, and residues below the modulus."""
        return all(key < limit and residue < self.modulus for key, residue in pairs)

    def forward_fits(self, page):
        """Whether a page fits as the next Forward page."""
        return page[0] == "Forward" and page[1] == PER_PAGE * (len(self.pages) - 1) and all(
            number < self.relations and self.are_within(row, self.columns) and self.are_within(combination, number + 1)
            for number, row, combination in page[2])

    def final_fits(self, page):
        """Whether a Final page fits behind the last Forward page, or behind a Final page that is full."""
        last = self.pages[-1]
        return (last[0] != "Final" or len(last[2]) == PER_PAGE) and page[1] == self.rows() <= self.columns - len(page[2]) and all(
            self.are_within(row, self.columns) and self.are_within(combination, self.relations) for row, combination in page[2])

    def fits(self, page):
        """Whether a page fits behind those before it."""
        if not self.pages:
            return page == ("Header", self.params)
        if self.pages[-1][0] == "Done":
            return False
        if len(self.pages) <= self.blocks:
            return self.forward_fits(page)
        return self.final_fits(page) if page[0] == "Final" else page == ("Done", self.rows())


def first_misfit(pages):
    """The number of the first page that does not fit its place; None where each fits."""
    if not pages:
        return None
    if pages[0][0] != "Header":
        return 0
    walk = Walk(pages[0][1])
    for i, page in enumerate(pages):
        if not walk.fits(page):
            return i
        walk.pages.append(page)
    return None
