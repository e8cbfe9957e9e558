"""The pages of a table: forward rows and reduced rows, each with the combination of relations that it is the value of; and its file, made
whole or gone on with."""
from math import gcd

from .command_line import Refused
from .files import NOT_A_TABLE, contents_of, file_of, final_entries, fitting_pages, length_of, params_text, sealed_pages
from .lyndon import NoInverse
from .pages import PER_PAGE
from .relations import listing
from .tables import Broken, Elimination, table


def parts(width, row):
    """The row and the combination of a row whose columns behind the first ones are numbers of relations."""
    pairs = sorted(row.items())
    return tuple(pair for pair in pairs if pair[0] < width), tuple((key - width, residue) for key, residue in pairs if key >= width)


def forward_page(block, width, forward):
    """The Forward page of a block: of the relations that were accepted in it."""
    first = PER_PAGE * block
    return "Forward", first, tuple((n, *parts(width, forward[n])) for n in sorted(forward) if first <= n < first + PER_PAGE)


def last_pages(width, reduced):
    """The Final pages and the Done page."""
    entries = [parts(width, reduced[lead]) for lead in sorted(reduced)]
    pages = [("Final", first, tuple(entries[first:first + PER_PAGE])) for first in range(0, len(entries), PER_PAGE)]
    return pages + [("Done", len(entries))]


def test(holds, line):
    """Refuses a file with which no build goes on."""
    if not holds:
        raise Refused(NOT_A_TABLE, "not a table: " + line)


def suits(work, number, row, combination):
    """Whether an entry goes on from those that were kept: its row is zero where they lead, and its combination has a residue with an inverse at
    its own number and else numbers of theirs."""
    own = combination.pop(number, 0)
    return gcd(own, work.modulus) == 1 and not any(column in work.reduced for column, _ in row) and all(k in work.forward for k in combination)


def kept_rows(made, pages):
    """The work that keeps the rows of Forward pages."""
    work = Elimination(made.modulus, len(made.monomials))
    for i, page in enumerate(pages):
        for number, row, combination in page[2] if page[0] == "Forward" else ():
            test(suits(work, number, row, dict(combination)), "page %d not forward" % i)
            work.keep(number, {**dict(row), **{work.width + k: residue for k, residue in combination}})
    return work


def pages_from(params, sealed):
    """The pages of work that goes on from sealed ones, and the fault that breaks it off, if any. Behind the columns each relation's row has its
    number."""
    made, names = table(params), listing(*params[:2])
    work = kept_rows(made, sealed)
    pages = [("Header", params)] + [page for page in sealed if page[0] == "Forward"]
    for number in range(PER_PAGE * (len(pages) - 1), len(names)):
        try:
            work.offer(number, {**made.relation_row(names[number]), work.width + number: 1})
        except Broken as fault:
            return pages, fault
        if (number + 1) % PER_PAGE == 0 or number + 1 == len(names):
            pages.append(forward_page(number // PER_PAGE, work.width, work.forward))
    return pages + last_pages(work.width, work.reduced), None


def built_pages(params):
    """The pages that are made, and the fault that breaks the work off, if any."""
    try:
        return pages_from(params, [])
    except NoInverse as fault:
        return [("Header", params)], fault


def written(name, pages, fault, offered):
    """Writes the file of some pages, and answers the figures; or raises the fault that broke the work off."""
    with open(name, "wb") as file:
        file.write(file_of(pages))
    if fault:
        raise fault
    count = len(listing(*pages[0][1][:2]))
    return "relations %d, rows %d, offered %d, pages %d" % (count, len(final_entries(pages)), max(0, count - offered), len(pages))


def build(name, params):
    """Writes the file of a table, or its pages up to a relation that breaks the work off, and answers the line of `build`."""
    length = length_of(name)
    test(not length, "exists %d" % length)
    pages, fault = built_pages(params)
    if isinstance(fault, NoInverse):
        raise fault
    return "built: " + written(name, pages, fault, 0)


def resume(name, params):
    """Goes on with the file of a table, or refuses it, and answers the line of `resume`."""
    contents = contents_of(name)
    for page in sealed_pages(contents)[:1]:
        test(page[0] != "Header" or page[1] == params, "other " + params_text(page[1]) if page[0] == "Header" else "")
    sealed = fitting_pages(contents)
    pages, fault = pages_from(params, sealed)
    for i, page in enumerate(sealed):
        test(page == pages[i], "page %d differs" % i)
    return "resumed: " + written(name, pages, fault, PER_PAGE * sum(page[0] == "Forward" for page in sealed))
