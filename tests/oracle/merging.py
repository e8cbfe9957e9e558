"""Shares from anybody: read, tested, and merged into the reduced rows of the whole table."""
from .checks import fits_reduced, value_of, words_of_row
from .command_line import Refused
from .files import NOT_COMPLETE, final_entries, shown_row
from .lyndon import columns
from .pages import Walk, read_page
from .program import NO_INVERSE
from .relations import listing
from .shares import NAME, share_numbers
from .tables import Broken, Elimination, normal_form, row_text, table

NOT_A_SHARE, MAX_SHARES = 8, 256


def share_pages_of(contents):
    """The pages that some bytes spell, each at its place in a share, up to a Done page; None where they do not."""
    pages, left, walk = [], contents, None
    while left:
        found = read_page(left)
        if not found:
            return None
        if not pages and found[0][0] == "Header":
            walk = Walk(found[0][1])
            walk.blocks = 0
        if not walk or not walk.fits(found[0]):
            return None
        walk.pages.append(found[0])
        pages, left = walk.pages, left[found[1]:]
    return pages if pages and pages[-1][0] == "Done" else None


def read_share(contents):
    """The parameters, the index, the number of shares and the entries of the share whose spelling some bytes are; None where they are none's."""
    index, of = (int.from_bytes(contents[at:at + 4], "little") for at in (8, 12))
    if contents[:8] != NAME or len(contents) < 16 or not index < of <= MAX_SHARES:
        return None
    pages = share_pages_of(contents[16:])
    return pages and (pages[0][1], index, of, final_entries(pages))


def test(holds, k, line):
    """Refuses the file k of a share."""
    if not holds:
        raise Refused(NOT_A_SHARE, "not a share: file %d %s" % (k, line))


def test_result(k, params, index, of, entries):
    """Refuses rows that are no result of a share."""
    weight, most, modulus, mode, preferred = params
    made, names, words = table(params), listing(weight, most), columns(weight, most, mode, preferred)
    for i, (row, combination) in enumerate(entries):
        own = all(n % of == index for n, _ in combination)
        test(own and words_of_row(modulus, words, row) == value_of(modulus, names, combination), k, "row %d is not its combination" % i)
    rows = [row for row, _ in entries]
    for i in range(len(rows)):
        test(fits_reduced(rows, i), k, "row %d is not reduced" % i)
    reduced = {row[0][0]: dict(row) for row in rows}
    for n in share_numbers(params, index, of):
        rest = normal_form(modulus, reduced, made.relation_row(names[n]))
        test(not rest, k, "relation %d leaves %s" % (n, row_text(made.monomials, rest)))


def merged(params, of, counted):
    """The reduced rows of the whole table, by their leads, from the entries of the shares by their indices, in the order of counting."""
    made = table(params)
    work = Elimination(made.modulus, len(made.monomials))
    for i in range(of):
        if i not in counted:
            raise Refused(NOT_COMPLETE, "not complete: share %d missing" % i)
    for index, entries in counted.items():
        for j, (row, _) in enumerate(entries):
            try:
                work.offer(j, dict(row))
            except Broken as fault:
                raise Refused(NO_INVERSE, "no inverse: %d at share %d row %d" % (fault.args[0], index, j))
    return work.reduced


def merged_lines(params, of, files):
    """The lines of `merge` for the bytes of the files in turn."""
    made, counted = table(params), {}
    for k, contents in enumerate(files):
        share = read_share(contents)
        test(share, k, "unreadable")
        own, index, shares, entries = share
        test(own == params and shares == of, k, "other")
        if index not in counted:
            test_result(k, params, index, of, entries)
            counted[index] = entries
    rows = merged(params, of, counted)
    return ["merged: rows %d" % len(rows)] + [shown_row(made.modulus, made.monomials, sorted(rows[lead].items())) for lead in sorted(rows)]
