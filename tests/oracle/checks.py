"""The check of the table in a file: the first test that it fails, or its final rows as a reduced list."""
from .algebra import add_to, modulo
from .command_line import Refused
from .files import NOT_COMPLETE, final_entries, fitting_pages, params_text, test_pages
from .lyndon import columns, factors, shuffled
from .relations import integer_value, listing
from .tables import normal_form, row_text, table


def test(holds, line):
    """Refuses a table that is not complete."""
    if not holds:
        raise Refused(NOT_COMPLETE, "not complete: " + line)


def words_of_row(modulus, words, row):
    """The sum of the words of a row: of each column the shuffle of its factors."""
    total = {}
    for column, residue in row:
        add_to(total, residue, shuffled(factors(words[column])))
    return modulo(modulus, total)


def value_of(modulus, names, combination):
    """The sum of the values that a combination names."""
    total = {}
    for number, residue in combination:
        add_to(total, residue, integer_value(names[number]))
    return modulo(modulus, total)


def fits_reduced(rows, i):
    """Whether row i begins behind the one before it, in a column where all others are zero."""
    lead = rows[i][0][0]
    behind = i == 0 or rows[i - 1][0][0] < lead
    return behind and rows[i][0][1] == 1 and all(lead not in dict(other) for j, other in enumerate(rows) if j != i)


def test_rows(params, entries):
    """Refuses the first row that is not its combination, and then the first that is not reduced."""
    weight, most, modulus, mode, preferred = params
    words, names = columns(weight, most, mode, preferred), listing(weight, most)
    for i, (row, combination) in enumerate(entries):
        test(words_of_row(modulus, words, row) == value_of(modulus, names, combination), "row %d is not its combination" % i)
    rows = [row for row, _ in entries]
    for i in range(len(rows)):
        test(fits_reduced(rows, i), "row %d is not reduced" % i)


def checked(contents):
    """The parameters of a file, their table, and its final rows by their leads, where these are complete."""
    pages = fitting_pages(contents)
    test_pages(pages and pages[-1][0] == "Done", pages)
    params = pages[0][1]
    made, entries = table(params), final_entries(pages)
    test_rows(params, entries)
    reduced = {row[0][0]: dict(row) for row, _ in entries}
    for n, name in enumerate(listing(*params[:2])):
        rest = normal_form(made.modulus, reduced, made.relation_row(name))
        test(not rest, "relation %d leaves %s" % (n, row_text(made.monomials, rest)))
    return params, made, reduced


def complete_line(params, reduced):
    """The line of `check`."""
    return "complete: %s, relations %d, rows %d" % (params_text(params), len(listing(*params[:2])), len(reduced))
