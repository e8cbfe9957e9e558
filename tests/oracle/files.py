"""Files of tables: gates and pages, the rule by which they are read, and what `show` prints of them."""
import os

from .command_line import Refused
from .lyndon import columns
from .pages import first_misfit, read_page, spelling
from .tables import monomial_text, row_text
from .words import text

NOT_A_TABLE, NOT_COMPLETE = 8, 9
OPEN, CLOSED = b"\x01", b"\x00"
MAX_UNSEALED = 107


def contents_of(name):
    """The bytes of a file; none where it is not found. A call that fails otherwise raises OSError."""
    try:
        handle = os.open(name, os.O_RDONLY)
    except FileNotFoundError:
        return b""
    try:
        length, pieces = os.fstat(handle).st_size, []
        while sum(map(len, pieces)) < length:
            pieces.append(os.read(handle, length))
            if not pieces[-1]:
                break
        return b"".join(pieces)
    finally:
        os.close(handle)


def length_of(name):
    """How many bytes a file has; none where it is not found."""
    try:
        handle = os.open(name, os.O_RDONLY)
    except FileNotFoundError:
        return 0
    try:
        return os.fstat(handle).st_size
    finally:
        os.close(handle)


def file_of(pages):
    """The bytes of a file with these sealed pages."""
    return b"".join(OPEN + spelling(page) for page in pages) + CLOSED


def sealed_pages(contents):
    """The sealed pages of a file."""
    if len(contents) > MAX_UNSEALED and contents[:1] != OPEN:
        raise Refused(NOT_A_TABLE, "not a table: foreign %d" % len(contents))
    pages, left = [], contents
    while len(left) > 1 and left[:1] == OPEN:
        found = read_page(left[1:])
        if not found:
            raise Refused(NOT_A_TABLE, "not a table: page %d unreadable" % len(pages))
        pages.append(found[0])
        left = left[1 + found[1]:]
    return pages


def fitting_pages(contents):
    """The sealed pages of a file, each at its place."""
    pages = sealed_pages(contents)
    misfit = first_misfit(pages)
    if misfit is not None:
        raise Refused(NOT_A_TABLE, "not a table: page %d misplaced" % misfit)
    return pages


def test_pages(holds, pages):
    """Refuses pages that are too few."""
    if not holds:
        raise Refused(NOT_COMPLETE, "not complete: pages %d, not done" % len(pages))


def final_entries(pages):
    """The entries of the Final pages, one behind the other: each a row and a combination."""
    return [entry for page in pages if page[0] == "Final" for entry in page[2]]


def params_text(params):
    """The parameters of a table as words of a command."""
    preferred = "+".join(map(text, params[4]))
    return "%d %d %d %s" % params[:4] + (" " + preferred if preferred else "")


def shown_row(modulus, monomials, row):
    """The monomial that leads a row, and the negative of the others."""
    (lead, _), *others = row
    return "%s = %s" % (monomials[lead], row_text(monomials, {column: modulus - residue for column, residue in others}))


def show(contents):
    """The lines of `show`."""
    pages = fitting_pages(contents)
    test_pages(pages, pages)
    weight, most, modulus, mode, preferred = params = pages[0][1]
    monomials = [monomial_text(word) for word in columns(weight, most, mode, preferred)]
    return ["table " + params_text(params), "pages %d" % len(pages)] + [
        shown_row(modulus, monomials, row) for row, _ in final_entries(pages)]
