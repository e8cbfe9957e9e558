"""Shares of a listing: the rows that the relations of one give alone, and its bytes."""
from .builds import last_pages
from .pages import little, spelling
from .relations import listing
from .tables import Elimination, table

NAME = b"MZVSHARE"


def share_numbers(params, index, of):
    """The numbers of the relations of a share: those that leave its index when they are divided by the number of shares."""
    return range(index, len(listing(*params[:2])), of)


def share_pages(params, index, of):
    """The pages of a share: the Header, its Final pages and the Done page."""
    made, names = table(params), listing(*params[:2])
    work = Elimination(made.modulus, len(made.monomials))
    for n in share_numbers(params, index, of):
        work.offer(n, {**made.relation_row(names[n]), work.width + n: 1})
    return [("Header", params)] + last_pages(work.width, work.reduced)


def share_bytes(index, of, pages):
    """The bytes of a share with these pages."""
    return NAME + little(index, 4) + little(of, 4) + b"".join(map(spelling, pages))
