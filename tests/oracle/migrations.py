"""Old files: a file of version 1 is read page by page, and its pages are written as a file of version 2."""
from .command_line import Refused
from .files import CLOSED, NOT_A_TABLE, NOT_COMPLETE, OPEN, file_of, length_of, params_text
from .pages import first_misfit, read_page

OLD_HEADER, NEW_HEADER = b"\x01\x13\0\0\0MZVDATA\x01", b"\x01\x14\0\0\0MZVDATA\x02"
HEADER_LENGTH = 24


class ReadFailed(Exception):
    """A call of the source failed."""


def read_old_page(data):
    """The page of version 1 that the bytes begin with and the number of its bytes; None where there is none."""
    if data[:1] != b"\x01":
        return read_page(data)
    if not data.startswith(OLD_HEADER) or len(data) < HEADER_LENGTH:
        return None
    found = read_page(NEW_HEADER + data[len(OLD_HEADER):HEADER_LENGTH] + b"\0")
    return found and (found[0], HEADER_LENGTH)


def old_file_of(pages):
    """The bytes of the version 1 file of these pages, whose Header has no preferred words."""
    new, header = file_of(pages), file_of(pages[:1])[:-1]
    old = OPEN + OLD_HEADER + header[1 + len(NEW_HEADER):-1] if pages and pages[0][0] == "Header" else header
    return old + new[len(header):]


def next_page(left, pages):
    """The page behind an open gate, and what stands behind it."""
    if len(left) < 2 or left[:1] != OPEN:
        raise Refused(NOT_COMPLETE, "not complete: pages %d, not done" % len(pages))
    found = read_old_page(left[1:])
    if not found:
        raise Refused(NOT_A_TABLE, "not a table: page %d unreadable" % len(pages))
    if first_misfit(pages + [found[0]]) is not None:
        raise Refused(NOT_A_TABLE, "not a table: page %d misplaced" % len(pages))
    return found[0], left[1 + found[1]:]


def copied(given, pages):
    """Puts the pages of a version 1 file behind each other, up to the Done page or a refusal."""
    while not pages or pages[-1][0] != "Done":
        page, given = next_page(given, pages)
        pages.append(page)


def write(name, contents):
    """Writes a file."""
    with open(name, "wb") as file:
        file.write(contents)


def migrate(name, read):
    """Writes the file of the pages of the version 1 file that is read, and answers the line of `migrate`."""
    length = length_of(name)
    if length:
        raise Refused(NOT_A_TABLE, "not a table: exists %d" % length)
    write(name, CLOSED)
    try:
        given = read()
    except OSError as fault:
        raise ReadFailed from fault
    pages = []
    try:
        copied(given, pages)
    finally:
        write(name, file_of(pages))
    return "migrated: %s, pages %d" % (params_text(pages[0][1]), len(pages))
