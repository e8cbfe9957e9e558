"""What a whole run of `mzv_merge` writes, and the status that it ends with, where memory suffices and no write fails.

`python3 -m oracle.merge_program WORDS..` does what `mzv_merge WORDS..` does.
"""
import sys

from .command_line import USAGE, Refused, are_text, number, test, test_table
from .files import contents_of, length_of
from .lyndon import NoInverse
from .merging import MAX_SHARES, merged_lines
from .program import DISK_FAULT, DONE, refusal
from .shares import share_bytes, share_pages
from .tables import Broken, table

MAX_FILES, MAX_LENGTH = 1024, 100663296
USAGE_LINE = "usage: share W D M ORDER I S; merge W D M ORDER S FILE .."

# The form of each command up to the files: an N is a number word, a W any word; and how many files there may be.
FORMS = {"share": ("NNNWNN", range(1)), "merge": ("NNNWN", range(1, MAX_FILES + 1))}


def test_shares(of):
    """The test of a number of shares."""
    test(1 <= of <= MAX_SHARES, "shares %d" % of)


def share(weight, most, modulus, mode, index, of):
    """The bytes of a share."""
    params = test_table(weight, most, modulus, mode)
    test_shares(of)
    test(index < of, "share %d" % index)
    try:
        return share_bytes(index, of, share_pages(params, index, of))
    except (NoInverse, Broken) as fault:
        raise refusal(fault)


def contents(name):
    """The bytes of a file; none where they are too many."""
    return contents_of(name) if length_of(name) <= MAX_LENGTH else b""


def merge(weight, most, modulus, mode, of, *names):
    """The lines of `merge`."""
    params = test_table(weight, most, modulus, mode)
    test_shares(of)
    try:
        table(params)
    except NoInverse as fault:
        raise refusal(fault)
    lines = merged_lines(params, of, map(contents, names))
    return "".join(line + "\n" for line in lines).encode()


def written(words):
    """The bytes that are written where nothing is refused."""
    form, files = FORMS.get(words[0], ("", ())) if words and are_text(words) else ("", ())
    values = [number(word) if kind == "N" else word for kind, word in zip(form, words[1:])]
    if len(words) - 1 - len(form) not in files or None in values:
        raise Refused(USAGE, USAGE_LINE)
    return (share if words[0] == "share" else merge)(*values, *words[1 + len(form):])


def whole_run(words):
    """The status and the bytes that are written."""
    try:
        return DONE, written(words)
    except Refused as refused:
        return refused.args[0], (refused.args[1] + "\n").encode()
    except OSError:
        return DISK_FAULT, b""


if __name__ == "__main__":
    status, output = whole_run(sys.argv[1:])
    sys.stdout.buffer.write(output)
    sys.exit(status)
