"""The two grammars of lines, by the places where a reader stands, and the first byte that is wrong.

At each place some bytes lead to another one; the byte 10 says that a line may end there. From every place some bytes end a line, so the
bytes that a reader passes are the longest prefix that begins one.
"""
MAX_LINE = 4096
BLANKS = b" \t\r"
DIGITS = b"0123456789"
END = b"\n"


class Refused(Exception):
    """A line that is not accepted, with its reply."""


def zeta_moves():
    """A zeta from its letter on, up to the bracket that closes."""
    return {
        "letter": {b"(": "index", BLANKS: "letter"},
        "index": {BLANKS: "index"},
        "number": {b",": "index", b")": "zeta", BLANKS: "number"},
    }


def put_run(moves, place, first, most, behind):
    """Puts a run of digits at a place: the first digit is one of some, there are at most so many, and each leads to what may stand behind."""
    places = [place] + ["%s, %d digits" % (place, n) for n in range(1, most)] + [behind]
    for n, (here, there) in enumerate(zip(places, places[1:])):
        if n:
            moves[here] = dict(moves[behind])
        moves[here][DIGITS if n else first] = there


def small_grammar():
    """Lines of `dual`: zetas with signs between them."""
    moves = zeta_moves()
    moves["start"] = {b"+-": "sign", b"z": "letter", BLANKS: "start"}
    moves["sign"] = {b"z": "letter", BLANKS: "sign"}
    moves["zeta"] = {b"+-": "sign", BLANKS: "zeta", END: "end"}
    put_run(moves, "index", DIGITS[1:], 3, "number")
    return moves


def whole_grammar():
    """Lines over a table: terms with signs between them, each of factors with `*` between them."""
    moves = zeta_moves()
    more = {b"*": "factor", b"+-": "factor", END: "end"}
    moves["start"] = {b"+-": "factor", b"z": "letter", BLANKS: "start"}
    moves["factor"] = {b"z": "letter", BLANKS: "factor"}
    moves["top"] = {b"/": "slash", BLANKS: "top", **more}
    moves["slash"] = {BLANKS: "slash"}
    moves["zeta"] = {b"^": "hat", BLANKS: "zeta", **more}
    moves["hat"] = {BLANKS: "hat"}
    moves["behind a factor"] = {BLANKS: "behind a factor", **more}
    put_run(moves, "start", DIGITS, 38, "top")
    put_run(moves, "factor", DIGITS, 38, "top")
    put_run(moves, "slash", DIGITS, 38, "behind a factor")
    put_run(moves, "hat", DIGITS, 2, "behind a factor")
    put_run(moves, "index", DIGITS[1:], 3, "number")
    return moves


SMALL, WHOLE = small_grammar(), whole_grammar()


def check_syntax(moves, line):
    """Refuses a line that is too long or none of the grammar."""
    if len(line) > MAX_LINE:
        raise Refused(b"line too long")
    place = "start"
    for at, byte in enumerate(line + END):
        place = next((there for some, there in moves[place].items() if byte in some), None)
        if place is None:
            raise Refused(b"syntax %d" % at)
