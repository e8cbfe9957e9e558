"""What a whole run of `mzv` writes, and the status that it ends with, where memory suffices and no write fails."""
from functools import partial

from . import dual_lines, probes
from .builds import build, resume
from .checks import checked, complete_line
from .command_line import Refused, asked
from .files import contents_of, show
from .fractions import fractions_text
from .lyndon import NoInverse
from .migrations import ReadFailed, migrate
from .relations import listing, name_text
from .samples import sample_line, sample_lines
from .tables import Broken, reduced_rows, row_text, table
from .words import admissible_words, text

DONE, NO_INVERSE, DISK_FAULT, READ_FAULT, WRITE_FAULT, TOO_MUCH_INPUT = 0, 4, 5, 6, 7, 11
MAX_INPUT = 67108864


def refusal(fault):
    """The refusal that tells where no inverse is."""
    where = "relation %d" % fault.args[1] if isinstance(fault, Broken) else "word " + text(fault.args[1])
    return Refused(NO_INVERSE, "no inverse: %d at %s" % (fault.args[0], where))


def whole_table(params):
    """The table of some parameters and its reduced rows."""
    try:
        return table(params), reduced_rows(params)
    except (NoInverse, Broken) as fault:
        raise refusal(fault)


def sample(params, seed, count):
    """The line of `sample`."""
    made, reduced = whole_table(params)
    lines = sample_lines(admissible_words(made.weight, made.most), seed, count)
    return sample_line(len(reduced), len(made.monomials), [made.reply(reduced, line) for line in lines])


def probe(n, modulus):
    """The replies of `probe`."""
    found = probes.first_without_inverse(modulus, n)
    if found:
        raise Refused(NO_INVERSE, "no inverse: %d at term %d" % found)
    return partial(probes.reply_of, modulus, n)


def reduce(params):
    """The replies of `reduce`."""
    made, reduced = whole_table(params)
    return partial(made.reply, reduced)


def built(command, name, params):
    """The line of `build` or `resume`."""
    try:
        return command(name, params)
    except (NoInverse, Broken) as fault:
        raise refusal(fault)


def with_file(name, contents):
    """What is done with the bytes of a file."""
    if name == "show":
        return show(contents)
    try:
        params, made, reduced = checked(contents)
    except NoInverse as fault:
        raise refusal(fault)
    if name == "check":
        return [complete_line(params, reduced)]
    return partial(made.reply, reduced, text_of=row_text if name == "rewrite" else partial(fractions_text, made.modulus))


def work(name, values, read):
    """What a command does: a function that replies to each line, or the lines that are written."""
    if name == "dual":
        return partial(dual_lines.reply_of, values[0])
    if name == "list":
        return ["%d %s" % (i, name_text(r)) for i, r in enumerate(listing(*values))]
    if name == "reduce":
        return reduce(values)
    if name in ("build", "resume"):
        return [built(build if name == "build" else resume, *values)]
    if name == "migrate":
        return [migrate(*values, read)]
    if name in ("show", "check", "rewrite", "rational"):
        return with_file(name, contents_of(values[0]))
    return [sample(*values)] if name == "sample" else probe(*values)


def status_and_work(words, read):
    """A status, and a function that replies to each line or the lines that are written."""
    try:
        return DONE, work(*asked(words), read)
    except Refused as refused:
        return refused.args[0], [refused.args[1]]
    except ReadFailed:
        return READ_FAULT, []
    except OSError:
        return DISK_FAULT, []


def lines_of(given):
    """The lines that the byte 10 ends, and the bytes behind the last of them."""
    *whole, last = given.split(b"\n")
    return whole, last


def answers(reply, lines):
    """The replies to some lines."""
    return b"".join(reply(line) + b"\n" for line in lines)


def whole_run(words, read):
    """The status and the bytes that are written. The bytes of standard input are read where lines are replied to or an old file is copied; `read` may raise OSError."""
    status, done = status_and_work(words, read)
    if not callable(done):
        return status, "".join(line + "\n" for line in done).encode()
    try:
        given = read()
    except OSError:
        return READ_FAULT, b""
    whole, last = lines_of(given[:MAX_INPUT])
    if len(given) > MAX_INPUT:
        return TOO_MUCH_INPUT, answers(done, whole) + b"too much input\n"
    return DONE, answers(done, whole + [last] * bool(last))
