"""Random cases, by area: the words of a command line, the bytes of standard input, those of a file, and what fails."""
from oracle.command_line import MAX_PREFERRED
from oracle.lyndon import is_lyndon
from oracle.migrations import HEADER_LENGTH, NEW_HEADER, OLD_HEADER
from oracle.program import MAX_INPUT
from oracle.words import admissible_words, text
from random_files import Files

NOT_NUMBERS = ("", "x", "-1", "+3", " 3", "3 ", "1.0", "0x5", str(2**64), "9" * 40, "\u0663", "\udcff")
COMMANDS = ("dual", "list", "reduce", "sample", "probe", "build", "resume", "check", "rewrite", "show", "migrate", "rational", "", "help", "Dual")
FORMS = {"dual": "M", "list": "WD", "reduce": "WDMO", "build": "FWDMO", "resume": "FWDMO", "check": "F", "rewrite": "F", "show": "F", "migrate": "F",
         "sample": "WDMSS", "rational": "F", "probe": "DM"}
WRONG_SHAPES = ((25, 1), (4, 4), (14, 13), (0, 0), (2, 0), (24, 5), (1, 1), (5, 2**64 - 1), (2**64 - 1, 2))
WRONG_LISTS = ("", "+", "z(2)+", "+z(2)", "z()", "z(0)", "z(02)", "z(2) ", "Z(2)", "z(2)+z(2)", "z(3)+z(2)", "z(2,2)", "z(1)", "z(9999)", "z(2)\n", "z(2)\udcff",
               "+".join(["z(2)"] * 17))
FAULTY = ("dual 101", "dual 2", "list 4 3", "list 9 9", "reduce 4 3 101 lex", "reduce 4 3 15 lex", "reduce 4 3 101 best", "sample 3 2 5 1 2",
          "sample 4 3 100 1 2", "probe 2 101", "probe 5 15", "probe 0 101", "")
FILE_FAULTS = ("show t", "show none/t", "show t/t", "show .", "check t", "check none/t", "check t/t", "check .", "rewrite t", "rewrite none/t",
               "rewrite t/t", "rewrite .", "rational t", "rational none/t", "rational .",
               "build t 3 2 5 lex", "build t 4 3 100 lex", "build t 4 3 15 lex", "build none/t 3 2 5 lex", "build t/t 3 2 5 lex",
               "resume t 3 2 5 lex", "resume t 4 3 100 lex", "resume t 4 3 15 lex", "resume none/t 3 2 5 lex", "resume t/t 3 2 5 lex", "resume .",
               "migrate t", "migrate none/t", "migrate t/t", "migrate .")


class Case:
    """The words, the bytes of standard input, those of the file `t`, if it is there, and which of 'source' and 'sink' fails, if any."""

    def __init__(self, words, given=b"", fails="", contents=None):
        self.words, self.given, self.fails, self.contents = list(map(str, words)), given, fails, contents


class Maker(Files):
    """Random cases from one generator."""

    def shape(self, most=7):
        """A weight and a depth, often the greatest."""
        weight = self.random.randrange(2, most + 1)
        return weight, self.some(weight - 1, self.random.randrange(1, weight))

    def preferred(self, shape):
        """A text of preferred words, mostly a good one."""
        if self.chance(0.2):
            return self.some(*WRONG_LISTS)
        words = [u for k in range(2, shape[0] + 1) for u in admissible_words(k, shape[1]) if is_lyndon(u) and self.chance(0.3)]
        if self.chance(0.1):
            words.insert(self.below(len(words) + 1), self.some("xyxy", "x" * shape[0] + "y", "xxy"))
        return "+".join(map(text, words[:MAX_PREFERRED + self.chance(0.1)])) or "z(2)"

    def table(self, shape):
        """The words of a table's parameters, now and then wrong ones."""
        if self.chance(0.06):
            shape = self.some(*WRONG_SHAPES)
        order = self.some("best", "", "LEX", "lex ", "0") if self.chance(0.04) else self.some("lex", "lex", "odd")
        return [*shape, self.modulus(0.03), order]

    # One method for each area.

    def dual(self):
        weight = self.random.randrange(2, 12)
        return Case(["dual", self.modulus()], self.lines((weight, weight), True))

    def list(self):
        shape = self.some(*WRONG_SHAPES, (24, 1), (14, 2)) if self.chance(0.3) else self.shape(9)
        return Case(["list"] + ["0" * self.some(0, 0, 0, 3, 30) + str(n) for n in shape], self.some(b"", b"z(2)\n"))

    def reduce(self):
        shape = self.shape()
        preferred = [self.preferred(shape)] if self.chance(0.4) else []
        return Case(["reduce"] + self.table(shape) + preferred, self.lines(shape))

    def prefixes(self):
        shape = self.shape(6)
        line = self.good_line(shape, False)[:400]
        return Case(["reduce", *shape, self.some(101, 1009, 2**61 - 1), self.some("lex", "odd")], b"\n".join(line[:n] for n in range(len(line) + 1)))

    def build(self):
        shape = self.shape()
        preferred = [self.preferred(shape)] if self.chance(0.4) else []
        contents = None if self.chance(0.7) else self.some(b"", b"", b"\0", b"\1", bytes(107), bytes(108))
        words = self.table(shape) + preferred if self.chance(0.97) else [8, 7, 289, "lex"]
        return Case(["build", "t"] + words, b"z(2)\n", contents=contents)

    def resume(self):
        params = self.params(7)
        weight, most, modulus, mode, preferred = params if self.chance(0.95) else self.params(4)
        words = [weight, most, modulus, mode] + ["+".join(map(text, preferred))] * bool(preferred)
        contents = self.table_file(params, 0.8) if self.chance(0.95) else None
        return Case(["resume", "t"] + words, b"z(2)\n", contents=contents)

    def migrate(self):
        weight, most, modulus, mode, preferred = self.params(7)
        given = self.table_file((weight, most, modulus, mode, preferred if self.chance(0.05) else ()), self.some(0, 0.8))
        if given[1:1 + len(NEW_HEADER)] == NEW_HEADER and self.chance(0.97):
            given = given[:1] + OLD_HEADER + given[1 + len(NEW_HEADER):1 + HEADER_LENGTH] + given[2 + HEADER_LENGTH:]
        contents = None if self.chance(0.9) else self.some(b"", b"", b"\0", b"\1", bytes(108))
        return Case(["migrate", "t"], given[:self.below(len(given) + 1)] if self.chance(0.2) else given + b"\0" * self.below(3), contents=contents)

    def check(self):
        return Case(["check", "t"], b"z(2)\n", contents=self.table_file(self.params(7), 0.8) if self.chance(0.99) else None)

    def rewrite(self, name="rewrite"):
        params = self.params(7)
        return Case([name, "t"], self.lines(params[:2]), contents=self.table_file(params, 0.2))

    def rational(self):
        return self.rewrite("rational")

    def show(self):
        return Case(["show", "t"], b"z(2)\n", contents=self.table_file(self.params(7)) if self.chance(0.97) else None)

    def sample(self):
        count = self.some(100000, 100001, 2**64 - 1) if self.chance(0.04) else self.below(60)
        words = self.table(self.shape())[:3]
        seed = self.some(self.below(100), self.below(2**64), 65536, 65537, 2**64 - 1)
        return Case(["sample", *(words if count != 100000 else [3, 1, 100]), seed, count], self.some(b"", b"z(2)\n"))

    def probe(self):
        n = self.some(0, 10000, 10001, 2**64 - 1) if self.chance(0.1) else self.random.randrange(1, self.some(5, 12, 60))
        return Case(["probe", n, self.modulus()], self.lines(self.shape()))

    def usage(self):
        name = self.some(*COMMANDS)
        words = [self.some("3", "2", "101", "lex", "t", "z(2)", *NOT_NUMBERS) for _ in range(self.below(7))]
        if name in FORMS and self.chance(0.6):
            good = {"F": "t", "W": "4", "D": "2", "M": "101", "O": "odd", "S": "3"}
            words = [good[kind] if self.chance(0.85) else self.some(*NOT_NUMBERS, "z(2)") for kind in FORMS[name]] + words[:self.some(0, 0, 0, 1, 2)]
        return Case([name] + words if self.chance(0.95) else [], b"z(2)\n")

    def fault(self):
        contents = self.table_file(self.params(4), 0.2) if self.chance(0.4) else None
        words = self.some(*FAULTY, *FILE_FAULTS) if contents is None else self.some(*FILE_FAULTS)
        return Case(words.split(), b"z(2)\n", self.some("source", "sink", *[""] * (contents is not None)), contents)

    def limit(self):
        size, kind = MAX_INPUT + self.some(-1, 0, 1, 70000), self.random.random()
        if kind < 0.4:
            given = self.some(b"z", b"\xff") * size
        elif kind < 0.7:
            line = b"1" * 5000 + b"\n"
            given = (line * (size // len(line) + 1))[:size]
        else:
            given = b"z(3)\n" + b" " * (size - 10) + b"\nz(3)"
        return Case(self.some("dual 101", "reduce 3 2 5 lex", "probe 2 101").split(), given)


AREAS = ("dual", "list", "reduce", "build", "resume", "migrate", "check", "rewrite", "show", "sample", "rational", "probe", "usage", "fault")
