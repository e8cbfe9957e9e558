"""Random numbers, words and lines, good ones and nearly good ones, from one generator."""

PRIMES = (5, 7, 11, 13, 17, 101, 1009, 65537, 2**31 - 1, 2**61 - 1, 2**63 - 25)
COMPOSITES = (4, 9, 15, 21, 49, 100, 143, 169, 1001, 1331, 2**62, 2**63 - 1, 2**63 - 2, 101 * 103, 3 * 2**40)
REFUSED_MODULI = (0, 1, 2, 2**63, 2**64 - 1)
EDGES = (b"", b" ", b"\t\r", b"0", b"5", b"+", b"-", b"z", b"2*z(3)", b"z(2)^2", b"z(1)", b"z()", b"1/0", b"0*z(2)", b"z(2)^0", b"z(1)^0", b"z(2)^", b"1/2/3",
         b"\xc3\xa9")
BYTES = b"z(),0123456789+-*/^ \t\rxyZ.\x00\xff\x0b\x0c"


class Text:
    """Random text of lines. A shape is a weight and a depth; most terms have that weight and at most that depth."""

    def __init__(self, generator):
        self.random = generator

    def some(self, *choices):
        return self.random.choice(choices)

    def chance(self, p):
        return self.random.random() < p

    def below(self, n):
        return self.random.randrange(n)

    def modulus(self, refused=0.05):
        """A prime or a composite number, now and then one that is refused."""
        if self.chance(refused):
            return self.some(*REFUSED_MODULI)
        if self.chance(0.8):
            return self.some(*PRIMES + (COMPOSITES if self.chance(0.5) else PRIMES))
        return max(3, self.below(1 << self.random.randrange(2, 64)))

    def blank(self):
        if self.chance(0.85):
            return ""
        return "".join(self.some(" ", "\t", "\r") for _ in range(self.random.randrange(1, 4)))

    def spelled(self, tokens):
        """Tokens with random blanks between them."""
        return ("".join(self.blank() + token for token in tokens) + self.blank()).encode()

    def zeta(self, weight, depth):
        """The tokens of a zeta, now and then with a number at an edge."""
        index = [1] * self.random.randrange(1, max(1, min(depth, weight)) + 1)
        for _ in range(weight - len(index)):
            index[self.below(len(index)) if self.chance(0.6) else 0] += 1
        if self.chance(0.03):
            index[self.below(len(index))] = self.some(0, 1, 10, 99, 100, 999, 1000)
        tokens = ["z", "("]
        for i, k in enumerate(index):
            tokens += [","] * (i > 0) + [str(k)]
        return tokens + [")"]

    def number(self):
        """Digits, now and then too many."""
        kind = self.random.random()
        if kind < 0.7:
            return str(self.below(12))
        if kind < 0.85:
            return str(self.below(10 ** self.random.randrange(1, 20)))
        if kind < 0.95:
            return "0" * self.random.randrange(1, 10) + str(self.below(100))
        return "".join(self.some(*"0123456789") for _ in range(self.some(36, 37, 38, 38, 39)))

    def quotient(self):
        """The tokens of a number, or of one over another."""
        return [self.number()] + (["/", self.number()] if self.chance(0.3) else [])

    def powers(self, weight, depth):
        """The tokens of zetas, some to a power, whose weights add up."""
        factors = []
        while weight > 0:
            k = weight if self.chance(0.5) or weight < 4 else self.random.randrange(2, weight - 1)
            whole = [p for p in (2, 3, 4) if k % p == 0 and k > p]
            p = self.some(*whole) if whole and self.chance(0.3) else 1
            factors.append(self.zeta(k // p, max(1, depth // p)) + ["^", str(p)] * (p > 1))
            weight, depth = weight - k, max(1, depth - p * (factors[-1].count(",") + 1))
        return factors

    def term(self, weight, depth):
        """The tokens of a term of the whole grammar."""
        factors = self.powers(weight, depth) + [self.quotient() for _ in range(self.some(0, 0, 1, 1, 2))]
        if self.chance(0.04):
            factors.append(self.zeta(self.random.randrange(1, 30), 3) + ["^", self.some("0", "00", "1", "01", "99")])
        if self.chance(0.04):
            factors = [self.quotient()]
        self.random.shuffle(factors)
        return [token for factor in factors for token in ["*"] + factor][1:]

    def good_line(self, shape, small):
        """A line of the small grammar or of the whole one, or nearly one."""
        tokens = [self.some("+", "-")] if self.chance(0.2) else []
        for i in range(self.some(1, 1, 2, 2, 3, 5, 12 if small else 5)):
            weight = max(1, shape[0] + self.some(-1, 1, 2, 20)) if self.chance(0.05) else shape[0]
            tokens += [self.some("+", "-")] * (i > 0) + (self.zeta if small else self.term)(weight, shape[1])
        return self.spelled(tokens)

    def long_line(self, shape, small):
        """A line of about 4,096 bytes."""
        length, line = self.some(4095, 4096, 4096, 4097, 4097, 4098, 9000), self.good_line(shape, small)
        if self.chance(0.4):
            return line + b" " * max(0, length - len(line))
        if self.chance(0.5):
            term = b"+" + self.spelled(self.zeta(*shape))
            line += term * (max(0, length - len(line)) // len(term))
            return line + b"\t" * max(0, length - len(line))
        return self.some(b"z", b"1", b"+", b"(", b" ") * length

    def changed(self, line):
        """The line with some bytes changed."""
        line = bytearray(line)
        for _ in range(self.some(1, 1, 2, 4)):
            at, byte, kind = self.below(len(line) + 1), self.some(*BYTES), self.random.random()
            if kind < 0.4:
                line.insert(at, byte)
            elif at < len(line) and kind < 0.7:
                del line[at]
            elif at < len(line):
                line[at] = byte
        return bytes(line)

    def line(self, shape, small=False):
        """A line of any kind."""
        kind = self.random.random()
        if kind < 0.55:
            return self.good_line(shape, small)
        if kind < 0.8:
            return self.changed(self.good_line(shape, small))
        if kind < 0.88:
            line = self.good_line(shape, small)
            return line[:self.below(len(line) + 1)]
        if kind < 0.93:
            return self.some(*EDGES)
        if kind < 0.97:
            return self.long_line(shape, small)
        return bytes(self.below(256) for _ in range(self.below(20))).replace(b"\n", b"")

    def lines(self, shape, small=False):
        """Some lines, of which the last may not be ended."""
        return b"\n".join(self.line(shape, small) for _ in range(self.below(12))) + b"\n" * self.chance(0.7)
