"""Random files of tables: good ones, stopped ones, and ones with pages, entries or bytes changed."""
from oracle.builds import built_pages
from oracle.command_line import Refused, column_count, test_table
from oracle.files import file_of
from oracle.lyndon import is_lyndon
from oracle.pages import PER_PAGE
from oracle.words import admissible_words, text
from random_text import COMPOSITES, PRIMES, Text

SMALL_FILES = (b"", b"\0", b"\1", b"\7", b"\1" * 30, bytes(107), bytes(108), b"\7" * 107, b"\7" * 108, b"z(2)\n" * 30, b"\1\4\2\0\0\0\0\0\0",
               b"\1\1\0\0\0\0\0", b"\1\1\xff\xff\xff\xff\0")


class Files(Text):
    """Random files. Params are those of a table: weight, most, modulus, mode and preferred words."""

    def params(self, most_weight):
        """Parameters that pass their test, often of a table whose work is not broken."""
        while True:
            weight = self.random.randrange(2, most_weight + 1)
            most = self.some(weight - 1, self.random.randrange(1, weight))
            words = [u for k in range(2, weight + 1) for u in admissible_words(k, most) if is_lyndon(u) and self.chance(0.2)]
            preferred = "+".join(map(text, words[:16])) if words and self.chance(0.5) else None
            modulus = self.some(*PRIMES) if self.chance(0.8) else self.some(*COMPOSITES)
            try:
                return test_table(weight, most, modulus, self.some("lex", "odd"), preferred)
            except Refused:
                pass

    def changed_pairs(self, pairs, limit, modulus):
        """A row or a combination with one pair changed, taken away or put in, mostly within the bounds."""
        changed, keys = dict(pairs), [key for key, _ in pairs]
        residue = self.random.randrange(1, modulus) if self.chance(0.9) else self.some(0, modulus, 2**63 - 2, 2**63 - 1)
        kind = self.random.random()
        if kind < 0.5:
            changed[self.some(*keys)] = residue
        elif kind < 0.7:
            del changed[self.some(*keys)]
        else:
            changed[self.below(limit + self.chance(0.1))] = residue
        return tuple(sorted(changed.items()))

    def changed_entry(self, params, entry):
        """An entry with its row or its combination changed, or with another number."""
        *numbers, row, combination = entry
        if numbers and self.chance(0.1):
            return (self.below(130), row, combination)
        if self.chance(0.5):
            row = self.changed_pairs(row, column_count(*params[:2]), params[2])
        else:
            combination = self.changed_pairs(combination, numbers[0] + 1 if numbers else 40, params[2])
        return (*numbers, row, combination)

    def changed_entries(self, params, entries):
        """Entries with one changed, taken away, repeated, or exchanged with the one before it."""
        entries = list(entries)
        if not entries:
            return ()
        i, kind = self.below(len(entries)), self.random.random()
        if kind < 0.6:
            entries[i] = self.changed_entry(params, entries[i])
        elif kind < 0.75:
            del entries[i]
        elif kind < 0.85:
            entries.insert(i, entries[i])
        else:
            entries[i - 1], entries[i] = entries[i], entries[i - 1]
        return tuple(entries)

    def changed_header(self, params):
        """Parameters with one changed."""
        weight, most, modulus, mode, preferred = params
        return self.some((weight + 1, most, modulus, mode, preferred), (weight, max(1, most - 1), modulus, mode, preferred),
                         (weight, most, self.some(3, 9, 100, 101, 2**63), mode, preferred), (weight, most, modulus, "odd", preferred),
                         (0, most, modulus, mode, preferred), (weight, most, modulus, mode, ("xy", "xxy")), (weight, most, modulus, mode, ("yx",)))

    def changed_page(self, params, page):
        """A page with something in it changed."""
        if page[0] == "Header":
            return ("Header", self.changed_header(params))
        if page[0] == "Done":
            return ("Done", self.some(0, page[1] + 1, max(0, page[1] - 1), 2049))
        first = self.some(0, 1, PER_PAGE, page[1] + PER_PAGE) if self.chance(0.15) else page[1]
        return (page[0], first, self.changed_entries(params, page[2]))

    def true_rows(self, pages):
        """The pages with one Final page of rows that are their combinations but need not be reduced, or are too few."""
        finals, forwards = ([entry[-2:] for page in pages if page[0] == kind for entry in page[2]][:PER_PAGE] for kind in ("Final", "Forward"))
        entries = sorted(forwards) if self.chance(0.3) else finals
        if entries and self.chance(0.5):
            del entries[self.below(len(entries))]
        if self.chance(0.3):
            self.random.shuffle(entries)
        head = [page for page in pages if page[0] in ("Header", "Forward")]
        return head + [("Final", 0, tuple(entries))] * bool(entries) + [("Done", len(entries))]

    def changed_pages(self, params, pages):
        """The pages with one changed, taken away, repeated or put in, two exchanged, or the last ones cut off."""
        pages, i, kind = list(pages), self.below(len(pages)), self.random.random()
        if kind < 0.4:
            pages[i] = self.changed_page(params, pages[i])
        elif kind < 0.6:
            pages = self.true_rows(pages)
        elif kind < 0.75:
            pages = pages[:i]
        elif kind < 0.8:
            del pages[i]
        elif kind < 0.9:
            pages.insert(i, self.some(*pages, ("Forward", PER_PAGE * i, ()), ("Done", self.below(70)), ("Header", params)))
        else:
            j = self.below(len(pages))
            pages[i], pages[j] = pages[j], pages[i]
        return pages

    def file_with(self, pages):
        """The file of the pages, or of the first of them where one has no spelling at all."""
        while True:
            try:
                return file_of(pages)
            except (OverflowError, ValueError):
                pages = pages[:-1]

    def changed_bytes(self, contents):
        """A file cut off, with bytes changed, or with bytes behind it; or other bytes."""
        contents, kind = bytearray(contents), self.random.random()
        if kind < 0.35:
            return bytes(contents[:self.below(len(contents) + 1)])
        if kind < 0.65:
            for _ in range(self.some(1, 1, 2)):
                contents[self.below(len(contents))] = self.some(0, 1, 2, 7, 255, self.below(256))
            return bytes(contents)
        if kind < 0.8:
            return bytes(contents[:-1]) + bytes(self.some(0, 1, 4, 255) for _ in range(self.random.randrange(1, 40)))
        return self.some(*SMALL_FILES) if self.chance(0.7) else bytes(self.below(256) for _ in range(self.below(150)))

    def table_file(self, params, broken=0.5):
        """The file of some parameters, as it is built or with something changed."""
        pages, _ = built_pages(params)
        if self.chance(broken):
            for _ in range(self.some(0, 1, 1, 1, 2)):
                pages = self.changed_pages(params, pages) or pages
            if self.chance(0.5):
                return self.changed_bytes(self.file_with(pages))
        return self.file_with(pages)
