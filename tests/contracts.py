"""The contracts of the public calls of a library of this repository, as they stand in its sources."""
import glob
import os
import re

WORD = r"[A-Za-z][A-Za-z0-9_]*"


def read(path):
    with open(path, encoding="utf-8") as file:
        return file.read()


def libraries(root):
    """The names of the libraries."""
    return sorted(path.split(os.sep)[-3] for path in glob.glob(os.path.join(root, "crates", "*", "src", "lib.rt")))


def exported(root, crate):
    """The names that a library's lib.rt hands out."""
    text = read(os.path.join(root, "crates", crate, "src", "lib.rt"))
    names = re.findall(r"^pub use %s(?:::%s)*::\{?([^;}]*)\}?;" % (WORD, WORD), text, re.M | re.S)
    return {name.strip() for group in names for name in group.split(",")} | set(re.findall(r"^pub (?:fn|struct|enum|trait) (%s)" % WORD, text, re.M))


def modules(root, crate):
    """The source files of a library in the order of its lib.rt, lib.rt first."""
    folder = os.path.join(root, "crates", crate, "src")
    names = re.findall(r"^(?:pub )?mod (%s);" % WORD, read(os.path.join(folder, "lib.rt")), re.M)
    return [os.path.join(folder, name + ".rt") for name in ["lib"] + [name for name in names if name != "tests"]]


def ends(lines, place, end, indent):
    """Whether a signature that begins at a line ends with another one: at the brace of its body, or at a semicolon outside braces."""
    if re.match(indent + r"(?:\{\}?$|(?:(?:pub )?fn |\)).* \{$)", lines[end]):
        return True
    text = "\n".join(lines[place:end + 1])
    return lines[end].endswith(";") and text.count("{") == text.count("}")


def contracts(root, crate):
    """Each public call of a library: its file, its type or trait if it has one, and its text from `fn` to the body, without comments."""
    names = exported(root, crate)
    for path in modules(root, crate):
        owner, is_trait = None, False
        lines = [re.sub(r" *//.*", "", line) for line in read(path).split("\n")]
        for place, line in enumerate(lines):
            head = re.match(r"(?:pub )?(?:impl|trait)\b *(?:.* for )?(%s)" % WORD, re.sub(r"<[^<>]*(?:<[^<>]*>[^<>]*)*>", "", line.replace("->", "")))
            if head and not line.startswith(" "):
                owner, is_trait = head.group(1), bool(re.match(r"(?:pub )?trait\b|impl\b.* for ", line))
            if re.match(r"\}", line):
                owner = None
            call = re.match(r"( *)(?:pub )?fn (%s)" % WORD, line)
            if call and (is_trait or line.lstrip().startswith("pub fn")) and (owner or call.group(2)) in names:
                end = place
                while end + 1 < len(lines) and not ends(lines, place, end, call.group(1)):
                    end += 1
                yield path, owner, "\n".join(lines[place:max(end + lines[end].endswith(";"), place + 1)]).rstrip(" {")
