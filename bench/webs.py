"""Webs for `bench/beside`: like those that authors write, of one kind of text, and hostile."""
import random

WORDS = (
    "the a section of this program reads each line and keeps what it finds so that later parts can use it without "
    "looking again we count words sort them by name print totals close files report errors when memory is gone"
).split()
VERBS = ["read", "sort", "count", "merge", "print", "scan", "find", "keep", "drop", "link", "hash", "pack"]
NOUNS = ["line", "word", "table", "name", "node", "page", "file", "total", "index", "value", "entry", "queue"]


class Author:
    """Writes sections of prose and C with names from a stock of so many."""

    def __init__(self, seed, names):
        self.rng = random.Random(seed)
        self.names = [f"{self.rng.choice(VERBS)}_{self.rng.choice(NOUNS)}{i}" for i in range(names)]

    def name(self):
        return self.rng.choice(self.names)

    def paragraph(self):
        """Four lines of prose with three inner texts."""
        text = []
        for part in range(3):
            text += [self.rng.choice(WORDS) for _ in range(self.rng.randint(9, 15))]
            text.append(f"|{self.name()}|" if part else f"|{self.name()}=={self.rng.randint(0, 99)}|")
        lines, line = [], ""
        for word in text + ["again."]:
            if len(line) + len(word) > 70:
                lines.append(line)
                line = ""
            line = f"{line} {word}".strip()
        return "\n".join(lines + [line]) + "\n"

    def code(self, below):
        """Fifteen lines of ordinary C with a comment and a use of the next section's name."""
        a, b, c, d = (self.name() for _ in range(4))
        return (
            f"static int {a}(struct {b} *p, int n)\n{{\n"
            f"    int i, {c} = 0; /* how many |{d}| were found so far */\n"
            f"    for (i = 0; i < n; i++) {{\n"
            f"        if (p[i].{d} > {self.rng.randint(1, 999)} && p[i].next != NULL) {{\n"
            f"            {c} += p[i].{d} * 0x1f;\n"
            f"            p[i].{d} = {self.name()}(&p[i], \"{b}\\n\");\n"
            f"        }} else if (p[i].{d} == 0)\n"
            f"            continue;\n"
            f"        else\n"
            f"            {self.name()}(stderr, \"%d: bad %s\\n\", i, p[i].name);\n"
            f"    }}\n"
            f"    @<{below}@>\n"
            f"    return {c};\n}}\n"
        )

    def section(self, number, last):
        """Prose, a definition, and a named part; the last one leads to the first."""
        star = "@* Group of parts. " if number % 10 == 1 else "@ "
        this, below = f"Part {number} of the work@", f"Part {number + 1 if number < last else 1} of the work"
        return f"{star}{self.paragraph()}@d {self.name().upper()} {number}\n@<{this}>=\n{self.code(below)}"


def real_web(size):
    """Prose with three inner texts a paragraph, a definition and a named part of fifteen lines; 2,000 names."""
    author = Author(size, 2000)
    last = max(2, size // 860)
    sections = "".join(author.section(number, last) for number in range(1, last + 1))
    return ("\\def\\title{A web}\n" + sections).encode()


def filled(size, begin, part):
    """A web that begins so and has parts, numbered from 1, until it is as large as the size."""
    parts, length, number = [begin], len(begin), 1
    while length < size:
        parts.append(part(number))
        length += len(parts[-1])
        number += 1
    return "".join(parts).encode()


def prose(size):
    """Sections of six lines of text without C."""
    author = Author(size, 1)

    def line():
        return " ".join(author.rng.choice(WORDS) for _ in range(11))

    return filled(size, "\\def\\title{Prose}\n", lambda _: "@ " + "\n".join(line() for _ in range(6)) + ".\n")


def short_texts(size):
    """Sections of text in which each fourth word is one name between bars."""
    author = Author(size, 2000)

    def words():
        return " ".join(author.rng.choice(WORDS) for _ in range(3)) + f" |{author.name()}|"

    return filled(size, "\\def\\title{Names}\n", lambda _: "@ " + ",\n".join(f"{words()} {words()}" for _ in range(6)) + ".\n")


def ordinary_c(size):
    """Named parts of fifteen lines of C behind a word of text."""
    author = Author(size, 2000)
    last = max(2, size // 490)

    def section(number):
        below = number + 1 if number < last else 1
        return f"@ Next.\n@<Part {number} of the work@>=\n{author.code(f'Part {below} of the work')}"

    return ("\\def\\title{C}\n" + "".join(section(number) for number in range(1, last + 1))).encode()


def declarations(size):
    """C parts of structures, typedefs, and variables of these types: 700 types, as many as the original has room for."""
    author = Author(size, 1000)

    def section(count):
        a, b, c, d = (author.name() for _ in range(4))
        number = count % 700
        return (
            f"@ Types.\n@c\ntypedef struct node_{number} {{\n    int {a};\n    char *{b}[{number % 99 + 1}];\n"
            f"    struct node_{number} *next, *last;\n}} kind_{number};\n"
            f"static const kind_{number} *{c};\nunsigned long int {d} = {number};\n"
            f"extern kind_{number} *make_{number}(int {a}, const char *{b}, kind_{number} **{c});\n"
        )

    return filled(size, "\\def\\title{Types}\n", section)


def long_comments(size):
    """C parts of a statement and a comment of six lines with inner texts."""
    author = Author(size, 2000)

    def line():
        return " ".join(author.rng.choice(WORDS) for _ in range(8)) + f" |{author.name()}+1|"

    def section(_):
        return f"@ Next.\n@c\n{author.name()}={author.name()};\n/* " + "\n   ".join(line() for _ in range(6)) + " */\n"

    return filled(size, "\\def\\title{Comments}\n", section)


def many_names(size):
    """Sections of one line, each with a name of its own that the next one uses."""

    def section(number):
        return f"@ @<Do step {number} of all@>=\nx;@<Do step {number + 1} of all@>\n"

    last = size // 60
    sections = "".join(section(number) for number in range(1, last))
    return ("\\def\\title{Steps}\n" + sections + f"@ @<Do step {last} of all@>=\nx;@<Do step 1 of all@>\n").encode()


def hostile(begin, unit):
    """A web of one unit over and over."""
    return lambda size: (begin + unit * (size // len(unit)))[: size - 1] + b"\n"


LIMIT = 8388608
WEBS = [
    ("real, 100 kB", real_web, 100_000),
    ("real", real_web, 1_000_000),
    ("prose", prose, 1_000_000),
    ("short texts", short_texts, 1_000_000),
    ("ordinary C", ordinary_c, 1_000_000),
    ("declarations", declarations, 1_000_000),
    ("long comments", long_comments, 1_000_000),
    ("50,000 names", many_names, 3_000_000),
]
HOSTILE = [
    ("bars in prose", hostile(b"@ ", b"|" * 63 + b"\n"), LIMIT),
    ("bars in C", hostile(b"@ @c ", b"|" * 63 + b"\n"), LIMIT),
    ("quotes", hostile(b"@ @c ", b'"' * 63 + b"\n"), LIMIT),
    ("section names", hostile(b"@ @c ", b"@<" * 31 + b"\n"), LIMIT),
    ("comments", hostile(b"@ @c ", b"/*" * 31 + b"\n"), LIMIT),
    ("braces", hostile(b"@ @c ", b"{" * 63 + b"\n"), LIMIT),
    ("prose, one line", hostile(b"@ ", b"aaa "), LIMIT),
    ("C, one line", hostile(b"@ @c ", b"a;"), LIMIT),
]
