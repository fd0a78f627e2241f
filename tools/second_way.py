#!/usr/bin/env python3
"""Makes a web of 40 sections and all that weaving it with `-e +s` prints and writes, as a file of Rattle for a test.

It doesn't weave: each kind of section has its text and, beside it, the lines that the rules of docs/language.md give, with the numbers of its
scraps and productions. Footnotes, notes on names, the index, the section list and the cutting of lines are made here a second time.
usage: tools/second_way.py > crates/cw_run_tests/src/forty_sections.rt
"""
SECTIONS = 40
IDENTIFIER, ROMAN = 0, 1


class Book:
    def __init__(self):
        self.web, self.tex = [], ["\\input cwebmac"]
        self.scraps = self.productions = 0
        self.entries = {}  # the shown name, its text and kind: the sections, and whether each is underlined
        self.names = {}  # in order of entry: the sections that define, cite and use a name

    def count(self, scraps, productions):
        self.scraps += scraps
        self.productions += productions

    def occurs(self, shown, text, section, underlined=False, kind=IDENTIFIER):
        sections = self.entries.setdefault((shown, text, kind), {})
        sections[section] = sections.get(section, False) or underlined

    def name(self, text):
        return self.names.setdefault(text, {"defined": [], "cited": [], "used": []})

    def shown_name(self, text):
        return "\\X%d:%s\\X" % (int(text[5:-1]), text)


def starred(book, k):
    book.web += [f"@* Part {k}. It has |x| and a table, |table{k}|.", "@^part@>", f"@d limit{k} {k}"]
    book.tex += [f"\\N{{0}}{{{k}}}Part {k}. It has \\|x and a table, \\\\{{table{k}}}.", f"\\Y\\B\\4\\D$\\\\{{limit{k}}}$\\5\\T{{{k}}}\\par"]
    book.count(4, 0)
    book.occurs("{part}", "part", k, kind=ROMAN)
    book.occurs(f"\\\\{{table{k}}}", f"table{k}", k)
    book.occurs(f"\\\\{{limit{k}}}", f"limit{k}", k, True)


def step(book, k):
    book.web += [f"@ Section {k} adds.", f"@<Step {k}.@>=", f"if (a>{k}) {{ b+={k}; c({k},a); }} else while (b) b--;"]
    book.tex += [
        f"\\M{{{k}}}Section {k} adds.",
        f"\\Y\\B\\X{k}:Step {k}.\\X${{}}\\E{{}}$\\6",
        f"\\&{{if}} ${{}}(\\|a>\\T{{{k}}}){{}}$\\5${{}}\\{{\\1{{}}$\\6",
        f"${{}}\\|b\\MRL{{+{{\\K}}}}\\T{{{k}}};{{}}$\\6",
        f"${{}}\\|c(\\T{{{k}}},\\39\\|a);{{}}$\\6",
        "\\4${}\\}\\2{}$\\6",
        "\\&{else}\\1\\6",
        "\\&{while} (\\|b)\\1\\5${}\\|b\\MM;\\2{}$\\2\\par",
        ("footnotes", f"Step {k}."),
    ]
    book.count(29, 20)
    book.name(f"Step {k}.")["defined"].append(k)


def declaration(book, k):
    book.web += [f"@ @c int count{k}=b+c, *d;"]
    book.tex += [f"\\M{{{k}}}", f"\\Y\\B\\&{{int}} \\\\{{count{k}}}${{}}\\K\\|b+\\|c,{{}}$ ${{}}{{*}}\\|d;$\\par"]
    book.count(10, 10)
    book.occurs(f"\\\\{{count{k}}}", f"count{k}", k, True)
    book.occurs("\\|d", "d", k, True)


def types(book, k):
    book.web += [f"@ @c typedef struct node{k}{{int x;}} pair{k}; pair{k} y;"]
    book.tex += [
        f"\\M{{{k}}}",
        f"\\Y\\B\\&{{typedef}} \\&{{struct}} \\&{{node{k}}} ${{}}\\{{\\1{{}}$\\6",
        "\\&{int} \\|x;\\2\\6",
        f"${{}}\\}}{{}}$ \\&{{pair{k}}};\\6",
        f"\\&{{pair{k}}} \\|y;\\par",
    ]
    book.count(13, 14)
    book.occurs(f"\\\\{{node{k}}}", f"node{k}", k, True)
    book.occurs(f"\\&{{pair{k}}}", f"pair{k}", k, True)
    book.occurs("\\|x", "x", k, True)
    book.occurs("\\|y", "y", k, True)


def conditions(book, k):
    book.web += ["@ @c if(a)b;else if(c){d;}else e; /* b |x /* c |y| */| */"]
    book.tex += [
        f"\\M{{{k}}}",
        "\\Y\\B\\&{if} (\\|a)\\1\\5\\|b;\\2\\6",
        "\\&{else} \\&{if} (\\|c)\\5${}\\{\\1{}$\\6",
        "\\|d;\\6",
        "\\4${}\\}\\2{}$\\6",
        "\\&{else}\\1\\5\\|e;\\2\\C{ b \\|x\\C{ c \\|y } }\\par",
    ]
    book.count(18 + 4, 12 + 2)


def uses(book, k, cited, first, second):
    book.web += [f"@ See @<Step {cited}.@>.", f"@c @<Step {first}.@>; @<Step {second}.@>;"]
    book.tex += [
        f"\\M{{{k}}}See {book.shown_name(f'Step {cited}.')}.",
        f"\\Y\\B{book.shown_name(f'Step {first}.')};\\6",
        f"{book.shown_name(f'Step {second}.')};\\par",
    ]
    book.count(1 + 4, 1 + 3)
    book.name(f"Step {cited}.")["cited"].append(k)
    for used in sorted({first, second}):
        book.name(f"Step {used}.")["used"].append(k)


def footnote(letter, sections):
    if not sections:
        return []
    if len(sections) == 1:
        return [f"\\{letter}{sections[0]}."]
    if len(sections) == 2:
        return [f"\\{letter}s{sections[0]}\\ET{sections[1]}."]
    return [f"\\{letter}s{', '.join(map(str, sections[:-1]))}\\ETs{sections[-1]}."]


def place(byte):
    """Where a byte stands in the collation."""
    if chr(byte).isdigit():
        return (5, byte)
    if chr(byte).isalpha():
        return (3, ord(chr(byte).lower()))
    return (0, 0) if byte == 32 else (1, byte)


def cut(line):
    """The line in pieces of at most 80 bytes. Each is cut behind a blank here."""
    pieces = []
    while len(line) > 80:
        end = max(i for i in range(1, 80) if line[i] == " " and line[i - 1] != "\\") + 1
        pieces.append(line[:end])
        line = line[end:]
    return pieces + [line]


def make_book():
    book = Book()
    makers = [step, declaration, types, conditions]
    for k in range(1, SECTIONS + 1):
        if k % 10 == 1:
            starred(book, k)
        elif k % 5 == 0:
            steps = [kept["defined"][0] for kept in book.names.values()]
            uses(book, k, steps[-1], steps[-1 if k % 10 == 5 else -2], 2)
        else:
            makers[(k - 2) % 4](book, k)
        book.tex += ["\\fi", ""]
    return book


def lines_of(book):
    """The lines of the three files."""
    tex = []
    for line in book.tex:
        if isinstance(line, tuple):
            kept = book.names[line[1]]
            tex += footnote("A", kept["defined"][1:]) + footnote("Q", kept["cited"]) + footnote("U", kept["used"])
        else:
            tex.append(line)
    tex += ["\\inx", "\\fin", "\\con"]
    index = []
    for (shown, text, kind), sections in sorted(book.entries.items(), key=lambda row: ([place(b) for b in row[0][1].encode()], row[0][1], row[0][2])):
        numbers = [f", \\[{n}]" if sections[n] else f", {n}" for n in sorted(sections)]
        index.append(f"\\I{shown}{''.join(numbers)}.")
    names = []
    for text in sorted(book.names):
        names += [f"\\I{book.shown_name(text)}"] + footnote("Q", book.names[text]["cited"]) + footnote("U", book.names[text]["used"])
    return [[piece for line in file for piece in cut(line)] for file in (tex, index, names)]


def told(book):
    """The journal of the run: each run of bytes on one output begins with its name in brackets."""
    tex, index, names = lines_of(book)
    unused = [f"! Never used: <{text}>" for text, kept in book.names.items() if not kept["used"]]
    return "\n".join(
        ["[term]This is CWEAVE (profile 4)"] + unused + ["Writing the output file...", "[tex] is foo.tex", "[tex]" + tex[0]] + tex[1:]
        + ["[term]Writing the index...", "[idx] is foo.idx", "[idx]" + index[0]] + index[1:]
        + ["[scn] is foo.scn", "[scn]" + names[0]] + names[1:]
        + ["[term]Done.", f"sections {SECTIONS}", f"scraps {book.scraps}", f"productions {book.productions}", f"lines {len(tex)}"]
        + ["(Did you see the warning message above?)" if unused else "(No errors were found.)", "Clean"])


def constant(name, text):
    escaped = text.replace("\\", "\\\\").replace('"', '\\"')
    return f'pub(crate) const {name}: &[u8] = b"{escaped}";\n'


def main():
    book = make_book()
    print("//! A web of forty sections and what its run tells, as tools/second_way.py makes them.\n")
    print("/// The web.\n" + constant("WEB", "\n".join(book.web) + "\n"))
    print("/// What its run with the words `-e +s foo` tells.\n" + constant("TOLD", told(book)), end="")


if __name__ == "__main__":
    main()
