"""The functions of the crates, as their sources have them: for scripts that look who calls or turns what.

It goes by the layout of rt fmt: a body ends at the brace that stands below the first letter of its function. Where a macro
of the repository stands among items, the source is what `rt expand` makes of it.
"""
import glob
import os
import re
import subprocess

TOP = os.path.dirname(os.path.dirname(os.path.abspath(__file__)))
WORD = re.compile(r"\b[A-Za-z_]\w*")
FUNCTION = re.compile(r"^( *)(pub(?:\([^)]*\))? )?(?:const )?(?:unsafe )?fn (\w+)")
BLOCK = re.compile(r"^( *)(?:pub(?:\([^)]*\))? )?(?:unsafe )?(impl|trait)\b(?:<.*?>)? ?(?:(\w+)(?:<.*?>)? for )?[&'a-z ]*?(\w+)")
EXPORTED = re.compile(r"(?ms)^pub use ([^;]+);")
HEAD = re.compile(r"^(?:== )?(?:crates/\w+/)?(src/\S+\.rt):?$")


def bare(line):
    """A line without its comment, its strings and its byte literals."""
    line = re.sub(r'"(?:[^"\\]|\\.)*"', '""', line)
    return re.sub(r"b?'(?:[^'\\]|\\.)'", "''", line).split("//")[0]


class Function:
    """A function: where it stands, what its body says, and whether it can be called from another crate."""

    def __init__(self, crate, file, line, owner, trait, name, is_pub):
        self.crate, self.file, self.line, self.owner, self.trait, self.name = crate, file, line, owner, trait, name
        self.is_pub, self.is_public, self.is_test = is_pub, False, False
        self.end, self.begin, self.body = line, None, ""

    def __str__(self):
        owner = f"{self.owner}::" if self.owner else ""
        return f"{self.crate}::{owner}{self.name}"

    def place(self):
        return f"crates/{self.crate}/{self.file}:{self.line}"

    def words(self):
        return set(WORD.findall(self.body))


def read_body(lines, at, indent):
    """The lines from the one behind a function's head to the one that ends it: none where it has no body."""
    depth, i = 0, at
    while i < len(lines):
        line = bare(lines[i])
        text = line.strip()
        if depth == 0 and i > at and text in ("{", "{}") and line.startswith(indent + "{"):
            return (i, i) if text == "{}" else (i, end_of(lines, i, indent))
        opens_body = text.endswith("{") and not text.startswith(("requires", "ensures"))
        depth += sum(text.count(it) for it in "([{") - sum(text.count(it) for it in ")]}")
        if opens_body and depth == 1 and line.startswith(indent) and not line.startswith(indent + " "):
            return i, end_of(lines, i, indent)
        if depth == 0 and text.endswith("{}") and not text.startswith(("requires", "ensures")):
            return i, i
        if depth == 0 and text.endswith(";"):
            return None
        i += 1
    return None


def end_of(lines, begin, indent):
    for i in range(begin + 1, len(lines)):
        if lines[i].rstrip() == indent + "}":
            return i
    return len(lines) - 1


def functions_of(crate, file, text):
    """The functions of a file, in its order."""
    lines, found, blocks = text.split("\n"), [], []
    for at, line in enumerate(lines):
        code = bare(line)
        while blocks and at > blocks[-1][0]:
            blocks.pop()
        block = BLOCK.match(code)
        if block and not FUNCTION.match(code):
            kind, trait, owner = block[2], block[3], block[4]
            blocks.append((end_of(lines, at, block[1]), owner, owner if kind == "trait" else trait))
        head = FUNCTION.match(code)
        if not head:
            continue
        owner, trait = (blocks[-1][1], blocks[-1][2]) if blocks else (None, None)
        one = Function(crate, file, at + 1, owner, trait, head[3], (head[2] or "").strip() == "pub")
        one.is_test = at > 0 and "#[test]" in lines[at - 1]
        body = read_body(lines, at, head[1])
        if body:
            one.begin, one.end = body[0] + 1, body[1] + 1
            one.body = "\n".join(bare(it) for it in lines[body[0] + 1 : body[1]])
        found.append(one)
    return found


def sources(crate):
    """The files of a crate, each with its text; with what macros write, where any stands among items."""
    found = {}
    for path in sorted(glob.glob(f"{TOP}/crates/{crate}/src/**/*.rt", recursive=True)):
        with open(path) as file:
            found[os.path.relpath(path, f"{TOP}/crates/{crate}")] = file.read()
    if any(re.search(r"(?m)^(?:    )?(?!macro_rules)[a-z_]+! *[({]", text) and "macro_rules!" in text for text in found.values()):
        run = subprocess.run(["rt", "expand"], cwd=f"{TOP}/crates/{crate}", capture_output=True, text=True, stdin=subprocess.DEVNULL)
        name = None
        for line in run.stdout.split("\n"):
            head = HEAD.match(line)
            if head:
                name = head[1]
                found[name] = ""
            elif name:
                found[name] += line + "\n"
    return found


def below():
    """Each crate, bottom up, with the libraries that it uses."""
    with open(f"{TOP}/crates.txt") as file:
        return {it[1]: it[2].split() for it in re.finditer(r"(?m)^(\w+)[^:#\n]*:([^#\n]*)", file.read())}


def crates():
    return list(below())


def exported(text):
    """The names that a crate's root hands on."""
    return {word for it in EXPORTED.findall(text) for word in WORD.findall(it)} | set(
        re.findall(r"(?m)^pub (?:fn|struct|enum|trait|const) (\w+)", text))


def read_crate(crate):
    """The functions of a crate; those are public that its root hands on, by themselves or with their type or trait."""
    files = sources(crate)
    root = files.get("src/lib.rt", "")
    names = exported(root)
    all_of = [it for file, text in files.items() for it in functions_of(crate, file, text)]
    for one in all_of:
        known = (one.owner or one.name) in names
        one.is_public = known and (one.is_pub or one.trait is not None)
    return all_of


def reached(one, all_of):
    """A function with the private ones of its crate that it calls, they too."""
    private = {}
    for it in all_of:
        if not it.is_public:
            private.setdefault(it.name, []).append(it)
    found, left = {one}, [one]
    while left:
        for word in left.pop().words():
            for it in private.get(word, []):
                if it not in found:
                    found.add(it)
                    left.append(it)
    return found
