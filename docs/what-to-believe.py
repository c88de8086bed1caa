#!/usr/bin/env python3
"""Finds what a reader must believe, and compares it with the tables of docs/CLAIMS.md:

    docs/what-to-believe.py [FILE.md]

It begins with the clauses of the two top calls, and walks from each definition to those that it names, through
crates/*/specs: a name is looked up in its own file, and then in that file's `use` lines. It prints a line for each file that
it comes to: crate, file, what it is for, and which of its definitions were met; and one for each type of the code, or file
of constants, that they name. What is for the headline comes first: a file that is listed for something else is not needed
there.

Of a definition every word counts that does not stand behind a point, also a variable with the name of an import. So the walk
may come to a file too many, and never to one too few. It reads the files as `rt fmt` lays them out, and proves nothing.

Then it prints each difference from the tables below "What a reader must believe" in FILE.md, and the numbers, on the
standard error, and fails where there is a difference.
"""
import pathlib
import re
import sys

TOP = pathlib.Path(__file__).resolve().parent.parent
CRATES = TOP / "crates"
TOP_CALLS = [("superpin_top", "superpin"), ("superpin_live_top", "superpin_live")]
# What the clauses of the top calls are for; all that are not named are `other`.
CLAUSES = [("headline", ["headline", "sliced"]), ("demo", ["demo"]), ("other", None)]
# What a table of the page lists, by the head of its first column.
TABLES = {
    "File": "headline",
    "For a demonstration besides": "demo",
    "For the other clauses besides": "other",
    "Of the code": "code",
}

NAME = r"[A-Za-z_][\w'?]*"
USE = re.compile(r"^\s*(?:pub |ghost )?use ([\w.]+?)(?:\.\{([^}]*)\})?(?: as (\w+))?;?$", re.M)
DEFINITION = re.compile(r"(?:(?:abbrev|unfoldable)(?: pub)?|(?:pub )?(?:data|record)) (\S+)")
CONSTRUCTOR = re.compile(rf"({NAME})\s*:")


def words_of(text):
    """The names in a text, each with what stands behind its points."""
    text = re.sub(r'"[^"]*"', " ", text)
    return re.findall(rf"(?<![\w.'?]){NAME}(?:\.{NAME})*", text)


def imports_of(text):
    """What `use` lines bring: by its name here the module and the name there, which a whole module lacks."""
    imports = {}
    for module, names, alias in USE.findall(text):
        if not names:
            imports[alias or module.split(".")[-1]] = (module, None)
        for name in filter(None, re.split(r"\s*,\s*", names.strip())):
            there, _, here = name.partition(" as ")
            imports[here or there] = (module, there)
    return imports


class Specs:
    """A file of definitions."""

    def __init__(self, crate, module):
        path = CRATES / crate / "specs" / (module.replace(".", "/") + ".antt")
        text = re.sub(r"--.*", "", path.read_text(encoding="utf-8"))
        self.texts = {}  # of each definition, with the heads of the modules round it
        self.owners = {}  # the definition that has a name: its own, or that of a constructor
        heads = []  # the lines `module _ (..) where` round the line at hand, each with its indent
        name = None
        for line in text.splitlines():
            rest = line.strip()
            if not rest or USE.match(line):
                continue
            indent = len(line) - len(line.lstrip())
            heads = [head for head in heads if head[0] < indent]
            begins = DEFINITION.match(rest) if indent == 2 * len(heads) else None
            if rest.startswith("module _ "):
                heads.append((indent, rest))
            elif begins:
                name = begins.group(1)
                if not re.fullmatch(NAME, name):
                    sys.exit(f"{path}: the walk cannot read the name {name}")
                is_data = "data " in begins.group(0)
                self.owners[name] = name
                self.texts[name] = " ".join([head[1] for head in heads] + [rest])
            else:
                self.texts[name] += " " + rest
                if is_data and CONSTRUCTOR.match(rest):
                    self.owners[CONSTRUCTOR.match(rest).group(1)] = name
        own = {other: (f"Rattle.{crate}.specs.{module}", other) for other in self.owners}
        self.names = {**imports_of(text), **own}


def clauses_of(crate, call):
    """The clauses of a top call by name, and what the `use` lines of its file bring."""
    text = (CRATES / crate / "src/top.rt").read_text(encoding="utf-8")
    contract = text[text.index(f"pub fn {call}<"):]
    contract = re.sub(r"//.*", "", contract[:contract.index("\n{\n")])
    parts = re.split(r"^    ensures (\w+) ", contract, flags=re.M)[1:]
    return dict(zip(parts[::2], parts[1::2])), imports_of(text)


class Walk:
    """What was met so far."""

    def __init__(self):
        self.specs = {}
        self.met = {}  # crate and file, to definition, to what it is for
        self.code = {}  # crate and type, or file of constants, to what it is for

    def go(self, purpose, names, text):
        """Goes to all that the words of a text stand for, by these names, and on from there."""
        todo = [(names, word) for word in words_of(text)]
        while todo:
            names, word = todo.pop()
            first, _, behind = word.partition(".")
            module, name = names.get(first, ("", None))
            name = name or behind.split(".")[0]
            root, crate, *path = module.split(".") if name and module else [""] * 2
            if root != "Rattle" or not (CRATES / crate).is_dir():
                continue
            if path[:2] == ["specs", "declared"]:
                last = path[-1] if len(path) > 2 else ""
                name = path[-2] if last in ["TheVariants", "TheConstants"] else name
                self.code.setdefault((crate, name), purpose)
            elif path[0] == "specs" and path[1] != "contracts":
                todo += self.meet(purpose, crate, ".".join(path[1:]), name)
            else:
                sys.exit(f"{module}: {name}: the walk knows no way there")

    def meet(self, purpose, crate, module, name):
        """Answers what is named where a definition stands, with the names there, if it was not met before."""
        file = (crate, module)
        if file not in self.specs:
            self.specs[file] = Specs(crate, module)
        specs = self.specs[file]
        if name not in specs.names:
            sys.exit(f"{crate}: {module} has no definition {name}")
        if name not in specs.owners:
            return [(specs.names, name)]  # handed on by a `pub use`
        name = specs.owners[name]
        if name in self.met.setdefault(file, {}):
            return []
        self.met[file][name] = purpose
        return [(specs.names, word) for word in words_of(specs.texts[name])]


def walk_from_the_top():
    walk = Walk()
    calls = [clauses_of(crate, call) for crate, call in TOP_CALLS]
    for purpose, wanted in CLAUSES:
        for name in wanted or []:
            if not any(name in clauses for clauses, _ in calls):
                sys.exit(f"no top call has a clause {name}")
        for clauses, names in calls:
            for name, text in clauses.items():
                if wanted is None or name in wanted:
                    walk.go(purpose, names, text)
    return walk


def print_walk(walk):
    """Prints what was met; answers what each file, type and file of constants is for."""
    found = {}
    for (crate, file), definitions in sorted(walk.met.items()):
        for purpose, _ in CLAUSES:
            names = sorted(name for name in definitions if definitions[name] == purpose)
            if names:
                print(f"{crate}\t{file}\t{purpose}\t{' '.join(names)}")
                found.setdefault((crate, file), purpose)
    for (crate, name), purpose in sorted(walk.code.items()):
        print(f"{crate}\t{name}\tcode, {purpose}")
        found[crate, name] = "code"
    return found


def tables_of(page):
    """What the page lists: crate and file, to what its table is for and its line."""
    listed = {}
    inside, purpose = False, None
    for number, line in enumerate(page.read_text(encoding="utf-8").splitlines(), 1):
        if line.startswith("## "):
            inside = line == "## What a reader must believe"
        cells = [cell.strip() for cell in line.split("|")]
        if not inside or len(cells) < 3:
            purpose = None
        elif purpose is None:
            purpose = TABLES.get(cells[1], "a table of another kind")
        else:
            crate, *names = re.findall(r"`([^`]*)`", cells[1]) or [""]
            for name in names:
                if (crate, name) in listed:
                    sys.exit(f"{page}:{number}: {crate}: {name} is listed twice")
                listed[crate, name] = (purpose, number)
    return listed


def main():
    page = pathlib.Path(sys.argv[1]) if len(sys.argv) > 1 else TOP / "docs/CLAIMS.md"
    found = print_walk(walk_from_the_top())
    listed = tables_of(page)
    differences = 0
    for crate, name in sorted(set(found) | set(listed)):
        met = found.get((crate, name), "nothing")
        purpose, number = listed.get((crate, name), ("nothing", 0))
        if purpose != met:
            differences += 1
            place = f"{page}:{number}" if number else page
            print(f"{place}: {crate}: {name} is for {met}, and listed for {purpose}", file=sys.stderr)
    counts = ", ".join(f"{list(found.values()).count(purpose)} {purpose}" for purpose in TABLES.values())
    print(f"to believe: {counts}; {differences} listed otherwise", file=sys.stderr)
    sys.exit(differences > 0)


main()
