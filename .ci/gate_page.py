"""The tables of docs/GATE.md that scripts keep: each is between two comments, and has a row for each crate."""
import hashlib
import os
import textwrap

TOP = os.path.dirname(os.path.dirname(os.path.abspath(__file__)))
PAGE = f"{TOP}/docs/GATE.md"
TRIED = "edits tried"
STALE = "edits to be tried again"


def read():
    with open(PAGE, encoding="utf-8") as page:
        return page.read()


def write(text):
    with open(PAGE, "w", encoding="utf-8") as page:
        page.write(text)


def parts(text, table):
    """The text before the table's lines, the lines, and the text after them."""
    start, end = f"<!-- {table} -->\n", f"<!-- end of {table} -->\n"
    before, rest = text.split(start)
    lines, behind = rest.split(end)
    return before + start, lines.splitlines(), end + behind


def replace(table, lines):
    """Replaces the lines of a table."""
    before, _, behind = parts(read(), table)
    write(before + "".join(f"{line}\n" for line in lines) + behind)


def crates():
    """Each crate of crates.txt with what it names, in that order."""
    with open(f"{TOP}/crates.txt", encoding="utf-8") as file:
        lines = [line.split("#")[0].split(":") for line in file if ":" in line.split("#")[0]]
    return {head.split()[0]: tail.split() for head, tail in lines}


def below(name, named):
    """The crates of the repository that a crate uses, directly or not."""
    found, waiting = set(), [name]
    while waiting:
        for it in named[waiting.pop()]:
            if it in named and it not in found:
                found.add(it)
                waiting.append(it)
    return sorted(found)


def edits_of(name, tier):
    """How many edits of a tier a crate has."""
    folder = f"{TOP}/crates/{name}/{tier}"
    return len([it for it in os.listdir(folder) if it.endswith(".edit")]) if os.path.isdir(folder) else 0


def files_of(name, folder):
    """The files of a crate's folder, by their paths in the crate."""
    root = f"{TOP}/crates/{name}"
    found = [f"{at}/{file}" for at, _, files in os.walk(f"{root}/{folder}") for file in files]
    return sorted(os.path.relpath(it, root) for it in found)


def without_comments(content):
    """The lines of a source or a definition that are no comment: what a comment says changes no proof."""
    return [line for line in content.splitlines() if not line.lstrip().startswith((b"//", b"--"))]


def digest(name, named):
    """A sum of what the crate's further edits depend on: the edits, its sources and definitions, and those of the crates below,
    comments aside."""
    total = hashlib.sha256()
    for crate, folders in [(name, ["more-edits", "src", "specs"]), *((it, ["src", "specs"]) for it in below(name, named))]:
        for file in [it for folder in folders for it in files_of(crate, folder)]:
            with open(f"{TOP}/crates/{crate}/{file}", "rb") as content:
                total.update(repr((crate, file, without_comments(content.read()))).encode())
    return total.hexdigest()[:12]


def rows():
    """The head of the table of tried edits, and its rows by crate."""
    _, lines, _ = parts(read(), TRIED)
    return lines[:2], {line.split("`")[1]: line for line in lines[2:]}


def record_edits(name, count, result):
    """Writes the row that says over what a crate's further edits were last tried."""
    head, known = rows()
    known[name] = f"| `{name}` | {count} | {result} | {digest(name, crates())} |"
    replace(TRIED, head + [known[it] for it in sorted(known)])


def stale():
    """The crates whose further edits, or what they depend on, differ from what they were last tried over, and how many have such edits."""
    named, (_, known) = crates(), rows()
    names = [it for it in named if edits_of(it, "more-edits")]
    return [it for it in names if not known.get(it, "").endswith(f"| {digest(it, named)} |")], len(names)


def record_stale():
    """Writes the line that names the crates whose further edits are to be tried again, and returns it."""
    found, count = stale()
    line = f"Tried over what is here: those of {count - len(found)} of {count} crates."
    line += f" To be tried again: {', '.join(f'`{it}`' for it in found)}." if found else ""
    replace(STALE, textwrap.wrap(line, 120, break_on_hyphens=False))
    return line
