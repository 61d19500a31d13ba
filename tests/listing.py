#!/usr/bin/env python3
"""Compares what `ets_tool explain` writes with a listing made here, from the bytes of code files and the text of specifications alone: of
each specification in the rows of `crates/ets_tool` (of queries, scans, and the selections of scripts) and of `crates/judge_language/stdin`, of
the file that `compile` writes of it, and of each file in these rows. What is refused is refused as by `compile` or `verify`. Silent where all
agree.

usage: tests/listing.py [PROGRAM [EACH]]     EACH: one row of this many is taken, each if none is given"""
from concurrent.futures import ThreadPoolExecutor
from dataclasses import dataclass
import os
import re
import subprocess
import sys

TOP = os.path.dirname(os.path.dirname(os.path.abspath(__file__)))
sys.path.insert(0, f"{TOP}/tests")
sys.dont_write_bytecode = True
from built import PROGRAM, all_right

MAGIC = b"EMSC"
RESERVED = set(
    "after and andalso band begin bnot bor bsl bsr bxor case catch cond div else end fun if let maybe not of or orelse receive rem try when "
    "xor".split()
)
# By its number, an instruction's name and what follows it: a constant (c), a slot (v), a number (n), a function and the number of its
# arguments (f), a function of two integers (a), and where it leads if it fails (L).
INSTRUCTIONS = {
    1: ("load", ""), 2: ("const", "c"), 3: ("get", "v"), 4: ("bind", "v"), 5: ("dup", ""), 6: ("drop", ""), 7: ("tuple", "nL"),
    8: ("field", "n"), 9: ("cons", "L"), 10: ("head", ""), 11: ("tail", ""), 12: ("map", "L"), 13: ("value", "cL"), 14: ("equal", "L"),
    15: ("jump", "n"), 16: ("call", "fL"), 17: ("int", "L"), 18: ("arith", "aL"), 19: ("bool", "L"), 20: ("branch", "L"),
    21: ("make_tuple", "nL"), 22: ("make_cons", "L"), 23: ("make_map", "cL"), 24: ("answer", ""), 25: ("no_answer", ""),
    26: ("invoke", "nL"), 27: ("return", ""), 28: ("fail", ""),
}
FUNCTIONS = (
    "is_atom is_integer is_list is_number is_tuple is_map is_map_key is_binary is_bitstring is_boolean is_record is_float is_pid is_port "
    "is_reference is_function not and or xor abs element hd tl length size tuple_size byte_size bit_size map_size map_get round trunc + - "
    "bnot > >= < =< =:= =/= == /= max min"
).split()
ARITHMETIC = "+ - * div rem band bor bxor bsl bsr".split()


@dataclass(frozen=True)
class Term:
    """A term: what kind it is of, its parts, and its canonical text."""

    kind: str
    parts: tuple
    text: str


def integer(value):
    return Term("integer", (value,), str(value))


def atom(name):
    escaped = "".join({"\\": "\\\\", "'": "\\'", "\n": "\\n", "\r": "\\r", "\t": "\\t"}.get(c, c) for c in name)
    is_bare = re.fullmatch("[a-z][a-zA-Z0-9_@]*", name) and name not in RESERVED
    return Term("atom", (name,), name if is_bare else f"'{escaped}'")


def tuple_of(elements):
    return Term("tuple", tuple(elements), "{" + ",".join(it.text for it in elements) + "}")


NIL = Term("nil", (), "[]")


def list_of(elements, tail):
    """Elements in front of a tail, which is joined on where it is a list."""
    if tail.kind == "list":
        elements, tail = [*elements, *tail.parts[:-1]], tail.parts[-1]
    if not elements:
        return tail
    end = "" if tail.kind == "nil" else "|" + tail.text
    return Term("list", (*elements, tail), "[" + ",".join(it.text for it in elements) + end + "]")


def rank(term):
    """What compares as the order of terms has it."""
    at = ["integer", "atom", "tuple", "map", "nil", "list", "binary"].index(term.kind)
    if term.kind == "atom":
        return (at, [ord(c) for c in term.parts[0]])
    if term.kind == "tuple":
        return (at, len(term.parts), [rank(it) for it in term.parts])
    if term.kind == "map":
        return (at, len(term.parts), [rank(key) for key, _ in term.parts], [rank(value) for _, value in term.parts])
    if term.kind == "list":
        # A tail is compared with an element's rest, so that ranks of cells nest.
        row = rank(term.parts[-1])
        for it in reversed(term.parts[:-1]):
            row = (at, rank(it), row)
        return row
    return (at, term.parts)


def map_of(pairs):
    """Pairs by rising keys, of which none is there twice."""
    rising = sorted(pairs, key=lambda pair: rank(pair[0]))
    return Term("map", tuple(rising), "#{" + ",".join(f"{key.text}=>{value.text}" for key, value in rising) + "}")


def binary(data):
    return Term("binary", (bytes(data),), "<<" + ",".join(map(str, data)) + ">>")


# Texts

TOKEN = re.compile(r"""(?:[\t-\r ]|%[^\n]*)*(?:([+-]?[0-9]+)|([a-z][a-zA-Z0-9_@]*)|'((?:[^'\\]|\\.)*)'|"((?:[^"\\]|\\.)*)"|(\#\{|=>|<<|>>|[{}\[\],|.]))""", re.S)
ESCAPES = {"n": "\n", "r": "\r", "t": "\t", "\\": "\\", "'": "'", '"': '"'}


class NoText(Exception):
    """A text is none of terms, or one that this reader doesn't know."""


def unescaped(text):
    return re.sub(r"\\(.)", lambda it: ESCAPES[it.group(1)], text, flags=re.S)


def tokens_of(text):
    at, tokens = 0, []
    while True:
        found = TOKEN.match(text, at)
        if not found:
            if re.fullmatch(r"(?:[\t-\r ]|%[^\n]*(?:\n|$))*", text[at:]):
                return tokens
            raise NoText(text[at : at + 20])
        number, word, quoted, string, sign = found.groups()
        at = found.end()
        if number is not None:
            tokens.append(integer(int(number)))
        elif word is not None:
            tokens.append(atom(word))
        elif quoted is not None:
            tokens.append(atom(unescaped(quoted)))
        elif string is not None:
            tokens.append(list_of([integer(ord(c)) for c in unescaped(string)], NIL))
        else:
            tokens.append(sign)


class Reader:
    """The terms of a text, one after the other."""

    def __init__(self, text):
        self.tokens = tokens_of(text)
        self.at = 0

    def next(self):
        if self.at == len(self.tokens):
            raise NoText("end")
        self.at += 1
        return self.tokens[self.at - 1]

    def takes(self, sign):
        if self.at < len(self.tokens) and self.tokens[self.at] == sign:
            self.at += 1
            return True
        return False

    def wants(self, sign):
        if not self.takes(sign):
            raise NoText(sign)

    def row(self, end, item):
        """What is between commas, up to a sign."""
        if self.takes(end):
            return []
        row = [item()]
        while self.takes(","):
            row.append(item())
        self.wants(end)
        return row

    def pair(self):
        key = self.term()
        self.wants("=>")
        return (key, self.term())

    def segment(self):
        it = self.term()
        return [it.parts[0]] if it.kind == "integer" else [c.parts[0] for c in it.parts[:-1]]

    def elements(self):
        if self.takes("]"):
            return NIL
        row, tail = [self.term()], NIL
        while self.takes(","):
            row.append(self.term())
        if self.takes("|"):
            tail = self.term()
        self.wants("]")
        return list_of(row, tail)

    def term(self):
        token = self.next()
        if isinstance(token, Term):
            return token
        if token == "{":
            return tuple_of(self.row("}", self.term))
        if token == "[":
            return self.elements()
        if token == "#{":
            return map_of(self.row("}", self.pair))
        if token == "<<":
            return binary([byte for part in self.row(">>", self.segment) for byte in part])
        raise NoText(token)

    def terms(self):
        while self.at < len(self.tokens):
            yield self.term()
            self.wants(".")


def first_of(text):
    """The first term of a text, as far as it goes without the others; none where there is none."""
    try:
        return next(Reader(text).terms(), None)
    except (NoText, RecursionError, ValueError, KeyError):
        return None


# Specifications


def is_variable(term):
    return term.kind == "atom" and re.fullmatch(r"\$(0|[1-9][0-9]{0,7})", term.parts[0]) is not None


def variables_in(pattern):
    if is_variable(pattern):
        return {int(pattern.parts[0][1:])}
    if pattern.kind in ("tuple", "list"):
        return set().union(*map(variables_in, pattern.parts))
    if pattern.kind == "map":
        return set().union(*(variables_in(value) for _, value in pattern.parts))
    return set()


def is_free(pattern):
    """No variable, '_' or map is in a pattern."""
    if pattern.kind in ("tuple", "list"):
        return all(map(is_free, pattern.parts))
    return not (pattern.kind == "map" or pattern == atom("_") or is_variable(pattern))


def heads_of(specification):
    return [clause.parts[0] for clause in specification.parts[:-1]]


def plan_of(specification, keypos):
    """What a walk looks at: the keys, each once, or all objects."""
    keys = []
    for head in heads_of(specification):
        if head.kind != "tuple" or keypos > len(head.parts) or not is_free(head.parts[keypos - 1]):
            return "all objects"
        if head.parts[keypos - 1].text not in keys:
            keys.append(head.parts[keypos - 1].text)
    return " ".join([f"{len(keys)} looked up:", *keys])


def slots_of(specification):
    """The names of slots: the variables by rising number."""
    return [f"${number}" for number in sorted(set().union(*map(variables_in, heads_of(specification))))]


# Code files


class File:
    """The parts of a code file, which is known to be one."""

    def __init__(self, data):
        self.data, self.at = data, 0
        assert self.bytes(4) == MAGIC
        version = self.number(2)
        slots = self.number(2) if version == 1 else None
        self.constants = [self.constant() for _ in range(self.number(2))]
        if slots is not None:
            self.bodies = [self.instructions()]
            self.arguments = [0]
        else:
            self.bodies, self.arguments = [], []
            for body in range(self.number(2)):
                self.arguments.append(len([self.kind() for _ in range(self.number(2))]) if body else 0)
                if body:
                    self.kind()
                self.number(2)
                self.bodies.append(self.instructions())
        assert self.at == len(data), "bytes after the code"

    def bytes(self, count):
        self.at += count
        assert self.at <= len(self.data)
        return self.data[self.at - count : self.at]

    def number(self, size):
        return int.from_bytes(self.bytes(size), "big")

    def kind(self):
        if self.number(1) == 5:
            self.number(2)

    def constant(self):
        tag = self.number(1)
        if tag == 1:
            return integer(int.from_bytes(self.bytes(8), "big", signed=True))
        if tag == 2:
            return atom(self.bytes(self.number(2)).decode())
        if tag == 3:
            return tuple_of([self.constant() for _ in range(self.number(2))])
        if tag == 4:
            return map_of([(self.constant(), self.constant()) for _ in range(self.number(2))])
        if tag == 5:
            return NIL
        if tag == 6:
            elements = [self.constant() for _ in range(self.number(4))]
            return list_of(elements, self.constant())
        assert tag == 7
        return binary(self.bytes(self.number(4)))

    def operand(self, form):
        """The text of what follows an instruction's name, a slot as its number."""
        if form == "c":
            number = self.number(2)
            text = self.constants[number].text
            return f"constant {number}" if is_long(text) else text
        if form == "v":
            return self.number(1)
        if form == "f":
            name = FUNCTIONS[self.number(1) - 1]
            return f"{name}/{self.number(2)}"
        if form == "a":
            return f"{ARITHMETIC[self.number(1) - 1]}/2"
        return str(self.number(2))

    def instructions(self):
        """Each instruction's name, its operand or none, and where it leads otherwise or none; after them the frames, which are passed."""
        row = []
        for _ in range(self.number(2)):
            name, forms = INSTRUCTIONS[self.number(1)]
            operand = self.operand(forms[0]) if forms.rstrip("L") else None
            row.append((name, operand, self.number(2) if forms.endswith("L") else None))
        for _ in range(self.number(2)):
            self.bytes(4)
            for _ in range(self.number(2)):
                self.number(2)
                self.kind()
            self.bytes(self.number(2))
        return row


def is_long(text):
    """Whether the text of a constant is too long for the line of an instruction, which then has its number."""
    return len(text.encode()) > 60


def line_of(number, name, operand, otherwise, slots):
    line = f"{number:5}  {name}"
    if isinstance(operand, int):
        operand = slots[operand] if operand < len(slots) else f"#{operand}"
    for column, text in ((18, operand), (36, None if otherwise is None else f"else {otherwise}")):
        if text:
            # Columns count bytes.
            line += " " * max(0, column - len(line.encode())) + " " + text
    return line


def listing(file, slots):
    for number, body in enumerate(file.bodies):
        if number:
            yield f"routine {number}, arguments {file.arguments[number]}"
        for pc, (name, operand, otherwise) in enumerate(body):
            yield line_of(pc, name, operand, otherwise, slots)
    for number, constant in enumerate(file.constants):
        if is_long(constant.text):
            yield f"constant {number}: {constant.text}"


def explained(file, slots, plan, keypos, bounds):
    budget, depth = bounds
    lines = [f"walk at keypos {keypos}: {plan}", f"instructions of a run at most {budget}, stack at most {depth}", *listing(file, slots)]
    return "\n".join(lines) + "\n"


# The program


def ran(program, text, *words):
    """The status, and what is written on both streams."""
    it = subprocess.run([program, *words], input=text.encode(), capture_output=True, check=False, timeout=60)
    return it.returncode, it.stdout.decode(), it.stderr.decode()


def bounds_of(verdict):
    found = re.fullmatch(r"\{ok,(\d+),(\d+)\}\.\n", verdict)
    return found and found.groups()


def agrees(wanted, came, what):
    if wanted == came:
        return True
    print(f"explain over {what[:300]}: {came}, not {wanted}", file=sys.stderr)
    return False


def file_agrees(program, text):
    """Whether a file, as the text of a binary, is explained as it is, or refused as `verify` refuses it."""
    status, verdict, error = ran(program, text, "verify")
    came = ran(program, text, "explain", "--keypos", "3")
    bounds = bounds_of(verdict)
    if not bounds:
        return agrees((status, "", error), came, text)
    file = File(first_of(text).parts[0])
    return agrees((0, explained(file, [], "all objects", 3, bounds), ""), came, text)


def specification_agrees(program, text):
    """Whether a specification is explained as it is, or refused as `compile` refuses it; and so its file."""
    status, code, error = ran(program, text, "compile")
    if status != 0:
        return agrees((status, "", error), ran(program, text, "explain"), text)
    specification = first_of(text)
    file = File(first_of(code).parts[0])
    bounds = bounds_of(ran(program, code, "verify")[1])
    right = file_agrees(program, code)
    for keypos, words in ((1, ()), (2, ("--keypos", "2"))):
        wanted = explained(file, slots_of(specification), plan_of(specification, keypos), keypos, bounds)
        right = agrees((0, wanted, ""), ran(program, text, "explain", *words), text) and right
    return right


# Rows


def inputs_of(name):
    """The inputs of the rows of a file of `crates/ets_tool`, each after the words of its row."""
    words, text = "", ""
    with open(f"{TOP}/crates/ets_tool/{name}", encoding="utf-8") as file:
        for line in [*file.read().split("\n"), ""]:
            if line.startswith(("< ", "- ")):
                text += line[2:] + "\n"
            elif not line:
                yield words, text
                words, text = "", ""
            elif not line.startswith(("> ", "! ")):
                words = line


def rows_of_queries():
    """The first terms of the inputs of queries and scans."""
    queries = [text for words, text in inputs_of("rows") if words.split()[:1] in (["run"], ["test"], ["compile"], ["verify"], ["scan"])]
    for text in queries + [text for _, text in inputs_of("scan_rows")]:
        first = first_of(text)
        if first:
            yield first


def rows_of_scripts():
    """The specifications by which scripts select, as far as their text is read here."""
    for _, text in inputs_of("script_rows"):
        try:
            for term in Reader(text).terms():
                if term.kind == "tuple" and len(term.parts) > 2 and term.parts[0].text in ("select", "select_count", "select_delete"):
                    yield term.parts[2]
        except (NoText, RecursionError, ValueError, KeyError):
            pass


def rows_of_judge():
    """Specifications and files of rows that hold them as they are."""
    with open(f"{TOP}/crates/judge_language/stdin", encoding="utf-8") as file:
        rows = re.split(r"\.\n(?=[{%\n]|$)", file.read())
    for text in rows:
        text = re.sub(r"^(?:[ \t]*(?:%[^\n]*)?\n)*", "", text)
        if not re.match(r"\{(spec|answers|agree|compiled|file|file_each),", text):
            continue
        row = first_of(text + ".\n")
        if row is None:
            continue
        kind, given = row.parts[0].parts[0], row.parts[1]
        if kind in ("file", "file_each"):
            if len(given.parts) == 2 and given.parts[0].kind == "binary":
                yield given.parts[0]
        elif kind == "agree":
            yield from given.parts[:-1]
        else:
            yield given


def main(words):
    program = words[0] if words else PROGRAM
    each = int(words[1]) if len(words) > 1 else 1
    rows = [*rows_of_queries(), *rows_of_scripts(), *rows_of_judge()]
    texts = list(dict.fromkeys(f"{term.text}.\n" for term in rows))[::each]
    files = [text for text in texts if text.startswith("<<")]
    if len(texts) * each < 2600 or len(files) * each < 1300:
        print(f"tests/listing.py: no more than {len(texts)} rows, {len(files)} of them files", file=sys.stderr)
        return 1
    with ThreadPoolExecutor(os.cpu_count()) as pool:
        right = list(pool.map(lambda it: (file_agrees if it.startswith("<<") else specification_agrees)(program, it), texts))
    return 0 if all_right("listings", right) else 1


sys.setrecursionlimit(20000)
sys.exit(main(sys.argv[1:]))
