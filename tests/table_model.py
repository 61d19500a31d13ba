"""Tables of ets as a script of `ets_tool` sees them, on one thread: a model over plain lists, which looks through all rows at each call.

Terms are integers, `Atom`, tuples, lists (proper ones), `Map` and bytes. A specification is a list of clauses of which heads hold
variables, '_' and other terms, conditions compare, and bodies are variables, '$_', '$$', atoms and {const,Term}."""
from dataclasses import dataclass
import re

MASK = 2**64 - 1
FACTOR = 1099511628211
FIRST_SLOTS = 8
MOST_SLOTS = 65536
MOST_ROWS = 64
END = "'$end_of_table'"


@dataclass(frozen=True)
class Atom:
    name: str


@dataclass(frozen=True)
class Map:
    pairs: tuple


TRUE = Atom("true")


def mixed(start, hashes):
    total = start
    for one in hashes:
        total = (total * FACTOR + one) & MASK
    return total


def key_hash(term):
    """The hash of a key, by which its part and its class are found."""
    if isinstance(term, int):
        return term & MASK
    if isinstance(term, Atom):
        return mixed(1, map(ord, term.name))
    if isinstance(term, tuple):
        return mixed(2, map(key_hash, term))
    if isinstance(term, Map):
        return mixed(3, (key_hash(x) for pair in ordered(term) for x in pair))
    if isinstance(term, bytes):
        return mixed(6, term)
    return mixed(5, [*map(key_hash, term), 4]) if term else 4


def rank(term):
    """What compares as the order of terms has it."""
    if isinstance(term, int):
        return (0, term)
    if isinstance(term, Atom):
        return (1, [ord(c) for c in term.name])
    if isinstance(term, tuple):
        return (2, len(term), [rank(x) for x in term])
    if isinstance(term, Map):
        pairs = ordered(term)
        return (3, len(pairs), [rank(k) for k, _ in pairs], [rank(v) for _, v in pairs])
    if isinstance(term, list):
        # A list is its head and then its tail, which is less where it is [].
        return (5, [rank(x) for x in term]) if term else (4,)
    return (6, list(term))


def ordered(term):
    return sorted(term.pairs, key=lambda pair: rank(pair[0]))


def text(term):
    """The canonical text of a term."""
    if isinstance(term, bool):
        raise TypeError(term)
    if isinstance(term, int):
        return str(term)
    if isinstance(term, Atom):
        return term.name if re.fullmatch("[a-z][a-zA-Z0-9_@]*", term.name) else f"'{term.name}'"
    if isinstance(term, tuple):
        return "{" + ",".join(map(text, term)) + "}"
    if isinstance(term, Map):
        return "#{" + ",".join(f"{text(k)}=>{text(v)}" for k, v in ordered(term)) + "}"
    if isinstance(term, bytes):
        return "<<" + ",".join(map(str, term)) + ">>"
    return "[" + ",".join(map(text, term)) + "]"


def frozen(term):
    """A term as a key of a dictionary."""
    if isinstance(term, list):
        return ("list", *map(frozen, term))
    if isinstance(term, tuple):
        return ("tuple", *map(frozen, term))
    if isinstance(term, Map):
        return ("map", *((frozen(k), frozen(v)) for k, v in ordered(term)))
    return term


def same(one, other):
    return frozen(one) == frozen(other)


# Specifications


def variable(term):
    return isinstance(term, Atom) and re.fullmatch(r"\$(0|[1-9][0-9]{0,7})", term.name) is not None


def is_free(pattern):
    """No variable, '_' or map is in a pattern."""
    if isinstance(pattern, (tuple, list)):
        return all(map(is_free, pattern))
    return not (isinstance(pattern, Map) or pattern == Atom("_") or variable(pattern))


def matches(pattern, term, bound):
    if pattern == Atom("_"):
        return True
    if variable(pattern):
        if pattern.name in bound:
            return same(bound[pattern.name], term)
        bound[pattern.name] = term
        return True
    if isinstance(pattern, (tuple, list)) and isinstance(term, type(pattern)):
        return len(pattern) == len(term) and all(matches(p, t, bound) for p, t in zip(pattern, term))
    return same(pattern, term)


def value(expression, bound, whole):
    if variable(expression):
        return bound[expression.name]
    if expression == Atom("$_"):
        return whole
    if isinstance(expression, tuple):
        return expression[1]
    if expression == Atom("$$"):
        return [bound[name] for name in sorted(bound, key=lambda name: int(name[1:]))]
    return expression


COMPARED = {
    "==": lambda a, b: same(a, b),
    "/=": lambda a, b: not same(a, b),
    "<": lambda a, b: rank(a) < rank(b),
    ">": lambda a, b: rank(a) > rank(b),
    "=<": lambda a, b: rank(a) <= rank(b),
    ">=": lambda a, b: rank(a) >= rank(b),
}


def answer(specification, term):
    """What a specification answers on an object: a list of one, or of none."""
    for head, conditions, body in specification:
        bound = {}
        if matches(head, term, bound) and all(
            COMPARED[name.name](value(a, bound, term), value(b, bound, term)) for name, a, b in conditions
        ):
            return [value(body[-1], bound, term)]
    return []


def named_keys(specification, keypos, is_ordered):
    """The keys that a walk looks up, where each head names one."""
    keys = []
    for head, _, _ in specification:
        if not (isinstance(head, tuple) and keypos <= len(head) and is_free(head[keypos - 1])):
            return None
        if not any(same(head[keypos - 1], key) for key in keys):
            keys.append(head[keypos - 1])
    return sorted(keys, key=rank) if is_ordered else keys


# Parts


class Row:
    def __init__(self, key):
        self.key, self.objects, self.rank, self.hash = key, [], rank(key), key_hash(key)


class Part:
    def __init__(self, table):
        self.table, self.rows, self.found = table, [], {}
        self.slots = self.base = FIRST_SLOTS

    def row(self, key):
        return self.found.get(frozen(key))

    def settle(self):
        if not self.table.is_fixed():
            self.drop([row for row in self.rows if not row.objects])
            self.base = self.slots

    def drop(self, rows):
        for row in rows:
            self.rows.remove(row)
            del self.found[frozen(row.key)]

    def insert(self, key, term):
        row, kind = self.row(key), self.table.kind
        if row is None:
            row = self.found[frozen(key)] = Row(key)
            self.rows.append(row)
            if kind != "ordered_set" and len(self.rows) > 4 * self.slots and self.slots < MOST_SLOTS:
                self.slots *= 2
        if kind in ("set", "ordered_set"):
            row.objects = [term]
        elif kind == "duplicate_bag" or not any(same(term, one) for one in row.objects):
            row.objects = [*row.objects, term]
        if not self.table.is_fixed():
            self.base = self.slots

    def put(self, row, objects):
        row.objects = objects
        if not objects and not self.table.is_fixed():
            self.drop([row])

    def class_of(self, base, row):
        return row.hash // self.table.parts_count % base

    def ranked(self):
        return sorted(self.rows, key=lambda row: row.rank)

    def in_class(self, base, number):
        return [row for row in self.rows if self.class_of(base, row) == number]

    def walk(self):
        if self.table.kind == "ordered_set":
            return self.ranked()
        return sorted(self.rows, key=lambda row: self.class_of(self.base, row))


# Tables and scripts


class Table:
    def __init__(self, name, kind, keypos, parts, sessions):
        self.name, self.kind, self.keypos, self.parts_count = name, kind, keypos, parts
        self.fixes, self.left = [0] * sessions, [False] * sessions
        self.parts = [Part(self) for _ in range(parts)]

    def is_fixed(self):
        return any(self.fixes)

    def settle(self):
        for part in self.parts:
            part.settle()

    def number_of(self, key):
        return key_hash(key) % self.parts_count

    def part(self, key):
        return self.parts[self.number_of(key)]

    def key(self, term):
        return term[self.keypos - 1] if isinstance(term, tuple) and self.keypos <= len(term) else None


class Walk:
    """A walk in pieces: where it goes on, and the answers that it keeps."""

    def __init__(self, table, session, specification, limit):
        self.table, self.session, self.specification, self.limit = table, session, specification, limit
        self.kept = []
        self.named = named_keys(specification, table.keypos, table.kind == "ordered_set")
        self.at = ("named", 0) if self.named is not None else ("part", 0, None)
        if self.named == []:
            self.at = None

    def visit(self):
        table = self.table
        if self.at[0] == "named":
            key = self.named[self.at[1]]
            row = table.part(key).row(key)
            self.gain([row] if row else [])
            self.at = ("named", self.at[1] + 1) if self.at[1] + 1 < len(self.named) else None
            return
        _, number, cursor = self.at
        part = table.parts[number]
        if table.kind == "ordered_set":
            wanted = self.limit - len(self.kept)
            rows = [row for row in part.ranked() if cursor is None or row.rank > cursor]
            for seen, row in enumerate(rows, 1):
                wanted -= self.gain([row])
                if wanted <= 0 or seen == MOST_ROWS:
                    self.at = ("part", number, row.rank)
                    return
            self.at = None
            return
        base, place = cursor or (part.base, 0)
        self.gain(part.in_class(base, place))
        if place + 1 < base:
            self.at = ("part", number, (base, place + 1))
        else:
            self.at = ("part", number + 1, None) if number + 1 < len(table.parts) else None

    def gain(self, rows):
        found = [a for row in rows for t in row.objects for a in answer(self.specification, t)]
        self.kept += found
        return len(found)

    def piece(self):
        while len(self.kept) < self.limit and self.at is not None:
            self.visit()
        piece, self.kept = self.kept[: self.limit], self.kept[self.limit :]
        return piece


def error(number):
    return "{error,%d}" % number


class Script:
    def __init__(self):
        self.table, self.opened, self.walks = None, 0, []

    def reply(self, command):
        name, *arguments = command
        if name == "open":
            return self.open(*arguments)
        if self.table is None:
            return error(65)
        if name == "close":
            table, self.table = self.table, None
            return text([t for part in table.parts for row in part.walk() for t in row.objects])
        session, *arguments = arguments
        if not 0 <= session < len(self.table.fixes) or self.table.left[session]:
            return error(61)
        return getattr(self, name)(self.table, session, *arguments)

    def open(self, kind, keypos, parts, sessions):
        if self.table is not None:
            return error(65)
        if not (1 <= keypos <= 65535 and 1 <= parts <= 64 and 1 <= sessions <= 16) or (kind == "ordered_set" and parts != 1):
            return error(60)
        self.table = Table(self.opened, kind, keypos, parts, sessions)
        self.opened += 1
        return "true"

    def insert(self, table, _, term):
        key = table.key(term)
        if key is None:
            return error(50)
        table.part(key).insert(key, term)
        return "true"

    def insert_new(self, table, _, term):
        key = table.key(term)
        if key is None:
            return error(50)
        row = table.part(key).row(key)
        if row and row.objects:
            return "false"
        table.part(key).insert(key, term)
        return "true"

    def lookup(self, table, _, key):
        row = table.part(key).row(key)
        return text(row.objects if row else [])

    def member(self, table, _, key):
        row = table.part(key).row(key)
        return "true" if row and row.objects else "false"

    def take(self, table, session, key):
        objects = self.lookup(table, session, key)
        self.delete(table, session, key)
        return objects

    def delete(self, table, _, key):
        part = table.part(key)
        if part.row(key):
            part.put(part.row(key), [])
        return "true"

    def delete_object(self, table, _, term):
        key = table.key(term)
        if key is None:
            return error(50)
        part = table.part(key)
        if part.row(key):
            part.put(part.row(key), [t for t in part.row(key).objects if not same(t, term)])
        return "true"

    def fix(self, table, session):
        if table.fixes[session] == 65535:
            return error(51)
        table.fixes[session] += 1
        return "true"

    def unfix(self, table, session):
        if table.fixes[session] == 0:
            return error(52)
        table.fixes[session] -= 1
        table.settle()
        return "true"

    def leave(self, table, session):
        table.fixes[session] = 0
        table.settle()
        table.left[session] = True
        return "true"

    def select(self, table, session, specification, limit=None):
        if limit is not None:
            return error(63) if limit < 1 else self.step(Walk(table, session, specification, limit))
        return text(Walk(table, session, specification, 2**64).piece())

    def step(self, walk):
        piece = walk.piece()
        if not piece:
            return END
        self.walks.append(walk)
        return "{%s,%d}" % (text(piece), len(self.walks) - 1)

    def more(self, table, session, number):
        walk = self.walks[number] if 0 <= number < len(self.walks) else None
        if walk is None or walk.table is not table or walk.session != session:
            return error(62)
        self.walks[number] = None
        return self.step(walk)

    def true_objects(self, table, specification):
        keys = named_keys(specification, table.keypos, table.kind == "ordered_set")
        rows = [(part, row) for part in table.parts for row in part.rows]
        if keys is not None:
            rows = [(part, row) for part, row in rows if any(same(row.key, key) for key in keys)]
        return [(part, row, [t for t in row.objects if answer(specification, t) == [TRUE]]) for part, row in rows]

    def select_count(self, table, _, specification):
        return str(sum(len(gone) for _, _, gone in self.true_objects(table, specification)))

    def select_delete(self, table, _, specification):
        count = 0
        for part, row, gone in self.true_objects(table, specification):
            count += len(gone)
            if gone:
                part.put(row, [t for t in row.objects if answer(specification, t) != [TRUE]])
        return str(count)

    def first(self, table, _):
        return self.first_from(table, 0)

    def first_from(self, table, number):
        for part in table.parts[number:]:
            for row in part.walk():
                if row.objects:
                    return text(row.key)
        return END

    def next(self, table, _, key):
        number = table.number_of(key)
        part = table.parts[number]
        if table.kind == "ordered_set":
            behind = [row for row in part.ranked() if row.rank > rank(key)]
        elif part.row(key) is None:
            return error(53)
        else:
            walk = part.walk()
            behind = walk[walk.index(part.row(key)) + 1 :]
        for row in behind:
            if row.objects:
                return text(row.key)
        return self.first_from(table, number + 1)
