"""A type book as text: a line for a type, a line for a member. docs/BOOK.md says how it is written.

written(text) gives the bytes of a text, or raises Wrong with the line's number and the reason; listed(book) gives a book's text.
"""
import struct

KINDS = [
    "NONE", "BOOLEAN", "BYTE", "INT16", "INT32", "INT64", "UINT16", "UINT32", "UINT64", "FLOAT32", "FLOAT64", "FLOAT128", "INT8", "UINT8",
    "CHAR8", "CHAR16", "STRING8", "STRING16", "ALIAS", "BITMASK", "ANNOTATION", "ENUM", "STRUCTURE", "UNION", "BITSET", "SEQUENCE", "ARRAY", "MAP",
]
EXTENSIBILITIES = ["final", "appendable", "mutable"]
CONSTRUCTS = ["use-default", "discard", "trim"]
BITMASK, ENUM, STRUCTURE, UNION, SEQUENCE, ARRAY = (KINDS.index(k) for k in ("BITMASK", "ENUM", "STRUCTURE", "UNION", "SEQUENCE", "ARRAY"))
OPTIONAL, DEFAULT = 1, 2
NOTHING = 0xFFFF
LONGEST = 65536
TYPES, MEMBERS, LABELS = 64, 64, 16
BOUNDED = "bound"


class Wrong(Exception):
    """What is wrong with a text: the line's number, from 1, and the reason."""

    def __init__(self, line, reason):
        super().__init__(f"line {line}: {reason}")
        self.line = line
        self.reason = reason


class Type:
    def __init__(self, line, name, kind):
        self.line, self.name, self.kind = line, name, kind
        self.extensibility, self.base, self.bound, self.element = 0, 0, None, NOTHING
        self.members = []


class Member:
    def __init__(self, line, id, type):
        self.line, self.id, self.type = line, id, type
        self.flags, self.construct, self.labels = 0, CONSTRUCTS.index("discard"), []


def number(line, word, what, low, high):
    """A decimal number, or a hexadecimal one after 0x."""
    try:
        value = int(word, 16 if word.lower().startswith(("0x", "-0x")) else 10)
    except ValueError:
        raise Wrong(line, f"{what} is a number, and '{word}' is none") from None
    if not low <= value <= high:
        raise Wrong(line, f"{what} is {low} to {high}, and not {word}")
    return value


def kind_named(line, word):
    if word.upper() not in KINDS:
        raise Wrong(line, f"there is no kind '{word}'")
    return KINDS.index(word.upper())


def type_named(line, word, types):
    """The number of an earlier type, by its name or by its number."""
    for i, t in enumerate(types):
        if word in (t.name, str(i)):
            return i
    if word.isdigit():
        raise Wrong(line, f"type {word} does not stand above")
    raise Wrong(line, f"no type above is named '{word}'")


def after(line, words, word):
    if not words:
        raise Wrong(line, f"after '{word}' a word is missing")
    return words.pop(0)


def type_line(line, words, types):
    """type NAME KIND [final|appendable|mutable] [base KIND] [bound N] [of TYPE]"""
    if len(words) < 2:
        raise Wrong(line, "a type is 'type NAME KIND ..'")
    name, kind = words.pop(0), kind_named(line, words.pop(0))
    if len(types) == TYPES:
        raise Wrong(line, f"a book has at most {TYPES} types")
    if name.isdigit() and int(name) != len(types):
        raise Wrong(line, f"this is type {len(types)}, and not {name}")
    if any(name == t.name for t in types):
        raise Wrong(line, f"two types are named '{name}'")
    t = Type(line, name, kind)
    if kind == ENUM:
        t.base = KINDS.index("INT32")
    while words:
        word = words.pop(0).lower()
        if word in EXTENSIBILITIES:
            t.extensibility = EXTENSIBILITIES.index(word)
        elif word == "base":
            if kind != ENUM:
                raise Wrong(line, "only an ENUM has a base")
            t.base = kind_named(line, after(line, words, word))
        elif word == BOUNDED:
            t.bound = number(line, after(line, words, word), "a bound", 0, 2**32 - 1)
        elif word == "of":
            if kind not in (SEQUENCE, ARRAY):
                raise Wrong(line, f"{KINDS[kind]} has no elements")
            t.element = type_named(line, after(line, words, word), types)
        else:
            raise Wrong(line, f"a type has no '{word}'")
    if kind in (SEQUENCE, ARRAY) and t.element == NOTHING:
        raise Wrong(line, f"{KINDS[kind]} wants 'of' and the type of its elements")
    if kind == ARRAY and t.bound is None:
        raise Wrong(line, "an ARRAY wants 'bound' and the number of its elements")
    return t


def member_line(line, words, types, literal):
    """member ID TYPE [optional] [default] [use-default|discard|trim] [labels N ..]; literal ID [default] [..] [labels N ..]"""
    what = "literal" if literal else "member"
    if not types:
        raise Wrong(line, f"a {what} stands below its type, and no type stands above")
    t = types[-1]
    if t.kind not in (ENUM, STRUCTURE, UNION):
        raise Wrong(line, f"{KINDS[t.kind]} has no members")
    if literal != (t.kind == ENUM):
        raise Wrong(line, "an ENUM has literals, and no members" if t.kind == ENUM else f"{KINDS[t.kind]} has members, and no literals")
    if len(words) < (1 if literal else 2):
        raise Wrong(line, "a literal is 'literal ID ..'" if literal else "a member is 'member ID TYPE ..'")
    if len(t.members) == MEMBERS:
        raise Wrong(line, f"a type has at most {MEMBERS} members")
    id = number(line, words.pop(0), "an id", 0, 2**32 - 1)
    if any(id == m.id for m in t.members):
        raise Wrong(line, f"two members of type '{t.name}' have the id {id}")
    m = Member(line, id, NOTHING if literal else type_named(line, words.pop(0), types[:-1]))
    while words:
        word = words.pop(0).lower()
        if word == "optional":
            m.flags |= OPTIONAL
        elif word == "default":
            m.flags |= DEFAULT
        elif word in CONSTRUCTS:
            m.construct = CONSTRUCTS.index(word)
        elif word in ("label", "labels"):
            if not words:
                raise Wrong(line, f"after '{word}' a number is missing")
            m.labels = [number(line, w, "a label", -(2**31), 2**31 - 1) for w in words]
            words = []
            if len(m.labels) > LABELS:
                raise Wrong(line, f"a member has at most {LABELS} labels")
        else:
            raise Wrong(line, f"a {what} has no '{word}'")
    if t.kind == UNION and not t.members:
        first_of_union(line, m, types)
    return m


def first_of_union(line, m, types):
    kind = types[m.type].kind
    if m.id != 0:
        raise Wrong(line, "a union's first member is its discriminator, and has the id 0")
    if not (1 <= kind <= 15 or kind in (BITMASK, ENUM)):
        raise Wrong(line, f"a union's discriminator is a number, a BITMASK or an ENUM, and not {KINDS[kind]}")
    if m.flags & DEFAULT or m.labels:
        raise Wrong(line, "a union's discriminator has no label and no default")


def whole(t):
    """What can be said of a type only when all of its members stand there."""
    if t.kind in (ENUM, UNION) and not t.members:
        raise Wrong(t.line, "an ENUM has at least one literal" if t.kind == ENUM else "a UNION has at least its discriminator")


def types_of(text):
    types = []
    for line, row in enumerate(text.split("\n"), 1):
        words = row.split("#")[0].split()
        if not words:
            continue
        word = words.pop(0).lower()
        if word == "type":
            if types:
                whole(types[-1])
            types.append(type_line(line, words, types))
        elif word in ("member", "literal"):
            m = member_line(line, words, types, word == "literal")
            types[-1].members.append(m)
        else:
            raise Wrong(line, f"a line begins with 'type', 'member' or 'literal', and not with '{word}'")
    if not types:
        raise Wrong(1, "there is no type")
    whole(types[-1])
    return types


def record(t):
    members = b"".join(
        struct.pack(">IHBBB", m.id, m.type, m.flags, m.construct, len(m.labels)) + b"".join(struct.pack(">i", n) for n in m.labels) for m in t.members
    )
    own = struct.pack(">BBBBIHH", t.kind, t.extensibility, t.base, t.bound is not None, t.bound or 0, t.element, len(t.members))
    return struct.pack(">H", 2 + len(own) + len(members)) + own + members


def written(text):
    types = types_of(text)
    records = b"".join(record(t) for t in types)
    if 7 + len(records) > LONGEST:
        raise Wrong(types[-1].line, f"the book would have {7 + len(records)} bytes, and at most {LONGEST} are allowed")
    return struct.pack(">IBH", 7 + len(records), 1, len(types)) + records


def member_text(kind, m):
    id, type, flags, construct, labels = m
    words = ["  literal", str(id)] if kind == ENUM else ["  member", str(id), str(type)]
    if flags & OPTIONAL:
        words.append("optional")
    if flags & DEFAULT:
        words.append("default")
    if construct != CONSTRUCTS.index("discard"):
        words.append(CONSTRUCTS[construct])
    if labels:
        words += ["labels", *map(str, labels)]
    return " ".join(words)


def listed(book):
    """The text of a book that breaks no rule."""
    count = struct.unpack_from(">H", book, 5)[0]
    at, lines = 7, []
    for i in range(count):
        kind, extensibility, base, bounded, bound, element, members = struct.unpack_from(">BBBBIHH", book, at + 2)
        words = ["type", str(i), KINDS[kind]]
        if extensibility:
            words.append(EXTENSIBILITIES[extensibility])
        if kind == ENUM and base != KINDS.index("INT32"):
            words += ["base", KINDS[base]]
        if bounded:
            words += [BOUNDED, str(bound)]
        if element != NOTHING:
            words += ["of", str(element)]
        lines.append(" ".join(words))
        p = at + 14
        for _ in range(members):
            id, type, flags, construct, labels = struct.unpack_from(">IHBBB", book, p)
            lines.append(member_text(kind, (id, type, flags, construct, struct.unpack_from(f">{labels}i", book, p + 9))))
            p += 9 + 4 * labels
        at = p
    return "\n".join(lines) + "\n"
