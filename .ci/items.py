# The items of a library crate's source, so that .ci/statements knows every public function. A form that isn't known here is refused: what isn't understood
# could hide a function.
import re
from dataclasses import dataclass

SPACE = re.compile(r"(?:\s|//[^\n]*)*")
TOKEN = re.compile(
    r"""(?P<unknown>/\*|[bc]?r\#*"|r\#\w)"""
    r"""|(?P<ghost_use>ghost\s+use\s+[^\s;{}]+(?:\{[^;{}]*\})?;)"""
    r"""|(?P<ghost_given>ghost\s+\w+\s*=\s*(?=\{))"""
    r"""|(?P<clause>(?:(?:requires|ensures)\b\s*(?:\*\s*)?(?:\w+\s*)?|ghost\b\s*(?:\w+\s*:\s*)?)(?=\{))"""
    r"""|(?P<text>[bc]?"(?:\\.|[^"\\])*")"""
    r"""|(?P<char>b?'(?:\\(?:x[0-9a-fA-F]{2}|u\{[0-9a-fA-F_]+\}|[nrt0'"\\])|[^'\\\n])')|(?P<lifetime>'[A-Za-z_]\w*)"""
    r"""|(?P<word>[A-Za-z_]\w*)|(?P<number>[0-9]\w*)|(?P<sign>::|->|[^\w\s'"\\])""",
    re.ASCII | re.DOTALL,
)
IN_CLAUSE = re.compile(r"""--|\{-|//|/\*|"|⟦|«[^»]*»|[{}]""")
DEFAULT = re.compile(r"\s*=\s*(?=\{)")
CLOSING = {"(": ")", "[": "]", "{": "}"}

# What std derives, but for what nobody has given a line of crates/tight yet (`PartialOrd`, `Ord`, `Hash`, `Default`); another name would be a macro's, which
# could write any function.
DERIVES = set("Clone Copy Debug Drop Eq PartialEq".split())


class Refused(Exception):
    pass


@dataclass
class Token:
    kind: str
    text: str
    line: int


# `asks` tells that a function has a `requires`, or binds a ghost value, which can ask as much; `exported`, that it is made for C; `odd`, why no line of
# crates/tight can speak of it, if so: what is passed at a type parameter has no last value in the contract, whatever the type, and a number's contract asks
# that arrays of its length have a size. `head` is a function's text from its name to its last clause, `body` what it does, each token by token; of a trait
# and an alias `head` is what they name; a type is `odd` where it is generic. Of an `impl` of a trait `path` and `arguments` are the trait's, and `name` is
# the type's ("" where that is no plain name), and `head` what it is generic in; of an import `path` is what its name stands for. `members` are the items of a
# trait or of an `impl` of one.
@dataclass
class Item:
    kind: str
    name: str
    public: bool
    owner: str
    place: str
    asks: bool = False
    exported: bool = False
    odd: str = ""
    head: tuple = ()
    body: tuple = ()
    path: tuple = ()
    arguments: tuple = ()
    members: tuple = ()
    derives: tuple = ()


# a clause's text is antt's; where it ends is sure only if nothing in it can hide a brace
def end_of_clause(text, start, place):
    depth = 0
    for found in IN_CLAUSE.finditer(text, start):
        if found[0] in "{}":
            depth += 1 if found[0] == "{" else -1
            if depth == 0:
                return found.end()
        elif found[0][0] != "«" or re.search(r"[{}]", found[0]):
            raise Refused(f"{place}: a clause with {found[0]!r}, where braces can't be counted")
    raise Refused(f"{place}: a clause without an end")


# a ghost member's declaration may have a second pair of braces, its default
def tokens_of(text, path):
    tokens, line, counted, at = [], 1, 0, SPACE.match(text).end()
    while at < len(text):
        line, counted = line + text.count("\n", counted, at), at
        found = TOKEN.match(text, at)
        if not found or found.lastgroup == "unknown" or found[0] in ("requires", "ensures", "ghost"):
            raise Refused(f"{path}:{line}: text that isn't known here: {text[at : at + 12]!r}")
        kind, end = found.lastgroup, found.end()
        if kind in ("clause", "ghost_given"):
            end = end_of_clause(text, end, f"{path}:{line}")
        if kind == "clause":
            kind = re.match(r"[a-z]+", found[0])[0]
        default = DEFAULT.match(text, end) if kind == "ghost" else None
        if default:
            kind, end = "ghost_default", end_of_clause(text, default.end(), f"{path}:{line}")
        tokens.append(Token(kind, text[at:end], line))
        at = SPACE.match(text, end).end()
    return tokens


class Reader:
    def __init__(self, text, path):
        self.path, self.tokens, self.at = path, tokens_of(text, path), 0

    def place(self):
        last = self.tokens[min(self.at, len(self.tokens) - 1)]
        return f"{self.path}:{last.line}"

    def refuse(self, sentence):
        raise Refused(f"{self.place()}: {sentence}")

    def next(self, ahead=0):
        return self.tokens[self.at + ahead].text if self.at + ahead < len(self.tokens) else ""

    def kind(self):
        return self.tokens[self.at].kind if self.at < len(self.tokens) else ""

    def take(self, *wanted):
        if self.at == len(self.tokens) or (wanted and self.next() not in wanted):
            self.refuse(f"{self.next()!r} where {' or '.join(wanted) or 'more'} is awaited")
        self.at += 1
        return self.tokens[self.at - 1].text

    def word(self):
        if self.kind() != "word":
            self.refuse(f"{self.next()!r} where a name is awaited")
        return self.take()

    # One token, or all from an opening bracket to its closing one. No `impl` may stand in what isn't read, but as a type in a function's head (`types`).
    def skip(self, types=False):
        if self.next() == "impl" and not types:
            self.refuse("an `impl` inside of another item")
        if self.next() in CLOSING.values():
            self.refuse(f"{self.next()!r} without what it closes")
        opening = self.take()
        closing = CLOSING.get(opening)
        while closing and self.next() != closing:
            self.skip(types and opening != "{")
        if closing:
            self.take(closing)

    def skip_to(self, *ends):
        while self.next() not in ends:
            self.skip()

    # what stands between < and >, part by part, as it is told in a message
    def angles(self):
        if self.next() != "<":
            return []
        self.take("<")
        parts, depth = [[]], 1
        while depth > 1 or self.next() != ">":
            depth += {"<": 1, ">": -1}.get(self.next(), 0)
            start, comma = self.at, self.next() == "," and depth == 1
            self.skip()
            if comma:
                parts.append([])
            else:
                parts[-1] += self.since(start)
        self.take(">")
        return [tuple(part) for part in parts if part]

    # the same without the lifetimes
    def arguments(self):
        return [part for part in self.angles() if not re.match(r"'\w+$", part[0])]

    # the tokens from one place to here, with one space for any in a clause
    def since(self, start):
        return tuple(" ".join(token.text.split()) for token in self.tokens[start : self.at])

    # whether a function could be handed on in these tokens as a value
    def refuse_functions(self, start):
        if {"fn", "dyn"} & set(self.since(start)):
            self.refuse("a value of this type can be a function: nothing could be said of it")

    def items(self):
        if self.next() == "#" and self.next(1) == "!":
            for part in ("#", "!", "[", "tactic"):
                self.take(part)
            self.tactic("auto")
            self.take("]")
        found = []
        while self.at < len(self.tokens):
            found += self.item("file", "")
        return found

    # an item of the file, or of an `impl`, of a trait (`trait`), or of an `impl` of one (`given`); an `impl` gives its own items
    def item(self, within, owner):
        place = self.place()
        if self.kind() == "ghost_use":
            return [Item("ghost_use", self.take(), False, owner, place)]
        if self.kind() in {"trait": ("ghost", "ghost_default"), "given": ("ghost_given",)}.get(within, ()):
            self.take()
            self.take(";")
            return []
        attributes = {}
        while self.next() == "#":
            kind, traits = self.attribute()
            attributes[kind] = attributes.get(kind, ()) + traits
        if within in ("trait", "given") and self.next() == "pub":
            self.refuse("a `pub` where none can stand")
        public = self.visibility()
        exported = self.next() == "extern" and self.next(1) == '"C"'
        if exported:
            self.at += 2
            if self.next() != "fn" or within in ("trait", "given"):
                self.refuse("a function of C is declared: its contract would be assumed")
        kind = self.take()
        forms = {"fn": self.function, "const": self.constant}
        if within == "file":
            forms |= {"mod": self.module, "use": self.use, "struct": self.type, "enum": self.type, "impl": self.implement, "trait": self.trait}
        if within != "impl":
            forms["type"] = self.alias
        if kind not in forms:
            self.at -= 1
            self.refuse(f"an item that isn't known here: {'pub ' if public else ''}{kind}")
        if exported != ("unsafe" in attributes) or "derive" in attributes and kind not in ("struct", "enum"):
            self.refuse(f"the attributes {sorted(attributes)} don't belong to this {kind}")
        found = forms[kind](public, owner, place)
        if exported:
            found[0].exported = True
        if within == "trait" and kind == "fn":
            return found
        if kind == "fn" and not found[0].body:
            self.refuse(f"`{found[0].name}` has no body")
        if "derive" in attributes:
            found[0].derives = attributes["derive"]
        return found

    # what may stand before an item: an export, what std derives, and hints for the search of a proof
    def attribute(self):
        self.take("#")
        self.take("[")
        kind, start = self.take("unsafe", "derive", "tactic"), self.at
        if kind == "tactic":
            self.tactic("auto", "none")
        else:
            self.skip()
        given = self.since(start)
        traits = tuple(word for word in given if word in DERIVES)
        if kind == "derive" and [word for word in given[1:-1] if word != ","] != list(traits) or kind == "unsafe" and given != ("(", "no_mangle", ")"):
            self.refuse(f"an attribute that isn't known here: {kind}{' '.join(given)}")
        self.take("]")
        return kind, traits

    # (auto, using(path, ..), unfolding(path, ..))
    def tactic(self, *first):
        self.take("(")
        self.take(*first)
        while self.next() == ",":
            self.take(",")
            if self.next() == ")":
                break
            self.take("using", "unfolding")
            self.take("(")
            while self.next() != ")":
                self.name_path()
                if self.next() != ")":
                    self.take(",")
            self.take(")")
        self.take(")")

    def visibility(self):
        if self.next() != "pub":
            return False
        self.take("pub")
        if self.next() != "(":
            return True
        for part in ("(", "crate", ")"):
            self.take(part)
        return False

    # Each `impl Trait` of a head is one more parameter of the function. That a function has no body only a trait's reader may pass over.
    def function(self, public, owner, place):
        start, name = self.at, self.word()
        generic = self.arguments()
        if self.next() != "(":
            self.refuse(f"{self.next()!r} where ( is awaited")
        while self.next() not in ("{", ";"):
            self.skip(types=True)
        tokens, head = self.tokens[start : self.at], self.since(start)
        asks = any(token.kind == "requires" or token.kind.startswith("ghost") for token in tokens)
        odd = "is generic" if generic or "impl" in head else "takes or gives a function" if {"fn", "dyn"} & set(head) else ""
        body = self.at
        self.skip()
        return [Item("fn", name, public, owner, place, asks, odd=odd, head=head, body=self.since(body) if self.next(-1) != ";" else ())]

    def constant(self, public, owner, place):
        name, start = self.word(), self.at
        self.take(":")
        self.skip_to(";")
        self.take(";")
        self.refuse_functions(start)
        return [Item("const", name, public, owner, place)]

    # a type's second name, or a type that belongs to a trait
    def alias(self, public, owner, place):
        name, start = self.word(), self.at
        self.skip_to(";")
        self.take(";")
        self.refuse_functions(start)
        return [Item("alias", name, public, owner, place, head=self.since(start))]

    def module(self, public, owner, place):
        if public:
            self.refuse("a `pub mod`: hand its functions on by name, as `pub use module::name;`")
        name = self.word()
        self.take(";")
        return [Item("mod", name, False, owner, place)]

    # what is imported for the file itself stands under its own name, one by one: so it is known what a name stands for
    def use(self, public, owner, place):
        if not public:
            found = [Item("use", path[-1], False, owner, place, path=path) for path in self.tree(())]
            self.take(";")
            return found
        module = self.word()
        self.take("::")
        names = self.names() if self.next() == "{" else [self.word()]
        if self.next() != ";":
            self.refuse("a `pub use` that isn't of the form `pub use module::name;`")
        self.take(";")
        return [Item("hand", name, True, module, place) for name in names]

    def tree(self, before):
        if self.next() != "{":
            path = before + (self.word(),)
            if self.next() == "as":
                self.refuse("an import under another name")
            if self.next() != "::":
                return [before if path[-1] == "self" and before else path]
            self.take("::")
            return self.tree(path)
        self.take("{")
        paths = []
        while self.next() != "}":
            paths += self.tree(before)
            if self.next() != "}":
                self.take(",")
        self.take("}")
        return paths

    # names between braces
    def names(self):
        self.take("{")
        names = []
        while self.next() != "}":
            names.append(self.word())
            if self.next() != "}":
                self.take(",")
        self.take("}")
        return names

    def name_path(self):
        path = [self.word()]
        while self.next() == "::":
            self.take("::")
            path.append(self.word())
        return tuple(path)

    def type(self, public, owner, place):
        name, start = self.word(), self.at
        odd = "is generic" if self.arguments() else ""
        self.skip_to("{", ";")
        self.skip()
        self.refuse_functions(start)
        return [Item("type", name, public, owner, place, odd=odd)]

    def trait(self, public, owner, place):
        start, name = self.at, self.word()
        self.skip_to("{")
        head, members = self.since(start), self.members("trait", name)
        return [Item("trait", name, public, owner, place, head=head, members=members), *(member for member in members if member.kind == "ghost_use")]

    def members(self, within, owner):
        self.take("{")
        found = []
        while self.next() != "}":
            found += self.item(within, owner)
        self.take("}")
        return found

    def implement(self, public, owner, place):
        generic = self.arguments()
        path, arguments = self.name_path(), self.arguments()
        if self.next() != "for":
            if self.next() != "{" or len(path) != 1:
                self.refuse("an `impl` that isn't of the form `impl Name { .. }` or `impl Trait for Name { .. }`")
            found = self.members("impl", path[0])
            for item in found:
                item.odd = item.odd or ("is generic" if generic or arguments else "")
            return found
        self.take("for")
        name, at_types = self.word() if self.kind() == "word" else "", self.arguments()
        if self.next() not in ("{", "where"):
            name = ""
        self.skip_to("{")
        members, odd = self.members("given", name), "is generic" if generic or at_types else ""
        given = Item("impl", name, False, owner, place, odd=odd, head=sum(generic, ()), path=path, arguments=tuple(arguments), members=members)
        return [given, *(member for member in members if member.kind == "ghost_use")]


def items_of(path, text):
    return Reader(text, path).items()
