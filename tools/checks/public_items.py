"""The public items of the crates, read from crates/*/src: types with their variants or fields, traits, and calls.

Contracts, comments and bodies are passed over. A signature has types alone, since the name of an argument is no part of
a call. A name is public in a crate if its root file declares it or passes it on with `pub use`.
"""

from __future__ import annotations

import re
from collections.abc import Iterator
from dataclasses import dataclass, field
from pathlib import Path

ROOT = Path(__file__).resolve().parents[2]
TOKEN = re.compile(
    r"""//[^\n]*|b?"(?:\\.|[^"\\])*"|b?'(?:\\(?:x..|u\{\w+\}|.)|[^\\'\n])'|'[A-Za-z_]\w*|\w+'*|::|->|=>|\S""", re.DOTALL
)
CLOSING = {"(": ")", "[": "]", "{": "}", "<": ">"}
TYPES = ("struct", "enum", "trait")


@dataclass
class Item:
    """A type, a trait, an alias or a call; the parts are public fields, variants, or the calls of a trait."""

    kind: str
    signature: str
    parts: dict[str, Item] = field(default_factory=dict)
    calls: dict[str, Item] = field(default_factory=dict)
    module: Module | None = None


@dataclass
class Module:
    """The items of a file and its imports, by name, and the names of these that are public."""

    crate: str
    path: tuple[str, ...] = ()
    items: dict[str, Item] = field(default_factory=dict)
    imports: dict[str, tuple[str, ...]] = field(default_factory=dict)
    public: set[str] = field(default_factory=set)


def text_of(tokens: list[str]) -> str:
    """The tokens of a type as rustfmt writes them."""
    text = ""
    for before, token in zip(["", *tokens], tokens):
        is_word = token[0].isalnum() or token[0] in "_'"
        ends_word = before[:1].isalnum() or before[:1] in ("_", "'")
        spaced = before in (",", ":", ";", "->", "+", "=") or token in ("->", "+", "=") or (ends_word and is_word)
        spaced |= (before in ("mut", "dyn", "impl") or before.startswith("'")) and token in ("[", "(", "&")
        text += " " * bool(spaced and text) + token
    return re.sub(r", ?([)\]>}])", r"\1", text)


def end_of(tokens: list[str], at: int) -> int:
    """The place after the bracket that closes the one at `at`."""
    depth, same = 0, (tokens[at], CLOSING[tokens[at]])
    for place in range(at, len(tokens)):
        depth += (tokens[place] == same[0]) - (tokens[place] == same[1])
        if depth == 0:
            return place + 1
    raise ValueError(f"no {same[1]} closes the {same[0]} of {text_of(tokens[at - 3 : at + 3])}")


def find(tokens: list[str], at: int, ends: tuple[str, ...], angles: bool = True) -> int:
    """The place of the first of these tokens outside of brackets."""
    while at < len(tokens) and tokens[at] not in ends:
        opens = tokens[at] in CLOSING and (angles or tokens[at] != "<")
        at = end_of(tokens, at) if opens else at + 1
    return at


def split(tokens: list[str], separator: str = ",") -> Iterator[list[str]]:
    """The lists between these separators outside of brackets."""
    at = 0
    while at < len(tokens):
        end = find(tokens, at, (separator,))
        if tokens[at:end]:
            yield tokens[at:end]
        at = end + 1


def after_marks(tokens: list[str], at: int) -> tuple[int, set[str], bool]:
    """The place after the attributes and the visibility of an item, the derived traits, and whether it is public."""
    derived: set[str] = set()
    while tokens[at : at + 1] == ["#"]:
        at += 1 + (tokens[at + 1] == "!")
        end = end_of(tokens, at)
        if tokens[at + 1] == "derive":
            derived |= {word for word in tokens[at + 2 : end] if word[0].isalpha()}
        at = end
    if tokens[at : at + 1] != ["pub"]:
        return at, derived, False
    if tokens[at + 1] == "(":
        return end_of(tokens, at + 1), derived, False
    return at + 1, derived, True


def read_call(tokens: list[str]) -> tuple[str, Item]:
    """The name and the signature of a call whose tokens begin at `fn`."""
    name, at = tokens[1], 2
    end = end_of(tokens, at) if tokens[at] == "<" else at
    generics, last = text_of(tokens[at:end]), end_of(tokens, end)
    types = [text_of(it[it.index(":") + 1 :] if ":" in it else it) for it in split(tokens[end + 1 : last - 1])]
    result = text_of(tokens[last : find(tokens, last, ("{", ";"))])
    return name, Item("call", f"{generics}({', '.join(types)}){' ' * bool(result)}{result}")


def code_of(text: str) -> list[str]:
    """The tokens of a file without comments, contracts, and what only contracts see."""
    tokens = [token for token in TOKEN.findall(text) if not token.startswith("//")]
    kept, at = [], 0
    while at < len(tokens):
        if tokens[at] in ("requires", "ensures"):
            at = end_of(tokens, tokens.index("{", at))
        elif tokens[at] == "ghost" and (not kept or kept[-1] in ";{}]"):
            at = find(tokens, at, (";",), angles=False) + 1
        else:
            kept.append(tokens[at])
            at += 1
    return kept


def items_of(tokens: list[str]) -> Iterator[tuple[bool, set[str], list[str]]]:
    """The items of a file or a body: whether each is public, its derived traits, and its tokens."""
    at = 0
    while at < len(tokens):
        at, derived, public = after_marks(tokens, at)
        if at >= len(tokens):
            return
        end = find(tokens, at, (";", "{"), angles=False)
        if tokens[at] != "use" and tokens[end : end + 1] == ["{"]:
            end = end_of(tokens, end) - 1
        elif tokens[at] == "use":
            end = find(tokens, at, (";",))
        yield public, derived, tokens[at : end + 1]
        at = end + 1


def read_parts(kind: str, body: list[str]) -> dict[str, Item]:
    """The variants of an enum, the public fields of a struct, or the calls of a trait."""
    if kind == "trait":
        return dict(read_call(it) for _, _, it in items_of(body) if it[0] == "fn")
    parts = {}
    for part in split(body):
        at, _, public = after_marks(part, 0)
        if kind == "enum":
            parts[part[at]] = Item("variant", text_of(part[at + 1 :]) or "-")
        elif public:
            parts[part[at]] = Item("field", text_of(part[at + 2 :]))
    return parts


def read_type(derived: set[str], tokens: list[str]) -> Item:
    """A struct, an enum or a trait."""
    kind = tokens[0]
    opening = find(tokens, 2, ("{", ";", "("))
    copy = "Copy " * ("Copy" in derived)
    if tokens[opening] == "(":
        fields = [(it, after_marks(it, 0)) for it in split(tokens[opening + 1 : -2])]
        parts = {str(n): Item("field", text_of(it[at:])) for n, (it, (at, _, public)) in enumerate(fields) if public}
    else:
        parts = read_parts(kind, tokens[opening + 1 : -1])
    return Item(kind, f"{copy}{kind}{text_of(tokens[2:opening])}", parts)


def names_of_use(tokens: list[str], before: tuple[str, ...] = ()) -> Iterator[tuple[str, tuple[str, ...]]]:
    """The names that the path of a `use` brings in, each with its whole path."""
    if "{" in tokens:
        at = tokens.index("{")
        path = before + tuple(word for word in tokens[:at] if word != "::")
        for part in split(tokens[at + 1 : -1]):
            yield from names_of_use(part, path)
        return
    name = tokens[-1]
    words = tokens[: tokens.index("as")] if "as" in tokens else tokens
    path = before + tuple(word for word in words if word != "::")
    yield (path[-1] if name == "self" else name), (path[:-1] if path[-1] == "self" else path)


class Crates:
    """The modules of all crates, read when they are first needed."""

    def __init__(self, root: Path) -> None:
        self.folder = root / "crates"
        self.modules: dict[str, dict[tuple[str, ...], Module]] = {}

    def modules_of(self, crate: str) -> dict[tuple[str, ...], Module]:
        """The modules of a crate, by path, with the calls of each type."""
        if crate not in self.modules:
            self.modules[crate] = {}
            source = self.folder / crate / "src"
            bodies = []
            for file in sorted(source.rglob("*.rt")):
                path = file.relative_to(source).with_suffix("").parts
                module = Module(crate, () if path in (("lib",), ("main",)) else path)
                self.modules[crate][module.path] = module
                bodies += [(module, tokens) for tokens in read_module(module, code_of(file.read_text()))]
            for module, tokens in bodies:
                self.add_calls(module, tokens)
        return self.modules[crate]

    def add_calls(self, module: Module, tokens: list[str]) -> None:
        """Adds the public calls of an `impl` block to its type."""
        at = end_of(tokens, 1) if tokens[1] == "<" else 1
        opening = find(tokens, at, ("{",))
        bounds = text_of(tokens[:at]) + " " if ":" in tokens[1:at] else ""
        found = None if "for" in tokens[at:opening] else self.resolve(module, (tokens[at],))
        for public, _, it in items_of(tokens[opening + 1 : -1]) if found else ():
            if public and it[0] == "fn":
                name, call = read_call(it)
                call.signature = bounds + call.signature
                found.calls[name] = call

    def resolve(self, module: Module, path: tuple[str, ...], public: bool = False) -> Item | None:
        """The item at a path as a module writes it; only over public names if `public` is set."""
        name, *rest = path
        if rest:
            if name in ("crate", "self", "super"):
                base = {"crate": (), "self": module.path, "super": module.path[:-1]}[name]
                inner = self.modules_of(module.crate).get(base)
            elif module.path + (name,) in self.modules_of(module.crate):
                inner = self.modules_of(module.crate)[module.path + (name,)]
            elif (self.folder / name / "src").exists():
                inner, public = self.modules_of(name)[()], True
            else:
                return None
            return self.resolve(inner, tuple(rest), public) if inner else None
        if public and name not in module.public:
            return None
        if name in module.items:
            return module.items[name]
        return self.resolve(module, module.imports[name]) if name in module.imports else None

    def public_item(self, crate: str, path: str) -> Item | None:
        """A public item of a crate, or a part or a call of one: `Deck`, `Deck::load`."""
        name, *rest = path.split("::")
        item = self.resolve(self.modules_of(crate)[()], (name,), public=True)
        for part in rest if item else ():
            item = item.parts.get(part) or item.calls.get(part) or self.call_of_alias(item, part)
            if item is None:
                return None
        return item

    def call_of_alias(self, alias: Item, name: str) -> Item | None:
        """A call of the type that an alias names, with the alias's arguments in its signature."""
        if alias.kind != "alias" or alias.module is None:
            return None
        tokens = TOKEN.findall(alias.signature)
        target = self.resolve(alias.module, (tokens[0],))
        call = target.calls.get(name) if target else None
        if call is None:
            return self.call_of_alias(target, name) if target else None
        arguments = [text_of(it) for it in split(tokens[2:-1])]
        generics = re.search(r"<(.*)>", target.signature)
        names = [it[0] for it in split(TOKEN.findall(generics[1]))] if generics else []
        signature = re.sub(r"^impl<.*?> ", "", call.signature)
        for generic, argument in zip(names, arguments):
            signature = re.sub(rf"\b{generic}\b", argument, signature)
        return Item("call", signature)


def read_module(module: Module, tokens: list[str]) -> list[list[str]]:
    """Adds the items and the imports of a file to its module, and returns its `impl` blocks."""
    blocks = []
    for public, derived, it in items_of(tokens):
        if it[0] == "impl":
            blocks.append(it)
            continue
        if it[0] == "use":
            names = dict(names_of_use(it[1:-1]))
            module.imports.update(names)
        elif it[0] in TYPES:
            names = {it[1]: read_type(derived, it)}
            module.items.update(names)
        elif it[0] == "fn":
            names = dict([read_call(it)])
            module.items.update(names)
        elif it[0] == "type":
            equals = it.index("=")
            names = {it[1]: Item("alias", text_of(it[equals + 1 : -1]), module=module)}
            module.items.update(names)
        else:
            continue
        if public:
            module.public.update(names)
    return blocks
