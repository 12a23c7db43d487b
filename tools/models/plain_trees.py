"""Plain rules for expressions: which tokens are refused, and the trees of the others.

The tokens before a token decide whether it is allowed. Trees are built by splitting the tokens at the operators that
bind least.
"""

from collections import namedtuple
from decimal import Decimal

DEEPEST = 64
Token = namedtuple("Token", "kind text")
MARKS = "+ - * / | ^ ~ ( )".split()
NUMERALS = {"numeral", "long"}
BEGINNINGS = {"numeral", "word", "power", "head", "(", "~", "root"}
ENDS = NUMERALS | {"word", "power", ")"}


# Faults


def opened(tokens):
    kinds = [token.kind for token in tokens]
    return kinds.count("(") + kinds.count("head") - kinds.count(")")


def is_allowed(tokens, i):
    """Whether a token is allowed after those before it."""
    kind = "numeral" if tokens[i].kind == "long" else tokens[i].kind
    last = tokens[i - 1].kind if i > 0 else "("
    if kind == "bad":
        return False
    if last in ("+", "-", "*", "/", "^", "(", "head"):
        return kind in BEGINNINGS or kind in ("+", "-")
    if last in ("~", "root", "|"):
        return kind == {"~": "head", "root": "(", "|": "numeral"}[last]
    if kind == ")":
        return opened(tokens[:i]) > 0
    if kind == "|":
        return last in NUMERALS and not (i > 1 and tokens[i - 2].kind == "|")
    return kind in BEGINNINGS or kind in ("+", "-", "*", "/", "^")


def depth(tokens, i):
    """The depth of a token: the number of `(`, heads, signs and `^` before it, less the number of `)`."""
    count = 0
    for j, token in enumerate(tokens[:i]):
        follows = j > 0 and tokens[j - 1].kind in ENDS
        if token.kind in ("(", "head", "^") or (token.kind in ("+", "-") and not follows):
            count += 1
        elif token.kind == ")":
            count -= 1
    return count


def first_fault(tokens, places, length):
    for i, token in enumerate(tokens):
        if not is_allowed(tokens, i):
            return f"syntax error at {places[i]}"
        if token.kind == "long":
            return "numeral too long"
        if depth(tokens, i) > DEEPEST:
            return "nested too deep"
    if not tokens or tokens[-1].kind not in ENDS or opened(tokens) > 0:
        return f"syntax error at {length}"
    return None


# Trees


def levels(tokens):
    """How many parentheses are open before each token."""
    level = 0
    for token in tokens:
        yield level
        if token.kind in ("(", "head"):
            level += 1
        elif token.kind == ")":
            level -= 1


def parts(tokens, splits, keep):
    """The tokens, split outside parentheses at each place for which `splits` is true."""
    places = [i for i, level in enumerate(levels(tokens)) if level == 0 and i > 0 and splits(i)]
    starts, ends = [0, *[i + 1 - keep for i in places]], [*places, len(tokens)]
    return [tokens[i] for i in places], [tokens[i:j] for i, j in zip(starts, ends)]


def tree_text(name, marks, members):
    return f"({name}" + "".join(f" {mark} {member}" for mark, member in zip(marks, members)) + ")"


def sum_tree(tokens, binder):
    def splits(i):
        return tokens[i].kind in ("+", "-") and tokens[i - 1].kind in ENDS

    marks, members = parts(tokens, splits, 0)
    trees = [product_tree(member, binder) for member in members]
    return tree_text("sum", ["+", *[mark.kind for mark in marks]], trees) if marks else trees[0]


def product_tree(tokens, binder):
    marks, members = parts(tokens, lambda i: tokens[i].kind in ("*", "/"), 0)
    trees = [side_tree(member, binder) for member in members]
    return tree_text("product", ["*", *[mark.kind for mark in marks]], trees) if marks else trees[0]


def side_tree(tokens, binder):
    if tokens[0].kind in ("+", "-"):
        tree = side_tree(tokens[1:], binder)
        return tree if tokens[0].kind == "+" else f"(negate {tree})"

    def splits(i):
        return tokens[i].kind in BEGINNINGS and tokens[i - 1].kind in ENDS

    _, members = parts(tokens, splits, 1)
    trees = [power_tree(member, binder) for member in members]
    return f"(side {' '.join(trees)})" if len(trees) > 1 else trees[0]


def power_tree(tokens, binder):
    if tokens[0].kind in ("+", "-"):
        tree = power_tree(tokens[1:], binder)
        return tree if tokens[0].kind == "+" else f"(negate {tree})"
    carets = [i for i, level in enumerate(levels(tokens)) if level == 0 and tokens[i].kind == "^"]
    if not carets:
        return atom_tree(tokens, binder)
    base, exponent = tokens[: carets[0]], tokens[carets[0] + 1 :]
    return f"(power {atom_tree(base, binder)} {power_tree(exponent, binder)})"


def numeral_text(text):
    """The digits without trailing zeros, and the power of ten."""
    _, digits, power = Decimal(text).normalize().as_tuple()
    return "".join(map(str, digits)) + (f"e{power}" if power else "")


def word_tree(word, binder):
    return "[]" if word == binder else f"[{word}]"


def atom_tree(tokens, binder):
    first = tokens[0]
    if first.kind == "numeral":
        numerals = [numeral_text(token.text) for token in tokens if token.kind == "numeral"]
        return f"(bar {' '.join(numerals)})" if len(numerals) > 1 else numerals[0]
    if first.kind == "word":
        return word_tree(first.text, binder)
    if first.kind == "power":
        return f"(power {word_tree(first.text[:-1], binder)} {first.text[-1]})"
    if first.kind == "~":
        return f"(inverse [{tokens[1].text[:-1]}] {sum_tree(tokens[2:-1], binder)})"
    if first.kind == "root":
        degree = 2 if first.text == "sqrt" else 3
        return f"(root {degree} {sum_tree(tokens[2:-1], binder)})"
    tree = sum_tree(tokens[1:-1], binder)
    if first.kind == "(":
        return f"(group {tree})"
    if first.text[:-1] == binder:
        return f"(group (side [] {tree}))"
    return f"(call [{first.text[:-1]}] {tree})"
