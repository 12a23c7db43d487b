#!/usr/bin/env python3
"""Compares the parser of expressions with plain rules for tokens, on many token lists.

    tools/comparisons/compare_trees.py [LONGEST] [RANDOM] [SEED]

The program of crates/test_calls parses all token lists up to the length LONGEST (5 by default), and RANDOM longer
ones (200,000 by default) from SEED (1 by default). Each tree or fault is compared with the one that the rules of
tools/models/plain_trees.py give. Prints a line for each kind of list and the first differences. The status is 1 if
there is a difference.
"""

import itertools
import random
import subprocess
import sys
from collections import Counter
from pathlib import Path

sys.path[:0] = [str(Path(__file__).resolve().parents[1] / name) for name in (".", "models")]
from built import program  # noqa: E402
from plain_trees import DEEPEST, MARKS, Token, first_fault, opened, sum_tree  # noqa: E402

PROGRAM, KIND = "test_calls", "texts"
SHOWN = 5  # how many differences of a kind are printed
BATCH = 200_000  # how many lines one run of the program gets

ALPHABET = [
    Token("numeral", "2"),
    Token("word", "m"),
    Token("power", "m3"),
    Token("head", "f("),
    Token("root", "sqrt"),
    *[Token(mark, mark) for mark in MARKS],
]
OTHERS = [
    Token("numeral", "70"),
    Token("numeral", "5e3"),
    Token("numeral", ".5"),
    Token("numeral", "1e39"),
    Token("numeral", "1e40"),
    Token("word", "x"),
    Token("word", "sin"),
    Token("power", "x2"),
    Token("head", "x("),
    Token("head", "log2("),
    Token("root", "cuberoot"),
    Token("/", "per"),
    Token("^", "**"),
    Token("long", "1e10000"),
    Token("bad", "."),
    Token("bad", "m1"),
    Token("bad", "["),
    Token("bad", ";"),
]
TREES = "([0123456789"  # the first characters of trees


# Texts


def needs_blank(left, right):
    """Whether two tokens need a blank between them; without it they would be other tokens."""
    word_like = right.text[0].isalnum() or right.text[0] == "."
    if left.text[-1].isalnum() and word_like:
        return True
    if left.text == "." and word_like:
        return True
    if left.text[0].isalpha() and left.text[-1].isalnum() and right.kind == "(":
        return left.kind not in ("root", "/")
    return left.text[-1] == "*" and right.text[0] == "*"


def text_of(tokens, blank):
    """The text of these tokens, and the place of each."""
    text, places = "", []
    for i, token in enumerate(tokens):
        if i > 0:
            text += blank(needs_blank(tokens[i - 1], token))
        places.append(len(text))
        text += token.text
    return text, places


def expected_answer(tokens, text, places, binder):
    fault = first_fault(tokens, places, len(text))
    return fault if fault else sum_tree(tokens, binder)


def every_list(longest):
    for length in range(longest + 1):
        for tokens in itertools.product(ALPHABET, repeat=length):
            yield list(tokens), *text_of(tokens, lambda is_needed: " "), None


def random_sum(r, budget):
    """The tokens of a random sum."""
    tokens = []
    while True:
        if r.randrange(4) == 0:
            tokens.append(Token(*r.choice(["--", "++"])))
        tokens += random_power(r, budget)
        choice = r.randrange(8)
        if choice < 3 or budget <= 0:
            return tokens
        if choice < 6:
            mark = r.choice("+-*/")
            tokens.append(Token(mark, mark))
        budget -= 1


def random_power(r, budget):
    tokens = random_atom(r, budget)
    if r.randrange(4) == 0:
        tokens.append(Token("^", r.choice(["^", "**"])))
        if r.randrange(3) == 0:
            tokens.append(Token(*r.choice(["--", "++"])))
        tokens += random_power(r, budget - 1)
    return tokens


def random_atom(r, budget):
    choice = r.randrange(9 if budget > 0 else 4)
    if choice < 4:
        pool = [token for token in ALPHABET + OTHERS if token.kind in ("numeral", "word", "power")]
        token = r.choice(pool)
        if token.kind == "numeral" and r.randrange(3) == 0:
            return [token, Token("|", "|"), Token("numeral", "7")]
        return [token]
    inner = [*random_sum(r, budget - 2), Token(")", ")")]
    if choice == 4:
        return [Token("root", r.choice(["sqrt", "cuberoot"])), Token("(", "("), *inner]
    if choice == 5:
        return [Token("~", "~"), Token("head", r.choice(["f(", "x("])), *inner]
    if choice == 6:
        return [Token("head", r.choice(["f(", "x(", "log2("])), *inner]
    return [Token("(", "("), *inner]


def mutate(r, tokens):
    """The tokens with some replaced, removed or inserted."""
    tokens = list(tokens)
    for _ in range(r.choice([0, 0, 1, 1, 2])):
        i = r.randrange(len(tokens) + 1)
        tokens[i : i + r.randrange(2)] = r.choices(ALPHABET + OTHERS, k=r.randrange(2))
    return tokens


def deep(r):
    """Tokens whose depth is near the limit."""
    tokens, levels = [], DEEPEST + r.randrange(-2, 3)
    for _ in range(levels):
        tokens += r.choice([
            [Token("(", "(")],
            [Token("head", "f(")],
            [Token("-", "-")],
            [Token("word", "m"), Token("^", "^")],
            [Token("root", "sqrt"), Token("(", "(")],
        ])
    tokens.append(Token("numeral", "2"))
    return tokens + [Token(")", ")")] * max(0, opened(tokens) - r.choice([0, 0, 0, 1]))


def random_lists(count, seed):
    r = random.Random(seed)

    def blank(is_needed):
        return r.choice([" ", "\t", "  "] if is_needed or r.randrange(3) == 0 else [""])

    for _ in range(count):
        tokens = deep(r) if r.randrange(20) == 0 else mutate(r, random_sum(r, r.randrange(8)))
        binder = r.choice([None, "x", "m", "f"])
        yield tokens, *text_of(tokens, blank), binder


# Runs


def line_of(text, binder):
    return f"plain {text}" if binder is None else f"with {binder} {text}"


def compare(name, lists):
    """Compares the answers to texts of these lists and returns how many differ."""
    total, differences, words = 0, [], Counter()
    while batch := list(itertools.islice(lists, BATCH)):
        lines = "".join(line_of(text, binder) + "\n" for _, text, _, binder in batch)
        run = subprocess.run([program(PROGRAM), KIND], input=lines.encode(), stdout=subprocess.PIPE, check=False)
        answers = run.stdout.decode().split("\n")[:-1]
        if run.returncode != 0 or len(answers) != len(batch):
            sys.exit(f"the program ended with status {run.returncode} after {len(answers)} answers")
        for (tokens, text, places, binder), got in zip(batch, answers):
            want = expected_answer(tokens, text, places, binder)
            words["tree" if want[0] in TREES else want.split(" at ")[0]] += 1
            if want != got:
                differences.append((line_of(text, binder), want, got))
        total += len(batch)
    tally = "".join(f", {words[word]} {word}" for word in sorted(words))
    print(f"{name}: {total} texts, {len(differences)} differences{tally}", flush=True)
    for line, want, got in differences[:SHOWN]:
        print(f"    {line!r}: {got!r}, not {want!r}")
    return len(differences)


def main():
    longest = int(sys.argv[1]) if len(sys.argv) > 1 else 5
    count = int(sys.argv[2]) if len(sys.argv) > 2 else 200_000
    seed = sys.argv[3] if len(sys.argv) > 3 else "1"
    differences = compare(f"all lists up to {longest} tokens", every_list(longest))
    differences += compare("random lists", random_lists(count, seed))
    sys.exit(1 if differences else 0)


if __name__ == "__main__":
    main()
