#!/usr/bin/env python3
"""Compares linked edges with a plain list of edges, on many random calls.

    tools/comparisons/compare_edges.py [CALLS] [SEED]

The program of crates/test_calls answers CALLS calls (10,000 by default) over a few nodes from SEED (1 by default).
Each answer is compared with that of a list that is searched in full. Prints the first differences and a line with the
counts. The status is 1 if there is a difference.

    tools/comparisons/compare_edges.py --answer < CALLS

Answers calls with the list. The users of a key are sorted by number.
"""

import random
import subprocess
import sys
from collections import Counter
from pathlib import Path

sys.path.insert(0, str(Path(__file__).resolve().parents[1]))
from built import program  # noqa: E402

PROGRAM, KIND = "test_calls", "edges"
NODES = 12
SHOWN = 5  # how many differences are printed


class Edges:
    """Edges in a list, each a pair of a user and a key."""

    def __init__(self):
        self.edges = []
        self.spare = 0

    def affected(self, key):
        """The key, and each node that reaches it."""
        nodes, last = {key}, set()
        while nodes != last:
            last = set(nodes)
            nodes |= {user for user, leads_to in self.edges if leads_to in nodes}
        return nodes

    def link(self, user, key):
        if self.spare == 0:
            return "refused"
        self.spare -= 1
        self.edges.append((user, key))
        return "ok"

    def unsettle(self, key):
        affected = self.affected(key)
        edges = [edge for edge in self.edges if edge[0] not in affected]
        self.spare += len(self.edges) - len(edges)
        self.edges = edges
        return numbers_text(sorted(affected))

    def users(self, key):
        return numbers_text(sorted(user for user, leads_to in self.edges if leads_to == key))

    def reserve(self, room):
        self.spare = max(self.spare, room)
        return "ok"


def numbers_text(numbers):
    return " ".join(map(str, numbers)) or "none"


def random_calls(count):
    """Calls with the answers of the list. All nodes come first."""
    edges = Edges()
    yield from (("node", str(node)) for node in range(NODES))
    for _ in range(count):
        user, key = random.randrange(NODES), random.randrange(NODES)
        kind = random.choices(["link", "users", "unsettle", "spare", "reserve"], [60, 20, 8, 6, 6])[0]
        if kind == "link":
            yield f"link {user} {key}", edges.link(user, key)
        elif kind == "users":
            yield f"users {key}", edges.users(key)
        elif kind == "unsettle":
            yield f"unsettle {key}", edges.unsettle(key)
        elif kind == "spare":
            yield "spare", str(edges.spare)
        else:
            room = random.randrange(40)
            yield f"reserve {room}", edges.reserve(room)


def answers(calls):
    """The answers of the list to calls on existing nodes."""
    edges, nodes = Edges(), 0
    for word, *numbers in map(str.split, calls):
        if word == "node":
            yield str(nodes)
            nodes += 1
        elif word == "spare":
            yield str(edges.spare)
        else:
            yield getattr(edges, word)(*map(int, numbers))


def main():
    if sys.argv[1:] == ["--answer"]:
        print("\n".join(answers(sys.stdin)))
        return
    count = int(sys.argv[1]) if len(sys.argv) > 1 else 10_000
    random.seed(int(sys.argv[2]) if len(sys.argv) > 2 else 1)
    calls = list(random_calls(count))
    spelled_calls = "".join(call + "\n" for call, _ in calls)
    run = subprocess.run([program(PROGRAM), KIND], input=spelled_calls, capture_output=True, text=True, check=True)
    replies = run.stdout.splitlines()
    if len(replies) != len(calls):
        sys.exit(f"{len(replies)} replies to {len(calls)} calls")
    differences = 0
    for (call, expected), answer in zip(calls, replies):
        if call.startswith("users") and answer != "none":
            answer = numbers_text(sorted(map(int, answer.split())))
        if answer != expected:
            differences += 1
            if differences <= SHOWN:
                print(f"{call}: {answer}, not {expected}")
    kinds = Counter(call.split()[0] for call, _ in calls)
    print(", ".join(f"{n} {kind}" for kind, n in sorted(kinds.items())), f"- {differences} differences")
    sys.exit(differences > 0)


if __name__ == "__main__":
    main()
