"""What the prover reports when it refuses a crate."""

from __future__ import annotations

import re
from dataclasses import dataclass
from pathlib import Path

ROOT = Path(__file__).resolve().parents[2]
PLACE = re.compile(r"(?:note: )?(?:\./)?(\S+?):(\d+):\d+: ")
GOAL = re.compile(r"`([\w?+-]+)`")
FUNCTION = re.compile(r"\bfn (\w+)")
CONTRACT = re.compile(r"returns|requires|invariant_of|^loop-")
# A proof that names something that the edit took away. Such a report does not show that a contract refuses the edit.
LOST_NAME = re.compile(r"(note: )?(\./)?proofs/.*(has no field|is not in scope|has no `|was not admitted)")


@dataclass(frozen=True)
class Refusal:
    """The function, or the file of lemmas, that the prover refused, and the part of it."""

    owner: str
    part: str

    def __str__(self) -> str:
        return f"{self.owner} {self.part}"


def function_at(crate: str, file: str, line: int) -> str:
    """The function that contains this line of a crate's file, or the next one if the line is an attribute. No edit
    moves a line."""
    lines = (ROOT / "crates" / crate / file).read_text().splitlines()
    is_attribute = lines[line - 1 : line] and lines[line - 1].lstrip().startswith("#[")
    nearest = lines[line:] if is_attribute else reversed(lines[:line])
    return next((match[1] for match in map(FUNCTION.search, nearest) if match), "?")


def owner_of(crate: str, file: str, line: int) -> str:
    path = Path(file)
    if path.parts[0] != "proofs":
        return function_at(crate, file, line)
    return path.parent.name if path.name in ("Answers.antt", "Invariants.antt") else path.stem


def part_of(goal: str) -> tuple[str | None, str]:
    """The function whose contract a goal belongs to, if the goal names it, and the part of the contract."""
    clause = goal.partition("-clause-")[2]
    if match := re.fullmatch(r"(?:(\w+)-)?returns(?:-.*)?", goal):
        return match[1], f"ensures {clause}".strip()
    if match := re.fullmatch(r"(?:(\w+)-)?(\w+)-requires(?:-.*)?", goal):
        return match[1], f"requires {match[2]} {clause}".strip()
    if goal.startswith("invariant_of"):
        return None, "invariant"
    if match := re.fullmatch(r"loop-(\w+)-.*", goal):
        return None, f"loop {match[1]}"
    return None, goal


def read_refusal(crate: str, report: str) -> Refusal | None:
    """The refusal that a line of the prover reports, or None if it names no place or no goal."""
    place, goals = PLACE.match(report), GOAL.findall(report)
    # The prover quotes words of the language too.
    goals = [goal for goal in goals if goal not in ("search", "invariant", "impl")] or goals
    if not place or not goals:
        return None
    owner, part = part_of(next(filter(CONTRACT.search, goals), goals[0]))
    return Refusal(owner or owner_of(crate, place[1], int(place[2])), part)


def reports_in(output: str) -> list[str]:
    """The lines of the prover's output that report an open goal or an error."""
    lines = [line for line in output.splitlines() if PLACE.match(line) and not LOST_NAME.match(line)]
    return [line for line in lines if ": error" in line or line.startswith("note: ")]
