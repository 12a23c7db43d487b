# SPDX-License-Identifier: MIT OR Apache-2.0
"""Numbers as texts: exact fractions by the format specifications of floats, and units as HTML and LaTeX."""

from __future__ import annotations

import html
import re
from fractions import Fraction
from typing import Callable, Iterable, NamedTuple, Optional, Tuple

from .unit import Powers, show_fraction

_form = re.compile(
    r"(?:(?P<fill>.)?(?P<align>[<>=^]))?(?P<sign>[-+ ])?(?P<zero>0)?(?P<width>\d+)?"
    r"(?P<group>[,_])?(?:\.(?P<digits>\d+))?(?P<type>[eEfFgG%])?"
)
_LONGEST = 10_000
_LATEX = {"\\": r"\textbackslash{}", "^": r"\textasciicircum{}", "~": r"\textasciitilde{}",
          **{c: "\\" + c for c in "#$%&_{}"}}


class Form(NamedTuple):
    """A format specification: that of the number, and the unit to convert to, or None."""

    number: str
    unit: Optional[str]


def read_form(specification: str) -> Form:
    """Return the parts of a specification such as ``.3f kPa``.

    Raises `ValueError` if the first part is no specification of a float.

    >>> read_form(".3f kg m/s^2")
    Form(number='.3f', unit='kg m/s^2')
    """
    match = _form.match(specification)
    number = match[0] if match else ""
    rest = specification[len(number) :]
    if specification.startswith(" ") and rest[:1] not in ("", " "):
        # The first blank is no sign of a number.
        number, rest = "", specification
    if rest and not rest.startswith(" "):
        raise ValueError(f"not a format of a quantity: {specification!r}; it is that of a float, a blank and a unit")
    return Form(number, rest.strip() or None)


def format_fraction(x: Fraction, specification: str) -> str:
    """Return a number by the specification of a float, rounded once, half to even, to any number of digits.

    Without a number of digits and a type, it is written exactly, as ``n`` or ``n|d``.

    >>> format_fraction(Fraction(2, 3), "+.20f"), format_fraction(Fraction(10**30, 7), ".4g")
    ('+0.66666666666666666667', '1.429e+29')
    """
    match = _form.fullmatch(specification)
    if match is None:
        raise ValueError(f"not a format of a number: {specification!r}")
    digits = 6 if match["digits"] is None else int(match["digits"])
    if max(digits, int(match["width"] or 0)) > _LONGEST:
        raise ValueError(f"a format of more than {_LONGEST} digits: {specification!r}")
    kind = match["type"] or "g"
    if match["group"] and (match["zero"] or match["fill"] == "0"):
        raise ValueError(f"zeros before groups of digits: {specification!r}")
    is_exact = match["type"] is None and match["digits"] is None
    body = show_fraction(abs(x)) if is_exact else _body(abs(x), kind.lower(), digits)
    sign = "-" if x < 0 else (match["sign"] or "").replace("-", "")
    return _padded(sign, body.upper() if kind.isupper() else body, match)


def _body(x: Fraction, kind: str, digits: int) -> str:
    if kind == "f":
        return _fixed(x, digits)
    if kind == "%":
        return _fixed(100 * x, digits) + "%"
    significant = max(digits, 1) if kind == "g" else digits + 1
    whole, exponent = _significant(x, significant)
    if kind == "g" and -4 <= exponent < significant:
        text = _fixed(Fraction(whole) * Fraction(10) ** (exponent - significant + 1), significant - 1 - exponent)
        return text.rstrip("0").rstrip(".") if "." in text else text
    text = str(whole).ljust(significant, "0")
    tail = text[1:] if kind == "e" else text[1:].rstrip("0")
    return f"{text[0]}{'.' if tail else ''}{tail}e{'-' if exponent < 0 else '+'}{abs(exponent):02d}"


def _fixed(x: Fraction, digits: int) -> str:
    text = str(round(x * 10**digits)).rjust(digits + 1, "0")
    return f"{text[:-digits]}.{text[-digits:]}" if digits else text


def _significant(x: Fraction, count: int) -> Tuple[int, int]:
    """Return a number rounded to so many digits, as a whole number, and the exponent of its first digit."""
    if x == 0:
        return 0, 0
    exponent = len(str(x.numerator)) - len(str(x.denominator))
    if Fraction(10) ** exponent > x:
        exponent -= 1
    whole = round(x * Fraction(10) ** (count - 1 - exponent))
    return (whole // 10, exponent + 1) if whole == 10**count else (whole, exponent)


def _padded(sign: str, body: str, match: "re.Match[str]") -> str:
    if match["group"]:
        whole, rest = re.fullmatch(r"(\d*)(.*)", body, re.DOTALL).groups()  # type: ignore[union-attr]
        body = f"{int(whole):{match['group']}}" + rest
    width = int(match["width"] or 0)
    align = match["align"] or ("=" if match["zero"] else ">")
    fill = match["fill"] or ("0" if match["zero"] else " ")
    if align == "=":
        return sign + body.rjust(width - len(sign), fill)
    return f"{sign + body:{fill}{align}{width}}"


def short_decimal(x: Fraction) -> str:
    """Return a number as a decimal of at most 9 significant digits, after a sign if that is not its exact value.

    >>> short_decimal(Fraction(1, 8)), short_decimal(Fraction(-2, 3))
    ('0.125', '≈ -0.666666667')
    """
    text = format_fraction(x, ".9g")
    return text if Fraction(text) == x else f"≈ {text}"


def html_of(number: str, powers: Powers) -> str:
    """Return a number and its unit as HTML."""

    def factor(name: str, e: Fraction) -> str:
        return html.escape(name) + ("" if e == 1 else f"<sup>{html.escape(show_fraction(e).replace('|', '/'))}</sup>")

    return " ".join([html.escape(number), *_factors(powers, factor, "·", "/")])


def latex_of(number: str, powers: Powers) -> str:
    """Return a number and its unit as LaTeX in dollar signs."""

    def factor(name: str, e: Fraction) -> str:
        word = "".join(_LATEX.get(c, c) for c in name)
        return rf"\mathrm{{{word}}}" + ("" if e == 1 else f"^{{{show_fraction(e).replace('|', '/')}}}")

    mantissa, letter, exponent = number.partition("e")
    shown = mantissa.replace("≈", r"\approx") + (rf" \times 10^{{{int(exponent)}}}" if letter else "")
    return "$" + r"\ ".join([shown, *_factors(powers, factor, r" \cdot ", " / ")]) + "$"


def _factors(powers: Powers, factor: Callable[[str, Fraction], str], times: str, over: str) -> Iterable[str]:
    """Return the texts that follow the number: none for a plain number, else one."""
    above = times.join(factor(name, e) for name, e in powers if e > 0)
    below = [factor(name, -e) for name, e in powers if e < 0]
    if not above and not below:
        return []
    if not below:
        return [above]
    return [(above or "1") + over + (below[0] if len(below) == 1 else f"({times.join(below)})")]
