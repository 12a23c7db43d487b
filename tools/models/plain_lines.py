"""A plain reading of definition lines: their keys, their entries and their faults."""

import re
from fractions import Fraction

from plain_trees import MARKS, Token, first_fault

BLANKS = " \t"
KINDS = ["unit", "prefix", "function", "list"]

# Texts are decoded as Latin-1, so that each character is a byte.
CONTROL = "\x00-\x08\x0a-\x1f\x7f"
WORD = re.compile(rf"[^ \t{CONTROL}+\-*/|^;~#()\[\]]+")
NUMERAL = re.compile(r"(?:\d+(?:\.\d*)?|\.\d+)(?:[eE][+-]?\d+)?", re.ASCII)
REFUSED = set("sin cos tan asin acos atan sinh cosh tanh asinh acosh atanh ln log log2 exp".split())
KEYWORDS = {"per", "sqrt", "cuberoot"}
NUMBER = rf"[-+]?{NUMERAL.pattern}(?:\|{NUMERAL.pattern})?"
SPAN = re.compile(rf"[\[(][ \t]*({NUMBER})?[ \t]*,[ \t]*({NUMBER})?[ \t]*[\])]", re.ASCII)
POINT = rf"({NUMBER})[ \t]+({NUMBER})"
POINTS = re.compile(rf"(?:{POINT}(?:[ \t]*,[ \t]*|[ \t]+|$))*", re.ASCII)


class Refusal(Exception):
    """Why a line, a load or an edit is refused."""


# Expressions


def is_name(word):
    if not 1 <= len(word) <= 255 or not WORD.fullmatch(word) or word in KEYWORDS | REFUSED:
        return False
    if word[0] in "0123456789_,.!" or word[-1] in "_,.":
        return False
    return word[-1] not in "123456789" or re.search(r"_[0-9.,]*$", word) is not None


def word_kind(word, next_character):
    if word == "per":
        return "/"
    if word in ("sqrt", "cuberoot"):
        return "root"
    if is_name(word) or word in REFUSED:
        return "head" if next_character == "(" else "word"
    return "power" if word[-1] in "23456789" and is_name(word[:-1]) else "bad"


def is_long(numeral):
    mantissa, _, exponent = numeral.lower().partition("e")
    coefficient = mantissa.replace(".", "").strip("0") or "0"
    return int(coefficient) >= 1 << 127 or abs(int(exponent or "0")) > 9999


def tokens_of(text):
    """The tokens and their places."""
    tokens, places, at, end = [], [], 0, 0
    while at < len(text):
        after_numeral = at > 0 and tokens and tokens[-1].kind in ("numeral", "long") and end == at
        numeral, word = NUMERAL.match(text, at), WORD.match(text, at)
        end = at + 1
        if text[at] in BLANKS:
            at += 1
            continue
        if numeral and not (after_numeral and text[at] == "."):
            end = numeral.end()
            kind = "long" if is_long(numeral[0]) else "numeral"
        elif word and text[at] != ".":
            end = word.end()
            kind = word_kind(word[0], text[end : end + 1])
            end += kind == "head"
        elif text.startswith("**", at):
            end, kind = at + 2, "^"
        else:
            kind = text[at] if text[at] in MARKS else "bad"
        tokens.append(Token(kind, text[at:end]))
        places.append(at)
        at = end
    return tokens, places


def check_expression(text):
    text = text.strip(BLANKS)
    fault = first_fault(*tokens_of(text), len(text))
    if fault:
        raise Refusal(fault)


# Definitions


def name_fault(name):
    return f"bad name: {name}"


def check_name(name):
    if not is_name(name):
        raise Refusal(name_fault(name))


def need(condition, fault="bad definition"):
    if not condition:
        raise Refusal(fault)


def options_of(text):
    """The expressions of the options, and the text after them."""
    names, expressions, text = set(), [], text.lstrip(BLANKS)
    while option := re.match(r"units=|domain=|range=|noerror(?=[ \t]|$)", text):
        need(option[0] not in names)
        names.add(option[0])
        if option[0] == "units=":
            whole = re.compile(r"units=\[([^;]*);([^\]]*)\]", re.DOTALL).match(text)
            need(whole)
            expressions = [part for part in whole.groups() if part.strip(BLANKS)]
            text = text[whole.end() :]
        elif option[0] == "noerror":
            text = text[option.end() :]
        else:
            whole = SPAN.match(text, option.end())
            need(whole)
            for bound in filter(None, whole.groups()):
                number_of(bound, "bad definition")
            text = text[whole.end() :]
        text = text.lstrip(BLANKS)
    return expressions, text


def number_of(text, fault):
    """The value of a bound or a number of a table, of at most 127 bits."""
    top, _, bottom = text.partition("|")
    need(not is_long(top.lstrip("+-")) and not is_long(bottom or "1"), fault)
    top, bottom = Fraction(top), Fraction(bottom or "1")
    need(bottom and all(map(fits, (top, bottom, top / bottom))), fault)
    return top / bottom


def fits(x):
    return max(abs(x.numerator), x.denominator) < 1 << 127


def check_points(text):
    text = re.sub(r"^noerror(?=[ \t]|$)", "", text.strip(BLANKS)).strip(BLANKS)
    need(POINTS.fullmatch(text), "bad table")
    firsts = [number_of(x, "bad table") for x, y in re.findall(POINT, text) if number_of(y, "bad table") is not None]
    need(2 <= len(firsts) <= 1000 and firsts == sorted(set(firsts)), "bad table")


def function_of(name, rest):
    close = rest.find(")")
    parameter = rest[1:close].strip(BLANKS) if close >= 0 else None
    definition = rest[close + 1 :]
    check_name(name)
    need(parameter is not None)
    if parameter == "":
        target = definition.strip(BLANKS).removesuffix("()")
        if target:
            check_name(target)
        need(target)
        return
    check_name(parameter)
    expressions, text = options_of(definition)
    bodies = [body.strip(BLANKS) for body in text.split(";", 1)]
    need(all(bodies))
    for expression in expressions + bodies:
        check_expression(expression)


def table_of(name, rest):
    close = rest.find("]")
    check_name(name)
    need(close >= 0 and rest[1:close].strip(BLANKS))
    check_points(rest[close + 1 :])
    check_expression(rest[1:close])


def list_of(rest):
    """The key and the entry of the text after `!unitlist`."""
    name, _, parts = rest.replace("\t", " ").partition(" ")
    parts = rest[len(name) :].strip(BLANKS)
    need(name)
    check_name(name)
    need(parts)
    for part in parts.split(";"):
        check_expression(part)
    return ("list", name), parts


def entry_of(line):
    """The key and the text of the entry of a definition or a list."""
    if line.startswith("!"):
        return list_of(words_of(line)[1])
    if line.startswith("+"):
        line = line[1:].lstrip(BLANKS)
    head = re.match(r"[^ \t(\[]*", line)[0]
    rest = line[len(head) :]
    need(head, name_fault(""))
    text = rest.strip(BLANKS)
    if head.endswith("-") and rest[:1] in ("", " ", "\t"):
        check_name(head[:-1])
        need(text)
        check_expression(text)
        return ("prefix", head[:-1]), text
    if rest.startswith("("):
        function_of(head, rest)
        return ("function", head), text
    if rest.startswith("["):
        table_of(head, rest)
        return ("function", head), text
    check_name(head)
    need(text)
    if text not in ("!", "!dimensionless"):
        check_expression(text)
    return ("unit", head), text


def definition_of(line):
    """The key and the text of the entry of a line that defines a key."""
    try:
        return entry_of(line) if kind_of(line)[0] == "define" else None
    except Refusal:
        return None


def key_text(key):
    kind, name = key
    return {"unit": name, "prefix": f"{name}-", "function": f"{name}()", "list": f"!unitlist {name}"}[kind]


def key_of(text):
    """The key with this text, or None."""
    for end, kind in ((")", "function"), ("-", "prefix"), ("", "list" if text.startswith("!") else "unit")):
        if text.endswith(end):
            name = text.removeprefix("!unitlist ") if kind == "list" else text
            name = name.removesuffix({"function": "()", "prefix": "-"}.get(kind, ""))
            return (kind, name) if is_name(name) and key_text((kind, name)) == text else None


# Lines


def logical_lines(text):
    """The numbers and the texts of the logical lines."""
    physical = text.split("\n")
    if physical[-1] == "":
        physical.pop()
    lines, part = [], None
    for number, line in enumerate(physical, 1):
        line = line.removesuffix("\r").split("#")[0].rstrip(BLANKS)
        first, start = part or (number, "")
        part = (first, start + line[:-1] + " ") if line.endswith("\\") else None
        if part is None:
            lines.append((first, start + line))
    if part:
        lines.append(part)
    return [(number, line.strip(BLANKS)) for number, line in lines]


def words_of(line):
    """The directive of a line that begins with `!`, and the text after it."""
    word, rest = re.match(r"![ \t]*([^ \t]*)(.*)", line, re.DOTALL).groups()
    return word, rest.strip(BLANKS)


ENDS = {"locale": "endlocale", "var": "endvar", "varnot": "endvar", "utf8": "endutf8"}


def kind_of(line):
    """The kind of a line that is not blank, and its arguments."""
    if not line.startswith("!"):
        return ["define"]
    word, rest = words_of(line)
    words = re.split(r"[ \t]+", rest) if rest else []
    if word == "unitlist":
        return ["define"]
    if word in ("message", "prompt"):
        return [word, rest]
    if word in ("include", "locale"):
        return [word, *words] if len(words) == 1 else ["bad directive"]
    if word in ("set", "var", "varnot"):
        value = rest[len(words[0]) :].strip(BLANKS) if words else ""
        return [word, words[0], value] if value else ["bad directive"]
    if word in ("endlocale", "endvar", "utf8", "endutf8"):
        return ["bad directive"] if rest else [word]
    return ["unknown directive"]
