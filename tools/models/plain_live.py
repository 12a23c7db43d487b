"""A live table as plain recursion over its definitions: the targets of names, their faults, and which are settled."""

from plain_decks import keys_in_order
from plain_lines import BLANKS, KINDS, REFUSED, key_text, tokens_of
from plain_quantities import Fault, Quantity
from plain_tables import Alias, Reader, Table
from plain_trees import first_fault

LARGE = 100  # in a table with more entries, each name is visited once


class Expression(Reader):
    """An expression, with the kind of use of each of its words."""

    def __init__(self, text, binder=None):
        super().__init__(text.replace("**", "^"), binder)
        self.places = []
        self.value = self.sum()
        self.uses = list(zip(self.places, self.words))

    def called(self, name, way):
        self.places.append("call" if way == "apply" else "inverse")
        return super().called(name, way)

    def word(self, token):
        count = len(self.words)
        if token in REFUSED:
            self.words.append(token)
        value = None if token in REFUSED else super().word(token)
        self.places += ["plain"] * (len(self.words) - count)
        return value


def stems(word):
    """The words whose plural a word may be."""
    if len(word) > 2 and word.endswith("s"):
        yield word[:-1]
    if len(word) > 3 and word.endswith("es"):
        yield word[:-2]
    if len(word) > 4 and word.endswith("ies"):
        yield word[:-3] + "y"


class Functions:
    """The functions of a table by name, in the form that values need."""

    def __init__(self, live):
        self.live = live

    def __contains__(self, name):
        return ("function", name) in self.live.entries

    def __getitem__(self, name):
        return self.live.callable(name)


class Live(Table):
    """The entries of a table, and the settled names."""

    def __init__(self, entries):
        super().__init__()
        self.entries = entries
        self.functions = Functions(self)
        self.read_entries, self.callables = {}, {}
        self.sound_keys = set() if len(entries) > LARGE else None
        self.settled, self.reductions = set(), 0

    # Entries

    def read(self, text, binder=None):
        expression = Expression(text, binder)
        self.uses_read += expression.uses
        expression.value.rank = 0
        return expression.value

    def entry(self, key):
        """The words of the trees of an entry, in order, and the value of the trees."""
        if key not in self.read_entries:
            self.uses_read = []
            value = self.read_entry(key[0], key[1], self.entries[key])
            self.read_entries[key] = self.uses_read, value
        return self.read_entries[key]

    def read_entry(self, kind, name, text):
        if kind == "list" or text in ("!", "!dimensionless"):
            return None
        if kind != "function":
            return self.read(text)
        if text.startswith("["):
            return self.points(name, text)
        if text[1 : text.find(")")].strip(BLANKS):
            return self.function(name, text)
        self.uses_read.append(("inverse", text[text.find(")") + 1 :].strip(BLANKS).removesuffix("()")))
        return None

    def uses(self, key):
        return self.entry(key)[0]

    # Names

    def targets(self, use, lookups=None):
        """The targets of a word at its place. Adds the keys that it looks up to `lookups`, if there is one."""
        place, word = use

        def find(*key):
            if lookups is not None:
                lookups.append(key)
            return [key] if key in self.entries else []

        def with_prefix(word):
            for end in range(len(word), 0, -1):
                prefix, rest = find("prefix", word[:end]), word[end:]
                if prefix and not rest:
                    return prefix
                if prefix and (unit := find("unit", rest)):
                    return prefix + unit
            return []

        if place == "inverse":
            return find("function", word)
        first, second = ("unit", "function") if place == "plain" else ("function", "unit")
        if whole := find(first, word) or find(second, word):
            return whole
        for stem in stems(word):
            if part := find("unit", stem) or with_prefix(stem):
                return part
        return with_prefix(word)

    def name_fault(self, uses, path=()):
        """The text of the first name fault of words at the end of a path, or None. The stack has the words and targets
        that are still to be visited, and whether they belong to an entry, whose key is then on the path."""
        path = list(path)
        on_path, stack = set(path), [(iter(uses), False)]
        while stack:
            steps, is_entry = stack[-1]
            step = next(steps, None)
            if step is None:
                stack.pop()
                if is_entry:
                    on_path.remove(path[-1])
                    key = path.pop()
                    if self.sound_keys is not None:
                        self.sound_keys.add(key)
            elif step[0] not in KINDS:
                if step[1] in REFUSED:
                    return f"refused function: {step[1]}{location_text(path)}"
                targets = self.targets(step)
                if not targets:
                    return f"unknown unit: {step[1]}{location_text(path)}"
                stack.append((iter(targets), False))
            elif step in on_path:
                return "cycle: " + " -> ".join(map(key_text, path[path.index(step) :] + [step]))
            elif self.sound_keys is None or step not in self.sound_keys:
                path.append(step)
                on_path.add(step)
                stack.append((iter(self.uses(step)), True))
        return None

    def reach(self, uses):
        """The keys that words reach, each after those that it reaches; in a large table only those not yet settled."""
        visited, order, stack = set(), [], [(None, iter(uses))]
        settled = set() if self.sound_keys is None else self.settled
        while stack:
            key, rest = stack[-1]
            use = next(rest, None)
            if use is None:
                stack.pop()
                if key:
                    order.append(key)
                continue
            for target in self.targets(use):
                if target not in visited and target not in settled:
                    visited.add(target)
                    stack.append((target, iter(self.uses(target))))
        return order

    def query(self, uses, path=()):
        """Settles the names that words at the end of a path reach, or raises their name fault."""
        fault = self.name_fault(uses, path)
        if fault:
            raise Fault(fault)
        keys = [*self.reach(uses), *path]
        new = set(keys) - self.settled
        self.settled |= new
        self.reductions += len(new)
        for key in keys:
            self.outcome(key)

    # Values

    def outcome(self, key):
        """The value or the fault of a key, or None for a function."""
        kind, name = key
        if kind == "function":
            return None
        if key not in self.outcomes:
            text = self.entries[key]
            self.outcomes[key] = self.worth_of(name, text, self.entry(key)[1])
        return self.outcomes[key]

    def worth_of(self, name, text, value):
        if text.startswith("!"):
            return Quantity(1, {name: 1} if text == "!" else {})
        try:
            return value(self, None)
        except Fault as fault:
            return fault

    def worth(self, word):
        """The value of a word that is not called."""
        product = None
        for key in self.targets(("plain", word)):
            if key[0] == "function":
                raise Fault(f"argument needed: {key[1]}")
            outcome = self.outcome(key)
            if isinstance(outcome, Fault):
                raise outcome
            product = outcome if product is None else product.scaled(outcome, 1)
        return product

    def callable(self, name):
        if name not in self.callables:
            uses, function = self.entry(("function", name))
            names = [key[1] for use in uses for key in self.targets(use) if key[0] == "function"]
            if function is None:
                function = Alias(name, self.callable(names[0]))
            function.rank = 1 + max((self.callable(other).rank for other in names), default=0)
            self.callables[name] = function
        return self.callables[name]

    # Calls

    def value_of(self, text):
        fault = first_fault(*tokens_of(text), len(text))
        if fault:
            raise Fault(fault)
        expression = Expression(text)
        self.query(expression.uses)
        return expression.value(self, None)

    def inverse_of(self, name, text):
        key = "function", name
        if key not in self.entries:
            raise Fault("no function")
        value = self.value_of(text)
        self.query(self.uses(key), [key])
        return self.callable(name).unapply(self, value)

    def settle(self):
        for key in keys_in_order(self.entries):
            if key[0] != "list":
                try:
                    self.query(self.uses(key), [key])
                except Fault:
                    pass

    # Edits

    def affected(self, changed):
        """The settled names that a change of these keys affects."""
        users = {}
        for key in self.settled:
            for use in self.uses(key):
                lookups = []
                self.targets(use, lookups)
                for other in lookups:
                    users.setdefault(other, set()).add(key)
        # Effects spread through names alone: a key that a word looked up has users, but is not one.
        result, stack = set(), [key for at in changed for key in {at} | users.get(at, set()) if key in self.settled]
        while stack:
            key = stack.pop()
            if key not in result:
                result.add(key)
                stack += (user for user in users.get(key, ()) if key in targets_of(self, user))
        return result

    def after(self, entries):
        """The table with these entries instead, in which the names that the change affects are no longer settled."""
        keys = self.entries.keys() | entries.keys()
        live = Live(entries)
        live.settled = self.settled - self.affected({k for k in keys if self.entries.get(k) != entries.get(k)})
        live.reductions = self.reductions
        return live

    def counts(self):
        names = sum(kind != "list" for kind, _ in self.entries)
        return f"{len(self.settled)} settled, {names} names, {self.reductions} reductions"


def targets_of(live, key):
    """The keys to which the words of a key lead."""
    return {target for use in live.uses(key) for target in live.targets(use)}


def location_text(path):
    return f" in {key_text(path[-1])}" if path else ""


def entries_of(deck):
    return {key: text for key, (text, _) in deck.table().items()}
