"""Lines of a pack under one namespace, by docs/TARGET_CODE.md: acts, conditions, and items, which are lines with what
they run."""
from typing import NamedTuple

SCORED_PLACES = 128
ROUND_CHARGE = 5
SHARED, INITIAL, ENDING, FIRST_ENDING = 100000, 100001, 100002, 10000


class Act(NamedTuple):
    """A command, and the store that stands before it."""
    store: str
    command: str


class Item(NamedTuple):
    """A line, with the name and the items of the helper that it calls, if it calls one."""
    line: str
    helper: object = None


def weight(line):
    if line == "" or line.startswith("#"):
        return 0
    return 2 if line.startswith(("execute ", "$execute ")) else 1


def most_weight(items):
    return sum(weight(item.line) + (most_weight(item.helper[1]) if item.helper else 0) for item in items)


def helpers_of(items):
    """Each helper that is called, with its lines; a name may stand here several times."""
    for item in items:
        if item.helper:
            name, inside = item.helper
            yield name, [inner.line for inner in inside]
            yield from helpers_of(inside)


class Lines:
    def __init__(self, space):
        self.space = space

    # Acts

    def set_spot(self, spot, value):
        return Act("", f"scoreboard players set {spot} {self.space} {value}")

    def add(self, spot, value):
        return Act("", f"scoreboard players {'remove' if value < 0 else 'add'} {spot} {self.space} {abs(value)}")

    def combine(self, spot, operator, other):
        return Act("", f"scoreboard players operation {spot} {self.space} {operator} {other} {self.space}")

    def load_site(self, spot, site):
        return Act(f"store result score {spot} {self.space} ", f"data get storage {self.site(site)}")

    def keep_site(self, site, spot):
        return Act(f"store result storage {self.site(site)} int 1 ", f"scoreboard players get {spot} {self.space}")

    def set_site(self, site, value):
        return Act("", f"data modify storage {self.site(site)} set value {value}")

    def copy_site(self, site, other):
        return Act("", f"data modify storage {self.site(site)} set from storage {self.site(other)}")

    def append_value(self, site, value):
        return Act("", f"data modify storage {self.site(site)} append value {value}")

    def append_site(self, site, other):
        return Act("", f"data modify storage {self.site(site)} append from storage {self.site(other)}")

    def erase_site(self, site):
        return Act("", f"data remove storage {self.site(site)}")

    def site(self, site):
        """`c t.f[0]` is the path `t.f[0]` of the storage `x:c`."""
        return f"{self.space}:{site}"

    # Places

    @staticmethod
    def slot(place):
        return f"c t.f[{place - SCORED_PLACES}]"

    def set_place(self, place, value):
        if place < SCORED_PLACES:
            return self.set_spot(f"#{place}", value)
        return self.set_site(self.slot(place), value)

    def load_place(self, spot, place):
        if place < SCORED_PLACES:
            return self.combine(spot, "=", f"#{place}")
        return self.load_site(spot, self.slot(place))

    def keep_place(self, place, spot):
        if place < SCORED_PLACES:
            return self.combine(f"#{place}", "=", spot)
        return self.keep_site(self.slot(place), spot)

    def copy_place(self, place, other):
        if other < SCORED_PLACES:
            return self.keep_place(place, f"#{other}")
        if place < SCORED_PLACES:
            return self.load_place(f"#{place}", other)
        return self.copy_site(self.slot(place), self.slot(other))

    def place_to_site(self, site, place):
        if place < SCORED_PLACES:
            return self.keep_site(site, f"#{place}")
        return self.copy_site(site, self.slot(place))

    def site_to_place(self, place, site):
        if place < SCORED_PLACES:
            return self.load_site(f"#{place}", site)
        return self.copy_site(self.slot(place), site)

    # Conditions

    def if_in(self, spot, limits):
        return f"if score {spot} {self.space} matches {limits}"

    def unless_in(self, spot, limits):
        return f"unless score {spot} {self.space} matches {limits}"

    def if_so(self, spot, comparison, other, word="if"):
        return f"{word} score {spot} {self.space} {comparison} {other} {self.space}"

    # Items

    @staticmethod
    def run(act):
        return Item(f"execute {act.store}run {act.command}" if act.store else act.command)

    @staticmethod
    def when(conditions, act):
        return Item(f"execute {' '.join(conditions)} {act.store}run {act.command}")

    @staticmethod
    def stop(conditions):
        return Item(f"execute {' '.join(conditions)} run return 0")

    @staticmethod
    def told(item):
        """An item as a macro line."""
        return Item("$" + item.line)

    def call(self, name, items):
        return Item(f"function {self.space}:{name}", (name, items))

    def call_when(self, conditions, name, items):
        return Item(f"execute {' '.join(conditions)} run function {self.space}:{name}", (name, items))

    def fill(self, name, site, items):
        return Item(f"function {self.space}:{name} with storage {self.site(site)}", (name, items))

    def fill_when(self, conditions, name, site, items):
        return Item(f"execute {' '.join(conditions)} run function {self.space}:{name} with storage {self.site(site)}",
                    (name, items))

    def run_all(self, acts):
        return [self.run(act) for act in acts]

    def routine(self, group, number, items):
        """A piece that is of no function's body: its name, and the call of the function that has its lines."""
        name = {SHARED: f"s{number}", INITIAL: f"i{number}", ENDING: f"s{FIRST_ENDING + number}"}[group]
        return f"f{group}_{number}", [self.call(name, items)]

    def charged(self, items):
        """A piece with what is taken from the budget before each way out: what was run since the last one, with the
        round that begins the piece."""
        owed, out = ROUND_CHARGE, []
        for item in items:
            if item.line.endswith(" run return 0"):
                out += [self.run(self.add("#w", -owed - 3)), item]
                owed = 0
            else:
                out.append(item)
                owed += most_weight([item])
        return out + [self.run(self.add("#w", -owed - 1))]
