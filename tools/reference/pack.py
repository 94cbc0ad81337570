"""The pack of a module: its functions with their lines, in the order in which they are written, and its index."""
import json

from .bodies import (
    ARGS_OF_PIECE, FIRST_PAIR_PLACER, FIRST_PLACER, FIRST_TAKER, GROWER, WIDTHS, Body, body_piece, shared_piece)
from .lines import ENDING, INITIAL, SCORED_PLACES, SHARED, Lines, helpers_of, most_weight, weight
from .module import PAGE, need
from .routines import STANDING, TABLES_OF_BYTES, TABLES_OF_COUNTS, halves, listed

TURN = 20
RESERVE = 10
GLOBALS_OF_PIECE = 140
PAGES_OF_RUN = 32
OF_MEMORY = {"e2": 4, "e14": 16384, "b0": 1, "b1": 256, "b2": 65536, "b3": 16777216, "d0": 16777216, "d1": 65536,
             "d2": 256, "d3": 1, "c0": 65536, "c1": 256, "c2": 1, "f1": 16777216, "f2": 65536, "f3": 256, "mb": 0}
FILLING = [("c q", "{}"), ("c q.i", 0), ("c q.p", 0), ("c q.r", 0)]


def job(space, end, fail, piece):
    return [f"scoreboard players set #t {space} 0", f"data modify storage {space}:c d set value {end}",
            f"data modify storage {space}:c e set value {fail}", f"data modify storage {space}:c n set value {piece}",
            f"data modify storage {space}:io state set value 1"]


def scheduler(space, heaviest):
    state = f"execute store result score #h_s {space} run data get storage {space}:io state"
    guard = [state, f"execute unless score #h_s {space} matches 1 run return 0"]
    run = f"function {space}:h_run with storage {space}:c n"
    quiet = f"if score #t {space} matches 0"
    one = f"execute {quiet} run {run}"
    end = [f"execute {quiet} if data storage {space}:c n.e run {run}",
           f"execute if score #t {space} matches 1.. run function {space}:h_trap"]

    def while_left(room, name):
        return f"execute if score #w {space} matches {room}.. {quiet} run function {space}:{name}"

    eight = while_left(8 * (heaviest + TURN), "go8")
    load = [f"execute if data storage {space}:io state run return 0", f"scoreboard objectives add {space} dummy",
            f"data modify storage {space}:c t set value {{f:[]}}", f"data modify storage {space}:c b set value []"]
    return [
        ("load", load + job(space, 0, 4, body_piece(INITIAL, 0))),
        ("tick", guard + [f"execute store result score #w {space} run gamerule maxCommandChainLength",
                          f"scoreboard players remove #w {space} {heaviest + TURN + RESERVE}",
                          eight, while_left(0, "go"), *end]),
        ("go", [one, while_left(0, "go")]),
        ("go8", [one] * 8 + [f"scoreboard players add #w {space} 13", eight]),
        ("h_next", [*guard, run, *end]),
        ("h_run", [f"$function {space}:f$(i)_$(j)"]),
        ("h_trap", [f"execute store result storage {space}:io trap int 1 run scoreboard players get #t {space}",
                    f"data modify storage {space}:io state set from storage {space}:c e"])]


def call_function(space, index):
    return ([f"execute store result score #h_s {space} run data get storage {space}:io state",
             f"execute if score #h_s {space} matches 1 run return 0",
             f"execute if score #h_s {space} matches 4 run return 0",
             f"data modify storage {space}:c a set from storage {space}:io args"]
            + job(space, 2, 3, body_piece(index, 0)))


class Shared(Lines):
    """The pieces of instantiation, and those that functions share."""

    def settle(self, has_memory, looks_bytes_up):
        acts = [self.set_spot(f"#{place}", 0) for place in range(SCORED_PLACES)]
        acts += [self.set_site(site, "[]") for site in ("m g", "m mem", "c b")]
        acts += [self.set_spot(spot, value) for spot, value in STANDING.items()]
        tables = (TABLES_OF_BYTES if looks_bytes_up else {}) | TABLES_OF_COUNTS
        acts += [self.set_site(f"c {name}", listed(values)) for name, values in tables.items()]
        if has_memory:
            acts += [self.set_spot(f"#{name}", value) for name, value in OF_MEMORY.items()]
            acts += [self.set_site(*filling) for filling in FILLING]
        return acts

    def instantiation(self, module):
        need(all(kind in WIDTHS for kind, _ in module.globals), "a float")
        pieces = [self.settle(module.memory is not None, module.looks_bytes_up())]
        for first in range(0, len(module.globals), GLOBALS_OF_PIECE):
            pieces.append([
                act for index, (kind, value) in enumerate(module.globals[first:first + GLOBALS_OF_PIECE], first)
                for act in (
                    self.append_value("m g", listed([0] * WIDTHS[kind])),
                    *(self.set_site(f"m g[{index}][{k}]", int_) for k, int_ in enumerate(halves(kind, value))))])
        memory = module.first_memory()
        for first in range(0, len(memory), PAGE):
            page, append = memory[first:first + PAGE], self.append_site("m mem", "c k")
            if first and page == memory[first - PAGE:first]:
                pieces.append([append])
                continue
            words = [int.from_bytes(page[at:at + 4], "little", signed=True) for at in range(0, PAGE, 4)]
            pieces.append([self.set_site("c k", listed(words)), append])
        for number, acts in enumerate(pieces[:-1], 1):
            acts.append(self.set_site("c n", body_piece(INITIAL, number)))
        if module.start is None:
            pieces[-1] += self.end_job()
        else:
            pieces[-1] += [self.set_site("c a", "[]"), self.set_site("c n", body_piece(module.start, 0))]
        return [self.routine(INITIAL, number, self.run_all(acts)) for number, acts in enumerate(pieces)]

    def end_job(self):
        """The trap's score tells the rounds of a tick that no piece is next."""
        return [self.copy_site("io state", "c d"), self.set_spot("#t", -1)]

    def taker(self, k):
        acts = [self.site_to_place(place, f"c a[{place}]")
                for place in range(ARGS_OF_PIECE * k, ARGS_OF_PIECE * (k + 1))]
        acts.append(self.set_site("c n", shared_piece(FIRST_TAKER + k - 1)) if k else self.copy_site("c n", "c p"))
        return self.routine(SHARED, FIRST_TAKER + k, self.run_all(acts))

    def done(self, count):
        told = [self.keep_site("io result[0]", "#r"), self.keep_site("io result[1]", "#q")]
        return self.routine(ENDING, count, self.run_all([
            self.set_site("io result", listed([0] * count)), *told[:count], *self.end_job()]))

    def placer(self, place):
        return self.routine(SHARED, FIRST_PLACER + place,
                            self.run_all([self.keep_place(place, "#r"), self.copy_site("c n", "c p")]))

    def pair_placer(self, place):
        kept = [self.keep_place(place, "#r"), self.keep_place(place + 1, "#q")]
        return self.routine(SHARED, FIRST_PAIR_PLACER + place, self.run_all([*kept, self.copy_site("c n", "c p")]))

    def grower(self):
        pages = [self.when([self.if_in("#g", f"{missing}..")], self.append_site("m mem", "c k"))
                 for missing in range(1, PAGES_OF_RUN + 1)]
        return self.routine(SHARED, GROWER, [
            self.run(self.set_site("c k", listed([0] * (PAGE // 4)))), *pages, self.run(self.add("#g", -PAGES_OF_RUN)),
            self.when([self.if_in("#g", "..-1")], self.set_spot("#g", 0)),
            self.when([self.if_in("#g", 0)], self.copy_site("c n", "c p"))])


def pieces_of(space, module):
    """All pieces with their items, in their order, without charges."""
    shared, bodies = Shared(space), {}
    for index in range(len(module.functions)):
        bodies[index] = Body(space, module, index, bodies)
    found = shared.instantiation(module)
    for body in bodies.values():
        found += body.parts()
    takers = max((body.params // ARGS_OF_PIECE for body in bodies.values()), default=0)
    placers = max((body.placers() for body in bodies.values()), default=0)
    growers = [] if module.memory is None else [shared.grower()]
    return [*found, *map(shared.taker, range(takers)), *map(shared.done, (0, 1, 2)),
            *map(shared.placer, range(placers)), *map(shared.pair_placer, range(placers)), *growers]


def pack_functions(space, module):
    """The functions with their lines: the scheduler's, one for each piece, and each helper once."""
    calls = [(f"c{number}", call_function(space, export.index)) for number, export in enumerate(module.exported())]
    written, helpers, lines, heaviest = [], {}, Lines(space), 0
    for name, items in pieces_of(space, module):
        charged = lines.charged(items)
        heaviest = max(heaviest, most_weight(charged))
        written.append((name, [item.line for item in charged]))
        for helper, inside in helpers_of(charged):
            helpers.setdefault(helper, inside)
    return [*scheduler(space, heaviest), *calls, *written, *helpers.items()]


def index_text(space, module):
    exports = []
    for export in module.exported():
        kind = module.functions[export.index].type
        exports.append({"name": export.name, "params": kind.params,
                        "result": kind.results[0] if kind.results else None})
    return json.dumps({"exports": exports, "namespace": space, "version": 1}, ensure_ascii=False, separators=(",", ":"))


def most_of_pieces(functions):
    """What each piece weighs at most with all that it runs, by its name."""
    by_name, known = dict(functions), {}

    def most(name):
        if name not in known:
            runs = [line.split("run ")[-1].lstrip("$").split(" ") for line in by_name[name]]
            known[name] = sum(weight(line) for line in by_name[name]) + sum(
                most(words[1].partition(":")[2]) for words in runs if words[0] == "function" and "$" not in words[1])
        return known[name]

    return {name: most(name) for name in by_name if name[0] in "fis" and name[1:2].isdigit()}


def costs_lines(functions, count):
    """What `costs` tells of these functions and a module of so many."""
    most = most_of_pieces(functions)

    def line(what, names):
        return f"{what} pieces {len(names)} heaviest {max((most[name] for name in names), default=0)}"

    own = [[name for name in most if name.startswith(f"f{index}_")] for index in range(count)]
    initial, shared = ([name for name in most if name[0] == first] for first in "is")
    return [*(line(f"f{index}", names) for index, names in enumerate(own)),
            line("init", initial), line("shared", shared),
            line("total", [*(name for names in own for name in names), *initial, *shared])]
