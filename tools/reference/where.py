"""Where a program is by its pack, between two pieces: at a cut of a function that was called from outside. Other
places, as those of frames that were called from inside, aren't known here.
"""
from .bodies import Body
from .lines import INITIAL, SCORED_PLACES
from .module import need
from .reduction import OPCODES, Frame, View


def sequences(body, visit):
    """The sequences that a place is in, the outermost first, each with where it is in it."""
    found, code, path = [], body, visit.path
    for _ in visit.blocks:
        found.append((code, path[0]))
        block, path = code[path[0]], path[1:]
        arm = 0
        if block[0] == "if":
            arm, path = path[0], path[1:]
        code = block[2 + arm]
    return [*found, (code, path[0])]


def number_at(world, space, place, kind):
    """The number of a local or an operand from a place on."""
    ints = []
    for at in range(place, place + (1 if kind == "i32" else 2)):
        ints.append(world.scores.get((f"#{at}", space)) if at < SCORED_PLACES
                    else world.get(f"{space}:c", f"t.f[{at - SCORED_PLACES}]"))
    return ints[0] if len(ints) == 1 else ints[1] * 2**32 + ints[0] % 2**32


def numbers_at(world, space, place, kinds):
    numbers = []
    for kind in kinds:
        numbers.append(number_at(world, space, place, kind))
        place += 1 if kind == "i32" else 2
    return numbers


def lines(world, space, module):
    """What `where` prints of a pack that is at work."""
    piece, frames = world.get(f"{space}:c", "n"), world.get(f"{space}:c", "b")
    if piece is None:
        return ["none"]
    return ["start"] if piece["i"] == INITIAL else view(world, space, module, piece, len(frames)).lines()


def view(world, space, module, piece, depth):
    need(piece["i"] < len(module.functions), "a place of no function")
    if piece["j"] == 0:
        return View((), OPCODES["call"], ())
    body = Body(space, module, piece["i"], {})
    need(piece["j"] <= len(body.pieces) and depth == 1, "a place of no cut, or of several frames")
    visit = body.pieces[piece["j"] - 1][0]
    *around, (code, at) = sequences(module.functions[piece["i"]].body, visit)
    operands = numbers_at(world, space, body.locals, visit.kinds)
    while at < len(code) and code[at][0].endswith(".const"):
        operands.append(code[at][1])
        at += 1
    shown = Frame(piece["i"], tuple(numbers_at(world, space, 0, body.kinds)), tuple(operands))
    return View((shown,), OPCODES[code[at][0]] if at < len(code) else "end",
                (*(len(outer) - place for outer, place in around), len(code) - at))
