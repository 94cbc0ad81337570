"""Runs a call step by step, as the reduction of WebAssembly does, and tells what each of its configurations shows: the
frames, the next instruction, and how much is left of the sequences round it.

A constant is a value already, so it is an operand as soon as it is reached. A branch by a condition or by a table that
is taken leaves a `br`, and a call through the table a `call`, which is the next instruction then. A fill or a copy goes
byte by byte, and stays the next instruction while bytes are left.
"""
from typing import NamedTuple

from .engine import BITS, COMPARISONS, FRAMES, Trap, masked, signed
from .module import ACCESSES, INDEXED, PLAIN

OPCODES = {name: f"{code:02x}" for names in (PLAIN, INDEXED, ACCESSES) for code, name in names.items()}
OPCODES.update({"block": "02", "loop": "03", "if": "04", "br_table": "0e", "call_indirect": "11", "memory.size": "3f",
                "memory.grow": "40", "memory.copy": "fc0a", "memory.fill": "fc0b"})


class Frame(NamedTuple):
    function: int
    locals: tuple
    operands: tuple


class View(NamedTuple):
    frames: tuple
    next: str
    left: tuple

    def lines(self):
        for number, frame in enumerate(self.frames):
            yield f"frame {number} function {frame.function}"
            yield from (f"local {place} {value}" for place, value in enumerate(frame.locals))
            yield from (f"operand {place} {value}" for place, value in enumerate(frame.operands))
        yield f"next {self.next}"
        yield " ".join(["left", *map(str, self.left)])


class Level:
    """A label and what is left of the sequence in it."""

    def __init__(self, code, height, count, again=None):
        self.code, self.at, self.height, self.count, self.again = code, 0, height, count, again

    def left(self):
        return len(self.code) - self.at


class Activation:
    """A frame: operands are pairs of a type and a number; without a level the body's label has ended."""

    def __init__(self, index, function, arguments):
        self.index, self.function = index, function
        kinds = [*function.type.params, *function.locals]
        numbers = [*arguments, *[0] * len(function.locals)]
        self.locals, self.stack = list(zip(kinds, numbers)), []
        self.levels = [Level(function.body, 0, len(function.type.results))]

    def shown(self):
        return Frame(self.index, *(tuple(signed(number, BITS[kind]) for kind, number in values)
                                   for values in (self.locals, self.stack)))


class Reduction:
    """A call of a function in an instance, whose globals, table and memory it changes."""

    def __init__(self, instance, index, arguments):
        self.instance, self.module = instance, instance.module
        self.frames, self.results, self.steps = [], None, 0
        # What stands in the place of an instruction of the text: a `br` or a `call`.
        self.item, self.arguments = ("call", index), arguments

    def view(self):
        if not self.frames:
            return View((), OPCODES["call"] if self.item else "end", ())
        levels = self.frames[-1].levels
        # The sequence round a label counts the label, and the innermost one an item in the place of its instruction.
        left = [level.left() + 1 for level in levels]
        if levels and self.item is None:
            left[-1] -= 1
        item = self.item or (levels[-1].code[levels[-1].at] if levels and levels[-1].left() else None)
        return View(tuple(frame.shown() for frame in self.frames), OPCODES[item[0]] if item else "end", tuple(left))

    def step(self):
        """The next configuration; False where the call has ended."""
        if self.results is not None:
            return False
        self.steps += 1
        if not self.frames:
            self.call(self.item[1], self.arguments)
        elif self.item:
            item, self.item = self.item, None
            self.take(item)
        else:
            self.go_on()
        self.reach_item()
        return self.results is None

    def go_on(self):
        frame = self.frames[-1]
        if not frame.levels:
            self.leave()
        elif frame.levels[-1].left():
            level = frame.levels[-1]
            level.at += 1
            self.take(level.code[level.at - 1])
        else:
            frame.levels.pop()

    def reach_item(self):
        """Constants before the next item are values."""
        levels = self.frames[-1].levels if self.frames and self.item is None else []
        while levels and levels[-1].left() and levels[-1].code[levels[-1].at][0].endswith(".const"):
            name, number = levels[-1].code[levels[-1].at]
            self.push(name[:3], number)
            levels[-1].at += 1

    # Operands

    def push(self, kind, number):
        self.frames[-1].stack.append((kind, masked(number, kind)))

    def pop(self):
        return self.frames[-1].stack.pop()[1]

    def take_last(self, count):
        stack = self.frames[-1].stack
        values = stack[len(stack) - count:]
        del stack[len(stack) - count:]
        return values

    # Instructions

    def take(self, item):
        name = item[0]
        if name in ("block", "loop", "if"):
            self.enter(item)
        elif name == "br":
            self.branch(item[1])
        elif name == "br_if":
            self.item = ("br", item[1]) if self.pop() else None
        elif name == "br_table":
            index = self.pop()
            self.item = ("br", item[1][index] if index < len(item[1]) else item[2])
        elif name == "return":
            self.leave()
        elif name == "call":
            count = len(self.module.functions[item[1]].type.params)
            self.call(item[1], [number for _, number in self.take_last(count)])
        elif name == "call_indirect":
            self.item = ("call", self.element(self.module.types[item[1]], self.pop()))
        elif name in ("memory.fill", "memory.copy"):
            self.move(name)
        else:
            self.simple(item)

    def enter(self, item):
        name, results, body = item[:3]
        if name == "if" and not self.pop():
            body = item[3]
        again = item if name == "loop" else None
        frame = self.frames[-1]
        frame.levels.append(Level(body, len(frame.stack), 0 if again else len(results), again))

    def branch(self, label):
        frame = self.frames[-1]
        level = frame.levels[len(frame.levels) - 1 - label]
        values = self.take_last(level.count)
        del frame.stack[level.height:], frame.levels[len(frame.levels) - 1 - label:]
        frame.stack += values
        if level.again:
            # The loop stands in its place once more.
            frame.levels[-1].at -= 1

    def leave(self):
        """The frame goes, and its last values stand in its place."""
        frame = self.frames.pop()
        values = frame.stack[len(frame.stack) - len(frame.function.type.results):]
        if self.frames:
            self.frames[-1].stack += values
        else:
            self.results = values

    def call(self, index, arguments):
        if len(self.frames) == FRAMES:
            raise Trap(8)
        self.item = None
        self.frames.append(Activation(index, self.module.functions[index], arguments))

    def element(self, kind, index):
        if index >= len(self.instance.table):
            raise Trap(5)
        if self.instance.table[index] is None:
            raise Trap(6)
        if self.module.functions[self.instance.table[index]].type != kind:
            raise Trap(7)
        return self.instance.table[index]

    def move(self, name):
        """One byte, behind which the operands of the others stand; or none where none is left."""
        count, second, first = self.pop(), self.pop(), self.pop()
        is_copy, memory = name == "memory.copy", self.instance.memory
        self.instance.reach(first, count)
        if is_copy:
            self.instance.reach(second, count)
        if not count:
            return
        last = count - 1 if is_copy and first > second else 0
        memory[first + last] = memory[second + last] if is_copy else second & 255
        up = 0 if is_copy and first > second else 1
        for number in (first + up, second + (up if is_copy else 0), count - 1):
            self.push("i32", number)
        self.item = (name,)

    def simple(self, item):
        """An instruction that the engine does at once, on numbers; what it leaves is given its type."""
        frame, made = self.frames[-1], self.made(item)
        kinds, stack = [kind for kind, _ in frame.stack], [number for _, number in frame.stack]
        locals_ = [number for _, number in frame.locals]
        self.instance.step(item, locals_, stack)
        kinds = kinds[:len(stack)] if made is None else [*kinds[:len(stack) - 1], made]
        frame.stack = list(zip(kinds, stack))
        frame.locals = [(kind, number) for (kind, _), number in zip(frame.locals, locals_)]

    def made(self, item):
        """The type of what an instruction leaves, if it leaves something."""
        name = item[0]
        kind, _, operation = name.partition(".")
        if name == "local.get":
            return self.frames[-1].locals[item[1]][0]
        if name == "global.get":
            return self.module.globals[item[1]][0]
        if name == "select":
            return self.frames[-1].stack[-2][0]
        if operation == "eqz" or operation in COMPARISONS or kind == "memory":
            return "i32"
        return kind if kind in BITS and "store" not in operation else None
