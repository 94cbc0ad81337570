"""Runs modules step by step, as WebAssembly says: the answers of calls, and what globals and memory hold then.

A frame beyond the 1,024th traps, as the compiler's limit has it.

`steps` counts those of the reduction (crates/wm_ast/specs/Step.antt), the one that traps among them: each instruction,
and each end of a label and of a frame. A constant is none, since it is a value already. A branch by a condition or by a
table that is taken, and a call through the table, are two: the branch or the call comes into their place. A byte that
is filled or copied is one, beside the instruction that finds none left.
"""
from .module import PAGE, PAGES, need

FRAMES = 1024
BITS = {"i32": 32, "i64": 64}
TRAPS = ["", "unreachable", "integer divide by zero", "integer overflow", "out of bounds memory access",
         "undefined element", "uninitialized element", "indirect call type mismatch", "call stack exhausted"]


class Trap(Exception):
    def __init__(self, number):
        super().__init__(TRAPS[number])
        self.number = number


def signed(value, bits=32):
    value &= (1 << bits) - 1
    return value - (1 << bits) if value >> (bits - 1) else value


def masked(value, kind):
    return value & (1 << BITS[kind]) - 1


def divided(first, second):
    """The quotient rounded towards zero."""
    if second == 0:
        raise Trap(2)
    return abs(first) // abs(second) * (1 if (first < 0) == (second < 0) else -1)


def div_s(first, second, bits):
    quotient = divided(signed(first, bits), signed(second, bits))
    if quotient == 1 << bits - 1:
        raise Trap(3)
    return quotient


def rem_s(first, second, bits):
    return signed(first, bits) - divided(signed(first, bits), signed(second, bits)) * signed(second, bits)


def rotl(first, count, bits):
    return first << count % bits | first >> (bits - count % bits)


# On numbers below 2^bits; the answer is taken modulo it.
BINARY = {
    "add": lambda a, b, bits: a + b, "sub": lambda a, b, bits: a - b, "mul": lambda a, b, bits: a * b,
    "div_s": div_s, "div_u": lambda a, b, bits: divided(a, b),
    "rem_s": rem_s, "rem_u": lambda a, b, bits: a - divided(a, b) * b,
    "and": lambda a, b, bits: a & b, "or": lambda a, b, bits: a | b, "xor": lambda a, b, bits: a ^ b,
    "shl": lambda a, b, bits: a << b % bits, "shr_s": lambda a, b, bits: signed(a, bits) >> b % bits,
    "shr_u": lambda a, b, bits: a >> b % bits, "rotl": rotl, "rotr": lambda a, b, bits: rotl(a, -b, bits),
}
COMPARISONS = {
    "eq": lambda a, b, bits: a == b, "ne": lambda a, b, bits: a != b,
    "lt_s": lambda a, b, bits: signed(a, bits) < signed(b, bits), "lt_u": lambda a, b, bits: a < b,
    "gt_s": lambda a, b, bits: signed(a, bits) > signed(b, bits), "gt_u": lambda a, b, bits: a > b,
    "le_s": lambda a, b, bits: signed(a, bits) <= signed(b, bits), "le_u": lambda a, b, bits: a <= b,
    "ge_s": lambda a, b, bits: signed(a, bits) >= signed(b, bits), "ge_u": lambda a, b, bits: a >= b,
}
UNARY = {
    "clz": lambda a, bits: bits - a.bit_length(), "ctz": lambda a, bits: (a & -a).bit_length() - 1 if a else bits,
    "popcnt": lambda a, bits: bin(a).count("1"),
    "extend8_s": lambda a, bits: signed(a, 8), "extend16_s": lambda a, bits: signed(a, 16),
    "extend32_s": lambda a, bits: signed(a, 32),
}
WIDTHS = {"load": None, "load8_s": 1, "load8_u": 1, "load16_s": 2, "load16_u": 2, "load32_s": 4, "load32_u": 4,
          "store": None, "store8": 1, "store16": 2, "store32": 4}


class Instance:
    """A module with its globals, its table and its memory. Where the start function traps it is `dead`."""

    def __init__(self, module):
        self.module, self.table, self.memory = module, module.first_table(), module.first_memory()
        self.globals = [masked(value, kind) for kind, value in module.globals]
        self.frames, self.dead, self.steps = 0, False, 0
        if module.start is not None:
            try:
                self.invoke(module.start, [])
            except Trap:
                self.dead = True

    def call(self, name, arguments):
        """What `show` prints after the call of an export."""
        index = next(export.index for export in self.module.exported() if export.name == name)
        kind = self.module.functions[index].type
        self.frames = 0
        self.steps += 1
        try:
            results = self.invoke(index, list(map(masked, arguments, kind.params)))
        except Trap as trap:
            return f"trap {TRAPS[trap.number]}"
        return " ".join(["done", *(str(signed(result, BITS[one])) for result, one in zip(results, kind.results))])

    def invoke(self, index, arguments):
        function = self.module.functions[index]
        if self.frames == FRAMES:
            raise Trap(8)
        self.frames += 1
        stack = []
        left = self.run(function.body, arguments + [0] * len(function.locals), stack)
        # The body's label and the frame end, or the frame behind a branch, or nothing behind a return.
        self.steps += 2 if left is None else 1 if left == 0 else 0
        self.frames -= 1
        return stack[len(stack) - len(function.type.results):]

    def run(self, code, locals_, stack):
        """Runs a sequence: None where it ends, or the label of the branch that leaves it, where -1 is the
        function's."""
        for instruction in code:
            name = instruction[0]
            self.steps += not name.endswith(".const")
            if name in ("block", "loop", "if"):
                left = self.run_block(instruction, locals_, stack)
                if left is not None:
                    return left
            elif name == "br":
                return instruction[1]
            elif name == "br_if":
                if stack.pop():
                    self.steps += 1
                    return instruction[1]
            elif name == "br_table":
                index = stack.pop()
                self.steps += 1
                return instruction[1][index] if index < len(instruction[1]) else instruction[2]
            elif name == "return":
                return -1
            else:
                self.step(instruction, locals_, stack)
        return None

    def run_block(self, instruction, locals_, stack):
        name, results, body = instruction[:3]
        if name == "if" and not stack.pop():
            body = instruction[3]
        height = len(stack)
        left = self.run(body, locals_, stack)
        while left == 0 and name == "loop":
            del stack[height:]
            self.steps += 1
            left = self.run(body, locals_, stack)
        self.steps += left is None
        if left == 0:
            del stack[height:len(stack) - len(results)]
        return None if left in (None, 0) else left if left < 0 else left - 1

    def step(self, instruction, locals_, stack):
        name = instruction[0]
        kind, _, operation = name.partition(".")
        if operation == "const":
            stack.append(masked(instruction[1], kind))
        elif name == "local.get":
            stack.append(locals_[instruction[1]])
        elif name == "local.set":
            locals_[instruction[1]] = stack.pop()
        elif name == "local.tee":
            locals_[instruction[1]] = stack[-1]
        elif kind in BITS and operation in WIDTHS:
            self.access(name, instruction[1], WIDTHS[operation] or BITS[kind] // 8, stack)
        elif kind in BITS:
            self.number(kind, operation, stack)
        else:
            self.other(instruction, stack)

    def number(self, kind, operation, stack):
        bits, last = BITS[kind], stack.pop()
        if operation == "eqz":
            stack.append(int(last == 0))
        elif operation in COMPARISONS:
            stack.append(int(COMPARISONS[operation](stack.pop(), last, bits)))
        elif operation in BINARY:
            stack.append(masked(BINARY[operation](stack.pop(), last, bits), kind))
        elif operation in UNARY:
            stack.append(masked(UNARY[operation](last, bits), kind))
        else:
            need(operation in ("wrap_i64", "extend_i32_s", "extend_i32_u"), f"the instruction {kind}.{operation}")
            stack.append(masked(signed(last) if operation == "extend_i32_s" else last, kind))

    def other(self, instruction, stack):
        name = instruction[0]
        if name == "drop":
            stack.pop()
        elif name == "select":
            condition, second, first = stack.pop(), stack.pop(), stack.pop()
            stack.append(first if condition else second)
        elif name == "global.get":
            stack.append(self.globals[instruction[1]])
        elif name == "global.set":
            self.globals[instruction[1]] = stack.pop()
        elif name == "call":
            self.call_function(instruction[1], stack)
        elif name == "call_indirect":
            self.call_element(self.module.types[instruction[1]], stack.pop(), stack)
        elif name == "unreachable":
            raise Trap(1)
        elif name == "memory.size":
            stack.append(len(self.memory) // PAGE)
        elif name == "memory.grow":
            stack.append(masked(self.grow(stack.pop()), "i32"))
        elif name in ("memory.fill", "memory.copy"):
            count, second, first = stack.pop(), stack.pop(), stack.pop()
            self.move(name, first, second, count)
        else:
            need(name == "nop", f"the instruction {name}")

    def call_function(self, index, stack):
        count = len(self.module.functions[index].type.params)
        arguments = stack[len(stack) - count:]
        del stack[len(stack) - count:]
        stack.extend(self.invoke(index, arguments))

    def call_element(self, kind, index, stack):
        if index >= len(self.table):
            raise Trap(5)
        if self.table[index] is None:
            raise Trap(6)
        if self.module.functions[self.table[index]].type != kind:
            raise Trap(7)
        self.steps += 1
        self.call_function(self.table[index], stack)

    def reach(self, address, count):
        if address + count > len(self.memory):
            raise Trap(4)

    def access(self, name, offset, width, stack):
        value = stack.pop() if "store" in name else None
        address = stack.pop() + offset
        self.reach(address, width)
        if value is not None:
            self.memory[address:address + width] = (value & (1 << 8 * width) - 1).to_bytes(width, "little")
        else:
            value = int.from_bytes(self.memory[address:address + width], "little")
            stack.append(masked(signed(value, 8 * width), name[:3]) if name.endswith("_s") else value)

    def grow(self, pages):
        least, most = self.module.memory
        old = len(self.memory) // PAGE
        # The profile's limit holds for memories that grow, too.
        if old + pages > min(PAGES if most is None else most, PAGES):
            return -1
        self.memory.extend(bytes(PAGE * pages))
        return old

    def move(self, name, to, source, count):
        self.reach(to, count)
        if name == "memory.copy":
            self.reach(source, count)
        self.steps += count
        self.memory[to:to + count] = (self.memory[source:source + count] if name == "memory.copy"
                                      else bytes([source & 255]) * count)

    # What a script's lines print of it.

    def globals_lines(self):
        kinds = [kind for kind, _ in self.module.globals]
        return [f"global {index} {signed(value, BITS[kind])}"
                for index, (kind, value) in enumerate(zip(kinds, self.globals))]

    def memory_line(self, address, count):
        return self.memory[address:address + count].hex() if address + count <= len(self.memory) else "outside"

    def dump_lines(self, answer):
        rows = range(0, len(self.memory), 16)
        bytes_ = [f"{at:08x} {self.memory[at:at + 16].hex()}" for at in rows if any(self.memory[at:at + 16])]
        return [answer, *self.globals_lines(), *bytes_, "end"]
