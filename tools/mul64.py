#!/usr/bin/env python3
"""Writes a module in which each `i64.mul` is a call of a function that is added, so that dpwasm takes it.

    tools/mul64.py IN.wasm OUT.wasm

The function stands behind all others, and works the low 64 bits of the product out by products and sums of 32 bits.
Where the second factor is a constant, as in `x * 6364136223846793005` or `x * 31`, a function of its own does with
fewer commands. Types, functions, globals and exports keep their numbers; of the custom sections only `name` stays. It
prints how many products became calls of how many functions. A module without `i64.mul` is written as it stands but for
its custom sections.

The status is 1, with a line that tells why, where IN can't be read or is no module of WebAssembly 1.0 with the sign
extensions, `memory.copy` and `memory.fill`, or where OUT can't be written. What else is wrong with a module dpwasm
tells.
"""
import sys

MAGIC = b"\0asm\1\0\0\0"
TYPES, IMPORTS, FUNCTIONS, CODE, CUSTOM = 1, 2, 3, 10, 0
I32, I64, FUNCTION_TYPE = 0x7F, 0x7E, 0x60
CONST64, CALL, MUL64 = 0x42, 0x10, 0x7E
PRODUCT_TYPES = {1: bytes([FUNCTION_TYPE, 1, I64, 1, I64]), 2: bytes([FUNCTION_TYPE, 2, I64, I64, 1, I64])}


class NoModule(Exception):
    """The bytes are no module that this tool reads."""


# Numbers

def unsigned(number):
    out = bytearray()
    while True:
        low, number = number & 127, number >> 7
        out.append(low | (128 if number else 0))
        if not number:
            return bytes(out)


def signed(number):
    out = bytearray()
    while True:
        low, number = number & 127, number >> 7
        is_last = number == -(low >> 6)
        out.append(low | (0 if is_last else 128))
        if is_last:
            return bytes(out)


def as_signed(number, bits):
    number &= (1 << bits) - 1
    return number - (1 << bits) if number >> (bits - 1) else number


class Reader:
    """Bytes that are read from the left."""

    def __init__(self, data):
        self.data, self.at = data, 0

    def byte(self):
        return self.take(1)[0]

    def take(self, count):
        found = self.data[self.at:self.at + count]
        if len(found) < count:
            raise NoModule(f"it ends at byte {len(self.data)}")
        self.at += count
        return found

    def unsigned(self):
        return self.number()[0]

    def signed(self):
        number, bits = self.number()
        return as_signed(number, bits)

    def number(self):
        """A number, and how many bits it was spelled with."""
        found = shift = 0
        while True:
            byte = self.byte()
            found |= (byte & 127) << shift
            shift += 7
            if byte < 128:
                return found, shift
            if shift > 63:
                raise NoModule(f"a number is too long at byte {self.at}")

    def is_done(self):
        return self.at == len(self.data)


# Modules

def sections_of(data):
    """The sections, each with its number and content, custom ones but `name` left out."""
    reader = Reader(data)
    if reader.data[:8] != MAGIC:
        raise NoModule("it is no WebAssembly")
    reader.at = 8
    found = []
    while not reader.is_done():
        number = reader.byte()
        content = reader.take(reader.unsigned())
        if number != CUSTOM or name_of(content) == b"name":
            found.append((number, content))
    return found


def name_of(content):
    reader = Reader(content)
    return reader.take(reader.unsigned())


def split(content):
    """How many items a section says that it has, and their bytes."""
    reader = Reader(content)
    return reader.unsigned(), content[reader.at:]


def with_items(content, items):
    """A section with these items behind its own."""
    count, rest = split(content)
    return unsigned(count + len(items)) + rest + b"".join(items)


def bodies_of(content):
    reader = Reader(content)
    return [reader.take(reader.unsigned()) for _ in range(reader.unsigned())]


# Instructions

def pass_immediates(reader, opcode):
    """Passes over what stands behind the opcode of an instruction."""
    if opcode in (0x02, 0x03, 0x04, 0x3F, 0x40):
        reader.byte()
    elif opcode in (0x0C, 0x0D, 0x10, 0x41, 0x42) or 0x20 <= opcode <= 0x24:
        reader.unsigned()
    elif opcode == 0x0E:
        for _ in range(reader.unsigned() + 1):
            reader.unsigned()
    elif opcode == 0x11 or 0x28 <= opcode <= 0x3E:
        reader.unsigned()
        reader.unsigned()
    elif opcode in (0x43, 0x44):
        reader.take(4 if opcode == 0x43 else 8)
    elif opcode == 0xFC:
        pass_long(reader)
    elif not (opcode in (0x00, 0x01, 0x05, 0x0B, 0x0F, 0x1A, 0x1B) or 0x45 <= opcode <= 0xC4):
        raise NoModule(f"the opcode {opcode:#04x} is not of WebAssembly 1.0")


def pass_long(reader):
    number = reader.unsigned()
    if number == 10:
        reader.take(2)
    elif number == 11:
        reader.byte()
    elif number > 7:
        raise NoModule(f"the opcode 0xfc {number} is not of WebAssembly 1.0")


class Products:
    """The functions that are added, by their constant factors; the one of two factors has none."""

    def __init__(self, first):
        self.first, self.factors, self.calls = first, [], 0

    def call(self, factor):
        if factor not in self.factors:
            self.factors.append(factor)
        self.calls += 1
        return bytes([CALL]) + unsigned(self.first + self.factors.index(factor))


def with_calls(body, products):
    """A body in which each product is a call."""
    reader = Reader(body)
    for _ in range(reader.unsigned()):
        reader.unsigned()
        reader.byte()
    out, constant = [body[:reader.at]], None
    while not reader.is_done():
        start, opcode = reader.at, reader.byte()
        if opcode == MUL64:
            if constant is not None:
                out.pop()
            out.append(products.call(constant))
            constant = None
            continue
        if opcode == CONST64:
            constant = as_signed(reader.signed(), 64)
        else:
            pass_immediates(reader, opcode)
            constant = None
        out.append(body[start:reader.at])
    return b"".join(out)


# The functions that are added

class Code:
    """The code of a function over locals of 32 bits, behind parameters of 64."""

    def __init__(self, params, locals32):
        self.names = [*params, *locals32]
        self.head = unsigned(1) + unsigned(len(locals32)) + bytes([I32])
        self.out = bytearray()

    def get(self, name):
        self.out += b"\x20" + unsigned(self.names.index(name))

    def set(self, name):
        self.out += b"\x21" + unsigned(self.names.index(name))

    def const(self, number):
        self.out += b"\x41" + signed(as_signed(number, 32))

    def const64(self, number):
        self.out += b"\x42" + signed(number)

    def do(self, *opcodes):
        self.out += bytes(opcodes)

    def push(self, operand):
        """A local by its name, or a constant."""
        if isinstance(operand, str):
            self.get(operand)
        else:
            self.const(operand)

    def body(self):
        return self.head + bytes(self.out) + b"\x0b"


LESS_S, ADD, SUB, MUL, SHIFT_S, SHIFT_U = 0x48, 0x6A, 0x6B, 0x6C, 0x75, 0x76
ADD64, SHIFT_LEFT64, SHIFT_U64, WRAP, EXTEND_U = 0x7C, 0x86, 0x88, 0xA7, 0xAD


def split_number(code, number, low, high):
    """A number of 64 bits as high * 2^32 + low, where low is taken with its sign."""
    code.get(number)
    code.do(WRAP)
    code.set(low)
    code.get(number)
    code.const64(32)
    code.do(SHIFT_U64, WRAP)
    code.get(low)
    code.const(0)
    code.do(LESS_S, ADD)
    code.set(high)


def split_word(code, word, low, high):
    """A word with its sign as high * 2^16 + low."""
    code.get(word)
    code.const(16)
    code.do(SHIFT_S)
    code.set(high)
    code.get(word)
    code.get(high)
    code.const(65536)
    code.do(MUL, SUB)
    code.set(low)


def is_nothing(operand):
    return operand == 0 and not isinstance(operand, str)


def add_product(code, one, other):
    """Adds a product to what stands on the stack; none where a factor is known to be 0."""
    if not is_nothing(one) and not is_nothing(other):
        code.push(one)
        code.push(other)
        code.do(MUL, ADD)


def multiply(code, x, y):
    """The product of two numbers, each told by its low word, that word's low and high halves, and its high word.

    With a = a1 * 2^16 + a0 and b = b1 * 2^16 + b0, a and a1 with their sign, t = a1 * b0 + a0 * b0 / 2^16 and
    u = a0 * b1 + t % 2^16 the high word of a * b is a1 * b1 + t / 2^16 + u / 2^16, all rounded down, and no sum is
    beyond 32 bits."""
    is_small = not isinstance(y.half0, str) and y.half0 <= 32768
    code.get(x.half0)
    code.push(y.half0)
    code.do(MUL)
    code.const(16)
    # (below 2^31 both shifts give the same, and the one with a sign is cheaper)
    code.do(SHIFT_S if is_small else SHIFT_U)
    add_product(code, x.half1, y.half0)
    code.set("t")
    code.get("t")
    code.const(16)
    code.do(SHIFT_S)
    code.set("high")
    if not is_nothing(y.half1):
        code.get("t")
        code.get("high")
        code.const(65536)
        code.do(MUL, SUB)
        add_product(code, x.half0, y.half1)
        code.const(16)
        code.do(SHIFT_S)
        code.get("high")
        code.do(ADD)
    else:
        code.get("high")
    add_product(code, x.half1, y.half1)
    add_product(code, x.high, y.low)
    add_product(code, x.low, y.high)
    code.do(EXTEND_U)
    code.const64(32)
    code.do(SHIFT_LEFT64)
    code.get(x.low)
    code.push(y.low)
    code.do(MUL, EXTEND_U, ADD64)


class Factor:
    """The parts of a factor: the names of locals, or numbers."""

    def __init__(self, low, half0, half1, high):
        self.low, self.half0, self.half1, self.high = low, half0, half1, high


def known_factor(number):
    low = as_signed(number, 32)
    return Factor(low, low & 65535, low >> 16, as_signed((number - low) >> 32, 32))


def product_body(factor):
    """The body of the function of two factors, or of the one that multiplies with this factor."""
    x = Factor("xl", "x0", "x1", "xh")
    locals32 = ["xl", "xh", "x0", "x1", "t", "high"]
    if factor is None:
        code = Code(["x", "y"], [*locals32, "yl", "yh", "y0", "y1"])
    else:
        code = Code(["x"], locals32)
    split_number(code, "x", "xl", "xh")
    split_word(code, "xl", "x0", "x1")
    if factor is None:
        split_number(code, "y", "yl", "yh")
        split_word(code, "yl", "y0", "y1")
        multiply(code, x, Factor("yl", "y0", "y1", "yh"))
    else:
        multiply(code, x, known_factor(factor))
    return code.body()


# All

def rewritten(data):
    """The module without products, and the number of calls and of functions that were added."""
    sections = sections_of(data)
    of = dict(sections)
    if split(of.get(IMPORTS, b"\0"))[0]:
        raise NoModule("it has imports")
    functions = split(of.get(FUNCTIONS, b"\0"))[0]
    products = Products(functions)
    bodies = [with_calls(it, products) for it in bodies_of(of.get(CODE, b"\0"))]
    if products.calls:
        of = with_products(of, bodies, products)
    contents = [(number, of[number] if number else content) for number, content in sections]
    out = b"".join(bytes([number]) + unsigned(len(content)) + content for number, content in contents)
    return MAGIC + out, products.calls, len(products.factors)


def with_products(of, bodies, products):
    if TYPES not in of or FUNCTIONS not in of:
        raise NoModule("it has bodies of functions without their types")
    types = split(of[TYPES])[0]
    arities = [2 if it is None else 1 for it in products.factors]
    added = sorted(set(arities))
    bodies = [*bodies, *map(product_body, products.factors)]
    return {
        **of,
        TYPES: with_items(of[TYPES], [PRODUCT_TYPES[it] for it in added]),
        FUNCTIONS: with_items(of[FUNCTIONS], [unsigned(types + added.index(it)) for it in arities]),
        CODE: unsigned(len(bodies)) + b"".join(unsigned(len(it)) + it for it in bodies),
    }


def main(words):
    if words == ["--help"]:
        print(__doc__)
        return 0
    if len(words) != 2:
        print("usage: tools/mul64.py IN.wasm OUT.wasm", file=sys.stderr)
        return 1
    try:
        with open(words[0], "rb") as file:
            data, calls, functions = rewritten(file.read())
        with open(words[1], "wb") as file:
            file.write(data)
    except NoModule as error:
        print(f"{words[0]}: {error}", file=sys.stderr)
        return 1
    except OSError as error:
        print(f"{error.filename}: {error.strerror}", file=sys.stderr)
        return 1
    print(f"{calls} products are calls of {functions} functions")
    return 0


if __name__ == "__main__":
    sys.exit(main(sys.argv[1:]))
