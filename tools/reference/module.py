"""WebAssembly modules from bytes, by the binary format of WebAssembly 1.0 with the sign extensions, `memory.copy` and
`memory.fill`.

A body is a list of instructions. An instruction is a tuple that begins with its name: `("i32.const", 5)`,
`("i32.load", 1)` with its offset, `("block", results, body)`, `("if", results, first, second)`. Modules that aren't
valid aren't recognised.
"""
from typing import NamedTuple

PAGE = 65536
PAGES = 256


class Unknown(Exception):
    """What these tools don't know how to work out."""


def need(condition, what):
    if not condition:
        raise Unknown(what)


class Type(NamedTuple):
    params: list
    results: list


class Export(NamedTuple):
    name: str
    kind: int
    index: int


class Function(NamedTuple):
    type: Type
    locals: list
    body: list


class Module(NamedTuple):
    types: list
    functions: list
    exports: list
    globals: list
    table: int
    elements: list
    # least size in pages, most or None; or None without a memory
    memory: object
    datas: list
    start: object
    # the library, the name and the kind of each
    imports: list = ()

    def exported(self):
        """The exports of functions, in their order."""
        return [export for export in self.exports if export.kind == 0]

    def first_table(self):
        table = [None] * self.table
        for offset, functions in self.elements:
            table[offset:offset + len(functions)] = functions
        return table

    def most_pages(self):
        declared = self.memory[1]
        return PAGES if declared is None else min(declared, PAGES)

    def looks_bytes_up(self):
        """Whether a body has an `and`, `or` or `xor`, on whatever operands."""
        return any(name in BY_BYTES for function in self.functions for name, *_ in instructions(function.body))

    def first_memory(self):
        memory = bytearray(PAGE * (self.memory[0] if self.memory else 0))
        for offset, data in self.datas:
            memory[offset:offset + len(data)] = data
        return memory


BY_BYTES = {f"{kind}.{name}" for kind in ("i32", "i64") for name in ("and", "or", "xor")}


def instructions(code):
    """Those of a body and of the blocks in it."""
    for instruction in code:
        yield instruction
        if instruction[0] in ("block", "loop", "if"):
            for body in instruction[2:]:
                yield from instructions(body)


LOADS = ["i32.load", "i64.load", "", "", "i32.load8_s", "i32.load8_u", "i32.load16_s", "i32.load16_u", "i64.load8_s",
         "i64.load8_u", "i64.load16_s", "i64.load16_u", "i64.load32_s", "i64.load32_u"]
STORES = ["i32.store", "i64.store", "", "", "i32.store8", "i32.store16", "i64.store8", "i64.store16", "i64.store32"]
TESTS = "eq ne lt_s lt_u gt_s gt_u le_s le_u ge_s ge_u".split()
NUMBERS = "clz ctz popcnt add sub mul div_s div_u rem_s rem_u and or xor shl shr_s shr_u rotl rotr".split()
PLAIN = {0x00: "unreachable", 0x01: "nop", 0x0F: "return", 0x1A: "drop", 0x1B: "select",
         0xA7: "i32.wrap_i64", 0xAC: "i64.extend_i32_s", 0xAD: "i64.extend_i32_u",
         0xC0: "i32.extend8_s", 0xC1: "i32.extend16_s", 0xC2: "i64.extend8_s", 0xC3: "i64.extend16_s",
         0xC4: "i64.extend32_s"}
INDEXED = {0x0C: "br", 0x0D: "br_if", 0x10: "call", 0x20: "local.get", 0x21: "local.set", 0x22: "local.tee",
           0x23: "global.get", 0x24: "global.set"}
for _first, _names in ((0x45, ["i32.eqz"] + ["i32." + name for name in TESTS]),
                       (0x50, ["i64.eqz"] + ["i64." + name for name in TESTS]),
                       (0x67, ["i32." + name for name in NUMBERS]), (0x79, ["i64." + name for name in NUMBERS])):
    PLAIN.update(enumerate(_names, _first))
ACCESSES = {code: name for code, name in [*enumerate(LOADS, 0x28), *enumerate(STORES, 0x36)] if name}
VALUE_TYPES = {0x7F: "i32", 0x7E: "i64", 0x7D: "f32", 0x7C: "f64"}


class Reader:
    def __init__(self, data):
        self.data, self.at = data, 0

    def byte(self):
        self.at += 1
        return self.data[self.at - 1]

    def number(self, signed=False):
        value = shift = 0
        while True:
            byte = self.byte()
            value |= (byte & 127) << shift
            shift += 7
            if not byte & 128:
                return value - (1 << shift) if signed and byte & 64 else value

    def take(self, count):
        self.at += count
        return self.data[self.at - count:self.at]

    def name(self):
        return self.take(self.number()).decode()

    def vector(self, read):
        return [read() for _ in range(self.number())]

    def value_type(self):
        return VALUE_TYPES[self.byte()]

    def limits(self):
        bounded = self.byte()
        least = self.number()
        return least, self.number() if bounded else None

    def type(self):
        need(self.byte() == 0x60, "a type of another form")
        return Type(self.vector(self.value_type), self.vector(self.value_type))

    def constant(self):
        need(self.byte() in (0x41, 0x42), "an initial value that isn't a constant")
        value = self.number(True)
        need(self.byte() == 0x0B, "an initial value of more than a constant")
        return value

    def sequence(self):
        """Instructions up to an `end` or `else`, and whether it was an `else`."""
        code = []
        while True:
            byte = self.byte()
            if byte in (0x05, 0x0B):
                return code, byte == 0x05
            code.append(self.instruction(byte))

    def block(self, byte):
        kind = self.byte()
        results = [] if kind == 0x40 else [VALUE_TYPES[kind]]
        first, other = self.sequence()
        if byte == 0x04:
            return "if", results, first, self.sequence()[0] if other else []
        return "block" if byte == 0x02 else "loop", results, first

    def instruction(self, byte):
        if byte in PLAIN:
            return (PLAIN[byte],)
        if byte in INDEXED:
            return INDEXED[byte], self.number()
        if byte in ACCESSES:
            self.number()
            return ACCESSES[byte], self.number()
        if byte in (0x02, 0x03, 0x04):
            return self.block(byte)
        if byte in (0x41, 0x42):
            return "i32.const" if byte == 0x41 else "i64.const", self.number(True)
        if byte == 0x0E:
            return "br_table", self.vector(self.number), self.number()
        if byte == 0x11:
            return "call_indirect", self.number(), self.number()
        if byte in (0x3F, 0x40):
            self.byte()
            return ("memory.size" if byte == 0x3F else "memory.grow",)
        need(byte == 0xFC and self.data[self.at] in (10, 11), f"the instruction {byte:02x}")
        name = "memory.copy" if self.byte() == 10 else "memory.fill"
        self.take(2 if name == "memory.copy" else 1)
        return (name,)

    def code(self):
        end = self.number() + self.at
        locals_ = [kind for count, kind in self.vector(lambda: (self.number(), self.value_type()))
                   for _ in range(count)]
        body = self.sequence()[0]
        need(self.at == end, "a body of another length")
        return locals_, body

    def global_(self):
        kind = self.value_type()
        self.byte()
        return kind, self.constant()

    def table(self):
        self.byte()
        return self.limits()

    def import_(self):
        library, name, kind = self.name(), self.name(), self.byte()
        (self.number, self.table, self.limits, lambda: self.take(2))[kind]()
        return library, name, kind

    def element(self):
        self.number()
        return self.constant(), self.vector(self.number)

    def data_segment(self):
        self.number()
        return self.constant(), self.take(self.number())


def read_module(data):
    need(data[:8] == b"\0asm\1\0\0\0", "no module")
    reader, parts = Reader(data), {}
    reader.at = 8
    readers = {1: Reader.type, 2: Reader.import_, 3: Reader.number, 4: Reader.table, 5: Reader.limits, 6: Reader.global_,
               9: Reader.element, 10: Reader.code,
               7: lambda part: Export(part.name(), part.byte(), part.number()), 11: Reader.data_segment}
    while reader.at < len(data):
        kind = reader.byte()
        part = Reader(reader.take(reader.number()))
        if kind == 8:
            parts[8] = part.number()
        elif kind != 0:
            need(kind in readers, f"a section {kind}")
            parts[kind] = part.vector(lambda part=part, kind=kind: readers[kind](part))
    types = parts.get(1, [])
    functions = [Function(types[index], locals_, body)
                 for index, (locals_, body) in zip(parts.get(3, []), parts.get(10, []))]
    tables, memories = parts.get(4, []), parts.get(5, [])
    return Module(types, functions, parts.get(7, []), parts.get(6, []), tables[0][0] if tables else 0, parts.get(9, []),
                  memories[0] if memories else None, parts.get(11, []), parts.get(8), parts.get(2, []))
