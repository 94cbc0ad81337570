#!/usr/bin/env python3
"""The workload of a number and a size, worked out apart from the program: its bytes, and what its `main` gives.

  workload.py NUMBER SIZE          NUMBER SIZE, the number of bytes, that of functions, and the value of `main`
  workload.py NUMBER SIZE FILE     the same, and writes the module to FILE
  workload.py table                the rows of crates/test_workload/data/numbers.txt and stdout
"""
import sys

MASK64 = (1 << 64) - 1
MULTIPLIER = 6364136223846793005
INCREMENT = 1442695040888963407

# ---- the module, instruction by instruction, in WebAssembly's text

def number_and_draws(number):
    x = number
    while True:
        x = (x * MULTIPLIER + INCREMENT) & MASK64
        yield x >> 33

def function_text(i, d, a, b):
    form = d % 4
    if form == 2 and i == 0:
        form = 0
    turn = "local.get 0;i32.const 1;i32.sub;local.tee 0;br_if 0;end;local.get 1"
    if form == 0:
        return (f"i32.const {16 + a % 16};local.set 0;loop;local.get 1;i64.const {MULTIPLIER};i64.xor;local.get 0;"
                "i64.extend_i32_u;i64.add;local.set 1;" + turn)
    if form == 1:
        at = b % 1024
        return ("i32.const 64;local.set 0;loop;local.get 0;i32.const 4;i32.mul;local.get 0;"
                f"i32.const {a};i32.mul;i32.store 2 {at};local.get 1;local.get 0;i32.const 4;i32.mul;"
                f"i64.load32_u 2 {at};i64.add;local.set 1;" + turn)
    if form == 2:
        return f"call {i - 1};i64.const {a};i64.xor"
    by = 1 + b % 1000
    return (f"i64.const {a * 2**31 + b};i64.const {by};i64.div_u;i64.const {a};i64.const {by};i64.rem_u;i64.xor")

OPCODES = {"end": 0x0B, "loop": 0x03, "br_if": 0x0D, "call": 0x10, "local.get": 0x20, "local.set": 0x21,
           "local.tee": 0x22, "i64.load32_u": 0x35, "i32.store": 0x36, "i32.const": 0x41, "i64.const": 0x42,
           "i32.sub": 0x6B, "i32.mul": 0x6C, "i64.add": 0x7C, "i64.div_u": 0x80, "i64.rem_u": 0x82, "i64.xor": 0x85,
           "i64.extend_i32_u": 0xAD}

def unsigned(n):
    low, n = n & 127, n >> 7
    return bytes([low | 128]) + unsigned(n) if n else bytes([low])

def signed(n):
    low, n = n & 127, n >> 7
    if (n == 0 and low < 64) or (n == -1 and low >= 64):
        return bytes([low])
    return bytes([low | 128]) + signed(n)

def assembled(text):
    out = bytearray()
    for line in text.split(";"):
        name, *numbers = line.split()
        out.append(OPCODES[name])
        if name == "loop":
            out.append(0x40)
        for n in numbers:
            out += signed(int(n)) if name.endswith("const") else unsigned(int(n))
    return bytes(out)

def section(id, content):
    return bytes([id]) + unsigned(len(content)) + content

def module(number, size):
    draws = number_and_draws(number)
    bodies = []
    for i in range(size):
        d, a, b = next(draws), next(draws), next(draws)
        bodies.append(b"\x02\x01\x7f\x01\x7e" + assembled(function_text(i, d, a, b)) + b"\x0b")
    main = "i64.const 0" + "".join(f";call {i};i64.add" for i in range(size))
    bodies.append(b"\x00" + assembled(main) + b"\x0b")
    code = unsigned(size + 1) + b"".join(unsigned(len(body)) + body for body in bodies)
    return (b"\0asm\x01\0\0\0" + section(1, b"\x01\x60\0\x01\x7e") + section(3, unsigned(size + 1) + bytes(size + 1))
            + section(5, b"\x01\0\x01") + section(7, b"\x01\x04main\0" + unsigned(size)) + section(10, code))

# ---- a machine that runs the bytes of such a module

class Cursor:
    def __init__(self, data):
        self.data, self.at = data, 0

    def byte(self):
        self.at += 1
        return self.data[self.at - 1]

    def leb(self, is_signed=False):
        n = shift = 0
        while True:
            b = self.byte()
            n |= (b & 127) << shift
            shift += 7
            if b < 128:
                return n - (1 << shift) if is_signed and b & 64 else n

    def take(self, count):
        self.at += count
        return self.data[self.at - count:self.at]

def functions_of(data):
    c = Cursor(data)
    assert c.take(8) == b"\0asm\x01\0\0\0"
    bodies = main = None
    while c.at < len(data):
        id, size = c.byte(), c.leb()
        part = Cursor(c.take(size))
        if id == 7:
            assert part.leb() == 1 and part.take(part.leb()) == b"main" and part.byte() == 0
            main = part.leb()
        if id == 10:
            bodies = []
            for _ in range(part.leb()):
                body = Cursor(part.take(part.leb()))
                runs = [(body.leb(), body.byte()) for _ in range(body.leb())]
                bodies.append((sum(count for count, _ in runs), body.data[body.at:]))
    return bodies, main

def value(data):
    bodies, main = functions_of(data)
    memory = bytearray(65536)

    def call(index):
        count, code = bodies[index]
        locals, stack, c, loops = [0] * count, [], Cursor(code), []
        while True:
            op = c.byte()
            if op == 0x0B:
                if not loops:
                    (result,) = stack
                    return result
                loops.pop()
            elif op == 0x03:
                c.byte()
                loops.append(c.at)
            elif op == 0x0D:
                assert c.leb() == 0
                if stack.pop():
                    c.at = loops[-1]
            elif op == 0x10:
                stack.append(call(c.leb()))
            elif op == 0x20:
                stack.append(locals[c.leb()])
            elif op == 0x21:
                locals[c.leb()] = stack.pop()
            elif op == 0x22:
                locals[c.leb()] = stack[-1]
            elif op == 0x36:
                assert c.leb() == 2
                offset, v, at = c.leb(), stack.pop(), stack.pop()
                memory[at + offset:at + offset + 4] = v.to_bytes(4, "little")
            elif op == 0x35:
                assert c.leb() == 2
                at = stack.pop() + c.leb()
                stack.append(int.from_bytes(memory[at:at + 4], "little"))
            elif op == 0x41:
                stack.append(c.leb(True) % 2**32)
            elif op == 0x42:
                stack.append(c.leb(True) % 2**64)
            elif op == 0xAD:
                pass
            else:
                b, a = stack.pop(), stack.pop()
                stack.append({0x6B: lambda: (a - b) % 2**32, 0x6C: lambda: a * b % 2**32,
                              0x7C: lambda: (a + b) % 2**64, 0x80: lambda: a // b, 0x82: lambda: a % b,
                              0x85: lambda: a ^ b}[op]())
            assert len(memory) == 65536

    result = call(main)
    return result - 2**64 if result >= 2**63 else result

# ---- rows

def row(number, size):
    data = module(number, size)
    return f"{number} {size} {len(data)} {size + 1} {value(data)}"

def pairs():
    sizes = [1, 2, 3, 5, 8, 10, 13, 31, 64, 99]
    numbers = [0, 1, 2, 7, 908834774, 2**31 - 1, 2**32, 2**63, 2**64 - 1]
    listed = [(n, s) for s in sizes[:5] for n in numbers]
    return listed + [(1, 10), (3, 127), (5, 128), (2**64 - 1, 300), (42, 1000)]

if __name__ == "__main__":
    sys.setrecursionlimit(5000)
    if sys.argv[1:] == ["table"]:
        for number, size in pairs():
            print(row(number, size))
    else:
        number, size = int(sys.argv[1]), int(sys.argv[2])
        print(row(number, size))
        if len(sys.argv) > 3:
            with open(sys.argv[3], "wb") as file:
                file.write(module(number, size))
