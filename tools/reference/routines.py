"""The routines for operations on i32 and for accesses to memory, as items on places."""
from .constants import Constants
from .lines import Lines, SCORED_PLACES
from .module import PAGE
from .pairs import Pairs

LEAST = -2147483648
COMPARISONS = {"eq": "=", "ne": "=", "lt": "<", "gt": ">", "le": "<=", "ge": ">="}
LIGHT = {"add": "+=", "sub": "-=", "mul": "*="}
MOST_NEAR, NO_OFFSET = 8192, 16777216


def wrapped(value):
    return (value + 2**31) % 2**32 - 2**31


def halves(kind, value):
    """The ints of a value: an i64 has its low half and its high half."""
    return [value] if kind == "i32" else [wrapped(value), value >> 32]


def listed(values):
    """A list as it is spelled in a command."""
    return "[" + ",".join(listed(value) if isinstance(value, list) else str(value) for value in values) + "]"


def powers(exponents):
    return [wrapped(2**exponent) for exponent in exponents]


TABLES = {"popcnt": listed([bin(value).count("1") for value in range(256)])}
# Scores and tables that stand from instantiation on; those of bytes where an `and`, `or` or `xor` needs them.
STANDING = {"#e1": 2, "#e5": 32, "#e16": 65536, "#e31": LEAST}
TABLES_OF_BYTES = {
    "low": [half % 256 for half in range(65536)], "high": [half // 256 for half in range(65536)],
    "and": [[row & column for column in range(256)] for row in range(256)],
    "raised": [[(row & column) * 256 for column in range(256)] for row in range(256)]}
TABLES_OF_COUNTS = {
    "shl": powers(range(32)), "shrs": powers(min(k, 30) for k in range(32)),
    "shru": powers(max(k - 1, 0) for k in range(32)),
    "rotl": [powers([k, 31 - k]) for k in range(32)], "rotr": [powers([-k % 32, 31 - -k % 32]) for k in range(32)]}


class Routines(Constants, Pairs, Lines):
    # In short

    def sets(self, spot, value):
        return self.run(self.set_spot(spot, value))

    def does(self, spot, operator, other):
        return self.run(self.combine(spot, operator, other))

    def does_if(self, limits, tested, spot, operator, other):
        return self.when([self.if_in(tested, limits)], self.combine(spot, operator, other))

    # Light operations, in place

    def light(self, a, b, r, core):
        """The core on the spots of two operands, or of one where b is None."""
        in_place = r < SCORED_PLACES and r != b
        x = f"#{r}" if in_place else "#a"
        items = []
        if not in_place:
            items.append(self.run(self.load_place("#a", a)))
        elif a != r:
            items.append(self.run(self.copy_place(r, a)))
        y = None
        if b is not None:
            y = f"#{b}" if b < SCORED_PLACES else "#b"
            if b >= SCORED_PLACES:
                items.append(self.run(self.load_place("#b", b)))
        items += core(x, y)
        return items if in_place else items + [self.run(self.keep_place(r, "#a"))]

    def truth(self, x, condition):
        return [self.sets("#c", 0), self.when([condition], self.set_spot("#c", 1)), self.does(x, "=", "#c")]

    def compare(self, name, x, y):
        kind, _, sign = name.partition("_")
        if sign != "u":
            return self.truth(x, self.if_so(x, COMPARISONS[kind], y, "unless" if kind == "ne" else "if"))
        return [self.sets("#d", LEAST), self.does(x, "+=", "#d"), self.does("#d", "+=", y),
                *self.truth(x, self.if_so(x, COMPARISONS[kind], "#d"))]

    def eqz(self, x, _):
        return [self.when([self.unless_in(x, "0")], self.set_spot(x, -1)), self.run(self.add(x, 1))]

    def extend(self, x, modulus):
        return [self.sets("#m", modulus), self.does(x, "%=", "#m"), self.does_if(f"{modulus // 2}..", x, x, "-=", "#m")]

    def begin_count(self, x):
        return [self.sets("#c", 0), self.when([self.if_in(x, "0")], self.set_spot("#c", 1))]

    def counts(self, spot, limits, count):
        return self.when([self.if_in(spot, limits)], self.add("#c", count))

    def clz(self, x, _):
        items = self.begin_count(x)
        for k in (16, 8, 4, 2):
            limits = f"0..{2**(32 - k) - 1}"
            items += [self.sets("#m", 2**k), self.counts(x, limits, k), self.does_if(limits, x, x, "*=", "#m")]
        return items + [self.counts(x, "0..2147483647", 1), self.does(x, "=", "#c")]

    def ctz(self, x, _):
        items = self.begin_count(x)
        for k in (16, 8, 4, 2):
            items += [self.sets("#m", 2**k), self.does("#d", "=", x), self.does("#d", "%=", "#m"),
                      self.counts("#d", "0", k), self.does_if("0", "#d", x, "/=", "#m")]
        return items + [self.sets("#m", 2), self.does(x, "%=", "#m"), self.counts(x, "0", 1), self.does(x, "=", "#c")]

    # Divisions, on `#a` and `#b`

    def trap_when(self, conditions, number):
        return [self.when(conditions, self.set_spot("#t", number)), self.stop(conditions)]

    def div_s(self):
        a, b = "#a", "#b"
        least = [self.if_in(a, LEAST), self.if_in(b, -1)]
        return "#c", [
            *self.trap_when([self.if_in(b, 0)], 2), *self.trap_when(least, 3),
            self.does("#c", "=", a), self.does("#c", "/=", b), self.does("#d", "=", a), self.does("#d", "%=", b),
            self.when([self.if_in(a, "..-1"), self.if_in("#d", "1..")], self.add("#c", 1)),
            self.when([self.if_in(a, "1.."), self.if_in("#d", "..-1")], self.add("#c", 1))]

    def rem_s(self):
        a, b = "#a", "#b"
        return "#c", [
            *self.trap_when([self.if_in(b, 0)], 2), self.does("#c", "=", a), self.does("#c", "%=", b),
            self.when([self.if_in(a, "..-1"), self.if_in("#c", "1..")], self.combine("#c", "-=", b)),
            self.when([self.if_in(a, "0.."), self.if_in("#c", "..-1")], self.combine("#c", "-=", b))]

    def half_of_a(self, two):
        return [self.does("#c", "=", "#a"), self.sets(two, 2), self.does("#c", "/=", two), self.sets(two, LEAST)]

    def twice_half(self):
        return [*self.half_of_a("#d"), self.does("#c", "-=", "#d"), self.does("#c", "/=", "#b"),
                self.does("#c", "+=", "#c")]

    def unsigned(self, plain, name, high):
        low = [self.if_in("#b", "0.."), self.if_in("#a", "0..")]
        once = [self.if_in("#a", "..-1"), self.if_so("#a", ">=", "#b")]
        return "#d", [*self.trap_when([self.if_in("#b", 0)], 2), *plain(low, once),
                      self.call_when([self.if_in("#b", "0.."), self.if_in("#a", "..-1")], name,
                                     self.twice_half() + high)]

    def div_u(self):
        more = self.add("#c", 1)
        high = [self.does("#d", "=", "#c"), self.does("#d", "*=", "#b"), self.does("#a", "-=", "#d"),
                self.when([self.if_in("#a", "..-1")], more), self.when([self.if_so("#a", ">=", "#b")], more),
                self.does("#d", "=", "#c")]
        return self.unsigned(lambda low, once: [
            self.sets("#d", 0), self.when(once, self.set_spot("#d", 1)), self.when(low, self.combine("#d", "=", "#a")),
            self.when(low, self.combine("#d", "/=", "#b"))], "h_cc_i32_div_high", high)

    def rem_u(self):
        less = self.combine("#d", "-=", "#b")
        high = [self.does("#c", "*=", "#b"), self.does("#d", "=", "#a"), self.does("#d", "-=", "#c"),
                self.when([self.if_in("#d", "..-1")], less), self.when([self.if_so("#d", ">=", "#b")], less)]
        return self.unsigned(lambda low, once: [
            self.does("#d", "=", "#a"), self.when(once, less), self.when(low, self.combine("#d", "%=", "#b"))],
            "h_cc_i32_rem_high", high)

    # Operations that look numbers up

    def clears(self):
        return self.run(self.set_site("c v", "{}"))

    def tells(self, key, spot):
        return self.run(self.keep_site(f"c v.{key}", spot))

    def lays(self, table):
        return self.run(self.set_site("c k", TABLES[table]))

    def looks(self, spot, *keys):
        return self.told(self.run(self.load_site(spot, "c k" + "".join(f"[{key}]" for key in keys))))

    def finds(self, spot, table, *keys):
        """What a standing table has at some places, of which the first is told."""
        return self.told(self.run(self.load_site(spot, f"c {table}" + "".join(f"[{key}]" for key in keys))))

    def finds_row(self, table):
        return [self.finds("#p", table, "$(k)", 0), self.finds("#q", table, "$(k)", 1)]

    def half_without_sign(self):
        return [self.does("#c", "=", "#a"), self.does("#c", "/=", "#e1"),
                self.does_if("..-1", "#c", "#c", "-=", "#e31")]

    def shift(self, name):
        table = name.replace("_", "")
        looks = self.finds_row(table) if name.startswith("rot") else [self.finds("#p", table, "$(k)")]
        items = [self.does("#b", "%=", "#e5"), self.clears(), self.tells("k", "#b"),
                 self.fill(f"h_cc_bits_{name}", "c v", looks)]
        half = self.half_without_sign()
        if name == "shl":
            items += [self.does("#a", "*=", "#p")]
        elif name == "shr_s":
            items += [self.does("#a", "/=", "#p"), self.does_if(31, "#b", "#a", "/=", "#e1")]
        elif name == "shr_u":
            items += [*half, self.does("#c", "/=", "#p"), self.does_if("1..", "#b", "#a", "=", "#c")]
        else:
            items += [*half, self.does("#c", "/=", "#q"), self.when([self.if_in("#b", 0)], self.set_spot("#c", 0)),
                      self.does("#a", "*=", "#p"), self.does("#a", "+=", "#c")]
        return "#a", items

    def digits(self, spot, count):
        items = []
        for k in range(count):
            items += [self.does("#c", "=", spot), self.does("#c", "%=", "#m"), self.tells(f"{spot[1]}{k}", "#c"),
                      self.does(spot, "/=", "#m")]
        return items + [self.tells(f"{spot[1]}{count}", spot)]

    def split_halves(self, spot):
        """The halves of a score without its sign, as places of a list of 65,536."""
        return [self.does("#c", "=", spot), self.does("#c", "%=", "#e16"), self.tells(f"{spot[1]}0", "#c"),
                self.does(spot, "/=", "#e16"), self.tells(f"{spot[1]}1", spot)]

    def split_bytes(self):
        return [self.told(self.run(self.copy_site(f"c v.{name}{2 * half + byte}", f"c {table}[$({name}{half - 1})]")))
                for name in "ab" for half in (1, 2) for byte, table in enumerate(("low", "high"))]

    def both(self):
        """`#d` becomes what `#a` and `#b` have both, from the highest byte down."""
        found = []
        for k, (table, spot) in zip((5, 4, 3, 2), (("raised", "#d"), ("and", "#c"), ("raised", "#c"), ("and", "#c"))):
            found.append(self.finds(spot, table, f"$(a{k})", f"$(b{k})"))
            found += [self.does("#d", "+=", "#c")] if spot == "#c" else []
            found += [self.does("#d", "*=", "#e16")] if k == 4 else []
        return [self.clears(), *self.split_halves("#a"), *self.split_halves("#b"),
                self.fill("h_cc_bits_bytes", "c v", self.split_bytes()), self.fill("h_cc_bits_both", "c v", found)]

    def bitwise(self, name):
        if name == "and":
            return "#d", [self.call("h_cc_bits_and", self.both())]
        less = [self.does("#e", "-=", "#d")] * (1 if name == "or" else 2)
        return "#e", [self.call(f"h_cc_bits_{name}", [
            self.does("#e", "=", "#a"), self.does("#e", "+=", "#b"), *self.both(), *less])]

    def popcnt(self):
        looked = [self.lays("popcnt"), self.looks("#d", "$(a3)")]
        for k in (2, 1, 0):
            looked += [self.looks("#c", f"$(a{k})"), self.does("#d", "+=", "#c")]
        return "#d", [self.sets("#m", 256), self.clears(), *self.digits("#a", 3),
                      self.fill("h_cc_bits_popcnt", "c v", looked)]

    # All operations

    def operation(self, name, h, known):
        """The operation on the operands below the place h, of which so much is known."""
        short = self.operation_with(name, known, h)
        if short is not None:
            return short
        if name in ("eqz", "clz", "ctz"):
            return self.light(h - 1, None, h - 1, getattr(self, name))
        if name.startswith("extend"):
            return self.light(h - 1, None, h - 1, lambda x, _: self.extend(x, 256 if name == "extend8_s" else 65536))
        if name in LIGHT:
            return self.light(h - 2, h - 1, h - 2, lambda x, y: [self.does(x, LIGHT[name], y)])
        if name.partition("_")[0] in COMPARISONS:
            return self.light(h - 2, h - 1, h - 2, lambda x, y: self.compare(name, x, y))
        one = name == "popcnt"
        if name in ("and", "or", "xor"):
            result, items = self.bitwise(name)
        elif name in ("shl", "shr_s", "shr_u", "rotl", "rotr"):
            result, items = self.shift(name)
        else:
            result, items = getattr(self, name)()
        r = h - 1 if one else h - 2
        second = [] if one else [self.run(self.load_place("#b", h - 1))]
        return [self.run(self.load_place("#a", r)), *second, *items, self.run(self.keep_place(r, result))]

    # Accesses to memory: the address

    def trap_is(self):
        return self.set_spot("#t", 4)

    def outside(self):
        return [self.unless_in("#i", "0..16777215")]

    def split(self):
        return [self.does("#r", "=", "#i"), self.does("#r", "%=", "#e2"), self.does("#i", "/=", "#e2")]

    def there(self):
        return self.fill("h_mem_there", "c v", [self.told(self.run(self.load_site("#c", "m mem[$(a0)]")))])

    def move(self, offset):
        """The page of the address becomes the window; an offset of 0 is none that counts."""
        back = [self.run(self.add("#i", -offset))] if offset else []
        forth = [self.run(self.add("#i", offset))] if offset else []
        stands = [self.unless_in("#c", 0)]
        return [
            self.does("#i", "*=", "#e2"), self.does("#i", "+=", "#r"), self.does("#i", "+=", "#mb"), *back,
            self.when(self.outside(), self.set_spot("#i", NO_OFFSET)), *forth, *self.split(),
            self.does("#p", "=", "#i"), self.does("#p", "/=", "#e14"), self.does("#i", "%=", "#e14"),
            self.clears(), self.tells("a0", "#p"), self.there(),
            self.when([self.if_in("#c", 0)], self.trap_is()), self.when(stands, self.keep_site("c q.p", "#p")),
            self.when(stands, self.combine("#mb", "=", "#p")), self.when(stands, self.combine("#mb", "*=", "#b2"))]

    def address(self, sure, place, offset):
        """`#i` and `#r` become place and byte of the address in the window; `sure` says that the memory has a page in
        any case."""
        if offset >= NO_OFFSET:
            return [self.run(self.trap_is()), self.stop([self.if_in("#t", "1..")])]
        told = 0 < offset <= MOST_NEAR
        least = (offset + 3) // 4 if told else 0
        empty = [f"unless data storage {self.site('m mem[0]')}"]
        return [
            *([] if sure else [self.when(empty, self.trap_is()), self.stop(empty)]),
            self.run(self.load_place("#i", place)),
            *([] if offset <= MOST_NEAR else [self.when(self.outside(), self.set_spot("#i", -33554432))]),
            self.does("#i", "-=", "#mb"), *([self.run(self.add("#i", offset))] if offset else []), *self.split(),
            self.call_when([self.unless_in("#i", f"{least}..16383")], f"h_mem_move_{offset}" if told else "h_mem_move",
                           self.move(offset if told else 0)),
            self.run(self.keep_site("c q.i", "#i"))]

    # Loads and stores

    def open(self, spot, operator, stem):
        return self.told(self.does(spot, operator, f"{stem}$(r)"))

    def window(self, spot):
        return self.told(self.run(self.load_site(spot, "m mem[$(p)][$(i)]")))

    def word(self):
        return self.fill("h_mem_word", "c q", [self.window("#u")])

    def next_word(self):
        """The word behind the one in the window, to `#d`."""
        over = [self.run(self.load_site("#p", "c q.p")), self.run(self.add("#p", 1)), self.tells("a0", "#p"),
                self.run(self.set_site("c v.a1", 0))]
        return self.call("h_mem_next", [
            self.does("#k", "=", "#i"), self.run(self.add("#k", 1)), self.clears(),
            self.run(self.copy_site("c v.a0", "c q.p")), self.tells("a1", "#k"),
            self.call_when([self.if_in("#k", 16384)], "h_mem_over", over), self.there(),
            self.when([self.if_in("#c", 0)], self.trap_is()),
            self.fill("h_mem_told", "c v", [self.told(self.run(self.load_site("#d", "m mem[$(a0)][$(a1)]")))])])

    def tell_byte(self):
        return self.run(self.keep_site("c q.r", "#r"))

    def load_word(self):
        glue = [self.open("#u", "/=", "#b"), self.open("#u", "%=", "#f"), self.open("#d", "*=", "#f"),
                self.does("#u", "+=", "#d")]
        return [self.word(), self.call_when([self.unless_in("#r", 0)], "h_mem_load32",
                                            [self.next_word(), self.tell_byte(), self.fill("h_mem_glue", "c q", glue)])]

    def load_part(self, name, lines):
        return [self.tell_byte(), self.fill(name, "c q", [self.window("#u"), *lines])]

    def load_over(self):
        return [self.word(), self.next_word(), self.does("#u", "/=", "#b3"), self.does("#u", "%=", "#b1"),
                self.does("#d", "%=", "#b1"), self.does("#d", "*=", "#b1"), self.does("#u", "+=", "#d")]

    def loaded(self, name):
        last = [self.if_in("#r", 3)]
        if name == "i32.load":
            return self.load_word()
        if name == "i32.load8_u":
            return self.load_part("h_mem_byte_u", [self.open("#u", "/=", "#b"), self.does("#u", "%=", "#b1")])
        if name == "i32.load8_s":
            return self.load_part("h_mem_byte_s", [self.open("#u", "*=", "#d"), self.does("#u", "/=", "#b3")])
        if name == "i32.load16_u":
            return [*self.load_part("h_mem_half_u", [self.open("#u", "/=", "#b"), self.does("#u", "%=", "#b2")]),
                    self.call_when(last, "h_mem_load16u", self.load_over())]
        return [*self.load_part("h_mem_half_s", [self.open("#u", "*=", "#c"), self.does("#u", "/=", "#b2")]),
                self.call_when(last, "h_mem_load16s",
                               [*self.load_over(), self.does_if("32768..", "#u", "#u", "-=", "#b2")])]

    def load(self, sure, name, place, offset, result):
        return [*self.address(sure, place, offset), *self.loaded(name), self.stop([self.if_in("#t", "1..")]),
                self.run(self.keep_place(result, "#u"))]

    def calm(self):
        return self.if_in("#t", 0)

    def writes(self):
        keep = [self.told(self.run(self.keep_site("m mem[$(p)][$(i)]", "#u")))]
        return self.fill_when([self.calm()], "h_mem_put_word", "c q", keep)

    def writes_next(self):
        keep = [self.told(self.run(self.keep_site("m mem[$(a0)][$(a1)]", "#d")))]
        return self.fill_when([self.calm()], "h_mem_put_told", "c v", keep)

    def store_word(self):
        put = self.told(self.when([self.calm(), self.if_in("#r", 0)], self.keep_site("m mem[$(p)][$(i)]", "#s")))
        spread = [self.open("#u", "%=", "#b"), self.does("#y", "=", "#s"), self.open("#y", "*=", "#b"),
                  self.does("#u", "+=", "#y"), self.does("#y", "=", "#d"), self.open("#y", "%=", "#b"),
                  self.does("#d", "-=", "#y"), self.open("#s", "/=", "#f"), self.open("#s", "%=", "#b"),
                  self.does("#d", "+=", "#s")]
        across = [self.word(), self.next_word(), self.tell_byte(), self.fill("h_mem_spread", "c q", spread),
                  self.writes_next(), self.writes()]
        return [self.fill("h_mem_put", "c q", [put]),
                self.call_when([self.unless_in("#r", 0)], "h_mem_store32", across)]

    def change(self, width):
        scale = f"#b{width}"
        return self.fill(f"h_mem_change{8 * width}", "c q", [
            self.window("#u"), self.does("#y", "=", "#u"), self.open("#y", "/=", "#b"), self.does("#y", "%=", scale),
            self.does("#z", "=", "#s"), self.does("#z", "%=", scale), self.does("#z", "-=", "#y"),
            self.open("#z", "*=", "#b"), self.does("#u", "+=", "#z")])

    def store_half(self):
        over = [("#y", "=", "#u"), ("#y", "/=", "#b3"), ("#y", "%=", "#b1"), ("#z", "=", "#s"), ("#z", "%=", "#b1"),
                ("#z", "-=", "#y"), ("#z", "*=", "#b3"), ("#u", "+=", "#z"), ("#y", "=", "#d"), ("#y", "%=", "#b1"),
                ("#d", "-=", "#y"), ("#s", "/=", "#b1"), ("#s", "%=", "#b1"), ("#d", "+=", "#s")]
        across = [self.word(), self.next_word(), *(self.does(*step) for step in over),
                  self.writes_next(), self.writes()]
        return [self.tell_byte(),
                self.call_when([self.unless_in("#r", 3)], "h_mem_store16", [self.change(2), self.writes()]),
                self.call_when([self.if_in("#r", 3)], "h_mem_store16_over", across)]

    def store(self, sure, name, place, offset, value):
        stores = {"i32.store": self.store_word, "i32.store16": self.store_half,
                  "i32.store8": lambda: [self.tell_byte(), self.change(1), self.writes()]}
        return [*self.address(sure, place, offset), self.run(self.load_place("#s", value)), *stores[name](),
                self.stop([self.if_in("#t", "1..")])]

    # Loads and stores at a known address

    @staticmethod
    def known_address(least, width, operand, offset):
        """The address of so many bytes, where the operand is known, they lie within so many pages, and no test is
        needed, or None."""
        if operand is None:
            return None
        address = operand + offset
        byte = address % 4
        whole = byte == 0 if width == 8 else byte + width <= 4
        return address if address < NO_OFFSET and address + width <= PAGE * least and whole else None

    @staticmethod
    def word_at(address):
        return f"m mem[{address // PAGE}][{address // 4 % 16384}]"

    def load_word_at(self, name, address, place):
        byte, site = address % 4, self.word_at(address)
        if name == "i32.load":
            return [self.run(self.site_to_place(place, site))]
        first, last = {"i32.load8_u": (("/=", byte), ("%=", 1)), "i32.load8_s": (("*=", 3 - byte), ("/=", 3)),
                       "i32.load16_u": (("/=", byte), ("%=", 2)), "i32.load16_s": (("*=", 2 - byte), ("/=", 2))}[name]
        return [self.run(self.load_site("#u", site)),
                *(self.does("#u", operator, f"#b{scale}") for operator, scale in (first, last)),
                self.run(self.keep_place(place, "#u"))]

    def store_word_at(self, name, address, place):
        byte, site = address % 4, self.word_at(address)
        if name == "i32.store":
            return [self.run(self.place_to_site(site, place))]
        steps = [("#y", "=", "#u"), ("#y", "/=", f"#b{byte}"), ("#y", "%=", f"#b{int(name[9:]) // 8}"),
                 ("#z", "=", "#s"), ("#z", "%=", f"#b{int(name[9:]) // 8}"), ("#z", "-=", "#y"),
                 ("#z", "*=", f"#b{byte}"), ("#u", "+=", "#z")]
        return [self.run(self.load_place("#s", place)), self.run(self.load_site("#u", site)),
                *(self.does(*step) for step in steps), self.run(self.keep_site(site, "#u"))]

    # Growing

    def grow(self, most, place):
        """The place gets the old number of pages, or -1, and `#g` how many are missing."""
        refused = self.set_spot("#c", -1)
        return [self.run(self.load_place("#g", place)), self.run(self.load_site("#c", "m mem")), self.sets("#d", most),
                self.does("#d", "-=", "#c"), self.when([self.if_in("#g", "..-1")], refused),
                self.when([self.if_so("#g", ">", "#d")], refused),
                self.when([self.if_in("#c", -1)], self.set_spot("#g", 0)), self.run(self.keep_place(place, "#c"))]

    # Filling and copying

    def reach(self, place, count):
        """A trap, where as many bytes from the address in a place on reach beyond the memory."""
        trap = self.trap_is()
        return [self.run(self.load_place("#a", place)), self.run(self.load_place("#d", count)),
                self.run(self.load_site("#c", "m mem")), self.does("#c", "*=", "#b2"),
                self.when([self.if_in("#a", "..-1")], trap), self.when([self.if_in("#d", "..-1")], trap),
                self.does("#c", "-=", "#a"), self.when([self.if_so("#d", ">", "#c")], trap),
                self.stop([self.if_in("#t", "1..")])]

    def adds(self, place, value):
        return [self.run(self.load_place("#a", place)), self.run(self.add("#a", value)),
                self.run(self.keep_place(place, "#a"))]

    def fill_byte(self, sure, to, byte, count):
        return [*self.store(sure, "i32.store8", to, 0, byte), *self.adds(to, 1), *self.adds(count, -1)]

    def copy_byte(self, sure, to, source, count):
        """The count's place has the byte for a while, and `x:c y` the count."""
        up, down = [self.if_so("#c", ">", "#d")], [self.if_so("#c", ">", "#d", "unless")]
        places = [self.run(self.load_place("#c", to)), self.run(self.load_place("#d", source))]
        keeps = [self.run(self.keep_place(to, "#c")), self.run(self.keep_place(source, "#d"))]
        toward = [self.run(self.load_place("#a", count)), self.run(self.add("#a", -1)),
                  self.run(self.keep_site("c y", "#a")), *places,
                  self.when(up, self.combine("#c", "+=", "#a")), self.when(up, self.combine("#d", "+=", "#a")), *keeps]
        onward = [self.run(self.load_site("#a", "c y")), *places, self.when(up, self.combine("#d", "-=", "#a")),
                  self.when(up, self.combine("#c", "-=", "#a")), self.when(down, self.add("#d", 1)),
                  self.when(down, self.add("#c", 1)), *keeps, self.run(self.keep_place(count, "#a"))]
        return [*toward, *self.load(sure, "i32.load8_u", source, 0, count),
                *self.store(sure, "i32.store8", to, 0, count), *onward]

    def memory_size(self, result):
        return [self.run(self.load_site("#a", "m mem")), self.run(self.keep_place(result, "#a"))]
