"""The routines for operations on i64, whose operands stand one behind the other from a place on, as their results
do."""
from .lines import SCORED_PLACES

LEAST = -2147483648
ORDERS = {"lt": ("<", "<"), "gt": (">", ">"), "le": ("<", "<="), "ge": (">", ">=")}
DIVIDEND, DIVISOR, REMAINDER, ORDER = ("#d", "#e"), ("#m", "#n"), ("#p", "#r"), ("#u", "#v")
NEXT_OFFSET, NO_OFFSET = 4, 16777216


class Pairs:
    # Sums, orders and extensions

    def pair_spots(self, a, names):
        """Where the lines take the halves from, and the lines that bring them there."""
        spots = [f"#{a + k}" if a + k < SCORED_PLACES else name for k, name in enumerate(names)]
        return spots, [self.run(self.load_place(name, a + k)) for k, name in enumerate(names) if a + k >= SCORED_PLACES]

    def back(self, a, names):
        return [self.run(self.keep_place(a + k, name)) for k, name in enumerate(names) if a + k >= SCORED_PLACES]

    def below_low(self, al, bl):
        """`#e` and `#f` compare with their signs as two low halves do without."""
        return [self.sets("#e", LEAST), self.does("#f", "=", bl), self.does("#f", "+=", "#e"),
                self.does("#e", "+=", al)]

    def either(self, first, second, x):
        return [self.sets("#f", 0), self.when(first, self.set_spot("#f", 1)), self.when(second, self.set_spot("#f", 1)),
                self.does(x, "=", "#f")]

    def pair_sum(self, al, ah, bl, bh):
        return [self.does(al, "+=", bl), self.does(ah, "+=", bh), *self.below_low(al, bl),
                self.when([self.if_so("#e", "<", "#f")], self.add(ah, 1))]

    def pair_difference(self, al, ah, bl, bh):
        return [*self.below_low(al, bl), self.when([self.if_so("#e", "<", "#f")], self.add(ah, -1)),
                self.does(al, "-=", bl), self.does(ah, "-=", bh)]

    def pair_agree(self, same, al, ah, bl, bh):
        both = [self.if_so(al, "=", bl), self.if_so(ah, "=", bh)]
        return [self.sets("#f", 1 - same), self.when(both, self.set_spot("#f", same)), self.does(al, "=", "#f")]

    def pair_order(self, name, al, ah, bl, bh):
        kind, _, sign = name.partition("_")
        high, low = ORDERS[kind]
        items, x, y = [self.sets("#e", LEAST)], ah, bh
        if sign == "u":
            items += [self.does("#g", "=", ah), self.does("#g", "+=", "#e"),
                      self.does("#h", "=", bh), self.does("#h", "+=", "#e")]
            x, y = "#g", "#h"
        items += [self.does(al, "+=", "#e"), self.does("#e", "+=", bl)]
        return items + self.either([self.if_so(x, high, y)], [self.if_so(ah, "=", bh), self.if_so(al, low, "#e")], al)

    def sign_behind(self, a):
        (spot,), brought = self.pair_spots(a, ["#a"])
        return [*brought, self.run(self.set_place(a + 1, 0)),
                self.when([self.if_in(spot, "..-1")], self.set_place(a + 1, -1))]

    def pair_zero(self, x, y):
        return [self.when([self.unless_in(x, 0)], self.set_spot(x, -1)),
                self.when([self.unless_in(y, 0)], self.set_spot(x, -1)), self.run(self.add(x, 1))]

    def signed_part(self, x, power):
        return [self.sets("#e", power), self.does(x, "%=", "#e"), self.does_if(f"{power // 2}..", x, x, "-=", "#e")]

    def pair_operation(self, name, a):
        """A sum, a difference or an order; none for any other operation."""
        cores = {"add": self.pair_sum, "sub": self.pair_difference, "eq": lambda *spots: self.pair_agree(1, *spots),
                 "ne": lambda *spots: self.pair_agree(0, *spots)}
        if name not in cores and name.partition("_")[0] not in ORDERS:
            return None
        spots, brought = self.pair_spots(a, ["#a", "#b", "#c", "#d"])
        core = cores.get(name) or (lambda *halves: self.pair_order(name, *halves))
        return [*brought, *core(*spots), *self.back(a, ["#a", "#b"] if name in ("add", "sub") else ["#a"])]

    # Bits

    def word_operation(self, name, a, b):
        """An operation of i32 on the places a and b, with its result in a."""
        if b is None:
            if name != "popcnt":
                return self.light(a, None, a, getattr(self, name))
            result, items = self.popcnt()
            return [self.run(self.load_place("#a", a)), *items, self.run(self.keep_place(a, result))]
        result, items = self.bitwise(name)
        return [self.run(self.load_place("#a", a)), self.run(self.load_place("#b", b)), *items,
                self.run(self.keep_place(a, result))]

    def two_loads(self, p, q):
        return [self.run(self.load_place("#a", p)), self.run(self.load_place("#b", q))]

    def small_result(self, a):
        return [self.run(self.keep_place(a, "#a")), self.run(self.set_place(a + 1, 0))]

    def zeros_of_pair(self, name, a):
        p, q = (a + 1, a) if name == "clz" else (a, a + 1)
        return [*self.two_loads(p, q), self.when([self.unless_in("#a", 0)], self.combine("#b", "=", "#a")),
                self.run(self.keep_place(a, "#b")), self.run(self.keep_place(a + 1, "#a")),
                *self.word_operation(name, a, None),
                *self.two_loads(a, a + 1), self.when([self.if_in("#b", 0)], self.add("#a", 32)), *self.small_result(a)]

    def by_word(self, name):
        """A count from 32 on: the halves change places, or one of them goes."""
        far = [self.if_in("#k", "32..")]
        if name == "shl":
            return [self.when(far, self.combine("#b", "=", "#a")), self.when(far, self.set_spot("#a", 0))]
        right = self.when(far, self.combine("#a", "=", "#b"))
        if name == "shr_u":
            return [right, self.when(far, self.set_spot("#b", 0))]
        if name == "shr_s":
            return [right, self.when([*far, self.if_in("#b", "0..")], self.set_spot("#b", 0)),
                    self.when([*far, self.if_in("#b", "..-1")], self.set_spot("#b", -1))]
        return [self.does("#c", "=", "#a"), right, self.when(far, self.combine("#b", "=", "#c"))]

    def without_sign(self, spot):
        return self.does_if("..-1", spot, spot, "-=", "#e31")

    def within_words(self, name):
        """By less than a word, with the two numbers of the count in `#p` and `#q`."""
        some = [self.if_in("#k", "1..")]
        if name == "shl":
            return [*self.half_without_sign(), self.does("#c", "/=", "#q"),
                    self.does("#a", "*=", "#p"), self.does("#b", "*=", "#p"),
                    self.when(some, self.combine("#b", "+=", "#c"))]
        both = [self.does("#c", "=", "#a"), self.does("#d", "=", "#b"), self.does("#c", "/=", "#e1"),
                self.does("#d", "/=", "#e1"), self.without_sign("#c")]
        both += [] if name == "shr_s" else [self.without_sign("#d")]
        both += [self.does("#c", "/=", "#q"), self.does("#d", "/=", "#q")]
        if name in ("shr_s", "shr_u"):
            return [*both, self.does("#b", "*=", "#p"), self.does("#c", "+=", "#b"),
                    self.when(some, self.combine("#a", "=", "#c")), self.when(some, self.combine("#b", "=", "#d"))]
        return [*both, self.does("#a", "*=", "#p"), self.does("#b", "*=", "#p"),
                self.when(some, self.combine("#a", "+=", "#d")), self.when(some, self.combine("#b", "+=", "#c"))]

    def pair_shift(self, name, a):
        right = name in ("shr_s", "shr_u")
        table, helper = ("rotr", "h_cc_bits64_right") if right else ("rotl", "h_cc_bits64_left")
        turned = [self.sets("#m", -1), self.does("#k", "*=", "#m")] if name == "rotr" else []
        return [*self.two_loads(a, a + 1), self.run(self.load_place("#k", a + 2)), *turned, self.sets("#m", 64),
                self.does("#k", "%=", "#m"), *self.by_word(name), self.does("#k", "%=", "#e5"), self.clears(),
                self.tells("k", "#k"), self.fill(helper, "c v", self.finds_row(table)), *self.within_words(name),
                self.run(self.keep_place(a, "#a")), self.run(self.keep_place(a + 1, "#b"))]

    # All but divisions

    def long_operation(self, name, a):
        """The operation on the operands from the place a on."""
        if name == "i32.wrap_i64":
            return []
        if name == "i64.extend_i32_u":
            return [self.run(self.set_place(a + 1, 0))]
        name = name[4:]
        if name in ("extend_i32_s", "extend32_s"):
            return self.sign_behind(a)
        if name in ("extend8_s", "extend16_s"):
            power = 256 if name == "extend8_s" else 65536
            return [*self.light(a, None, a, lambda x, _: self.signed_part(x, power)), *self.sign_behind(a)]
        if name == "eqz":
            return self.light(a, a + 1, a, self.pair_zero)
        if name in ("and", "or", "xor"):
            return [*self.word_operation(name, a, a + 2), *self.word_operation(name, a + 1, a + 3)]
        if name == "popcnt":
            words = [*self.word_operation(name, a, None), *self.word_operation(name, a + 1, None)]
            return [*words, *self.two_loads(a, a + 1), self.does("#a", "+=", "#b"), *self.small_result(a)]
        if name in ("clz", "ctz"):
            return self.zeros_of_pair(name, a)
        return self.pair_operation(name, a) or self.pair_shift(name, a)

    # Divisions

    def minus(self, conditions, name, low, high):
        return self.call_when(conditions, name, [
            self.sets("#f", -1), self.does(low, "*=", "#f"), self.does(high, "*=", "#f"),
            self.when([self.unless_in(low, 0)], self.add(high, -1))])

    def magnitudes(self, quotient):
        dividend, divisor = [self.if_in(DIVIDEND[1], "..-1")], [self.if_in(DIVISOR[1], "..-1")]
        more = [self.when(divisor, self.add("#s", 1))] if quotient else []
        return [self.sets("#s", 0), self.when(dividend, self.set_spot("#s", 1)), *more,
                self.minus(dividend, "h_cc_div_minus", *DIVIDEND), self.minus(divisor, "h_cc_div_minus_by", *DIVISOR)]

    def overflow(self):
        least = [self.if_in(DIVIDEND[0], 0), self.if_in(DIVIDEND[1], LEAST)]
        return [self.sets("#c", 0), self.when([self.if_in(half, -1) for half in DIVISOR], self.set_spot("#c", 1)),
                self.when(least, self.add("#c", 1)), *self.trap_when([self.if_in("#c", 2)], 3)]

    def divide_word(self, x):
        low = DIVISOR[0]
        return [self.does("#p", "=", "#c"), self.does("#p", "%=", low), self.does("#c", "/=", low),
                self.does("#c", "*=", "#h"), self.does(x, "%=", "#h"), self.does("#p", "*=", "#h"),
                self.does(x, "+=", "#p"), self.does("#p", "=", x), self.does("#p", "%=", low), self.does(x, "/=", low),
                self.does(x, "+=", "#c")]

    def small_division(self):
        def upper(x):
            return [self.does("#c", "=", x), self.does("#c", "/=", "#h"), self.does("#c", "%=", "#h")]

        return [self.sets("#g", 0), self.sets("#h", 65536), *upper(DIVIDEND[1]), *self.divide_word(DIVIDEND[1]),
                *upper(DIVIDEND[0]), self.does("#p", "*=", "#h"), self.does("#c", "+=", "#p"),
                *self.divide_word(DIVIDEND[0])]

    def prepare_division(self):
        (low, high), (dividend_low, dividend_high) = DIVISOR, DIVIDEND
        small = [self.if_in(high, 0), self.if_in(low, "1..32767")]
        short = [self.if_in("#g", 8), self.if_in(dividend_high, 0)]
        return [self.sets("#k", LEAST), self.does(ORDER[0], "=", low), self.does(ORDER[0], "+=", "#k"),
                self.does(ORDER[1], "=", high), self.does(ORDER[1], "+=", "#k"),
                self.sets(REMAINDER[0], 0), self.sets(REMAINDER[1], 0), self.sets("#g", 8),
                self.call_when(small, "h_cc_div_small", self.small_division()),
                self.call_when(short, "h_cc_div_short", [
                    self.sets("#g", 4), self.does(dividend_high, "=", dividend_low), self.sets(dividend_low, 0)])]

    def begin_division(self, name, a):
        spots = [*DIVIDEND, *DIVISOR]
        items = [self.run(self.load_place(spot, a + k)) for k, spot in enumerate(spots)]
        items += self.trap_when([self.if_in(half, 0) for half in DIVISOR], 2)
        if name == "i64.div_s":
            items += [*self.overflow(), *self.magnitudes(True)]
        elif name == "i64.rem_s":
            items += self.magnitudes(False)
        return items + self.prepare_division()

    def turns_of_division(self):
        (low, high), (rest_low, rest_high) = DIVIDEND, REMAINDER
        turn = [self.sets("#c", 0), self.when([self.if_in(rest_high, "..-1")], self.set_spot("#c", 1)),
                self.does(rest_high, "+=", rest_high),
                self.when([self.if_in(rest_low, "..-1")], self.add(rest_high, 1)),
                self.does(rest_low, "+=", rest_low), self.when([self.if_in(high, "..-1")], self.add(rest_low, 1)),
                self.does(high, "+=", high), self.when([self.if_in(low, "..-1")], self.add(high, 1)),
                self.does(low, "+=", low), self.does("#x", "=", rest_low), self.does("#x", "+=", "#k"),
                self.does("#y", "=", rest_high), self.does("#y", "+=", "#k"),
                self.when([self.if_so("#y", ">", ORDER[1])], self.set_spot("#c", 1)),
                self.when([self.if_so("#y", "=", ORDER[1]), self.if_so("#x", ">=", ORDER[0])], self.set_spot("#c", 1))]
        take = [self.when([self.if_so("#x", "<", ORDER[0])], self.add(rest_high, -1)),
                self.does(rest_low, "-=", DIVISOR[0]), self.does(rest_high, "-=", DIVISOR[1]),
                self.run(self.add(low, 1))]
        turn.append(self.call_when([self.if_in("#c", 1)], "h_cc_div_take", take))
        return [*(self.call("h_cc_div_turn", turn) for _ in range(8)), self.run(self.add("#g", -1))]

    def end_division(self, name, a):
        negated = [self.minus([self.if_in("#s", 1)], "h_cc_div_minus", *DIVIDEND)] if name.endswith("_s") else []
        spots, before = DIVIDEND, []
        if name == "i64.rem_u":
            spots = REMAINDER
        elif name == "i64.rem_s":
            before = [self.does(half, "=", rest) for half, rest in zip(DIVIDEND, REMAINDER)]
        return [*before, *negated, *(self.run(self.keep_place(a + k, spot)) for k, spot in enumerate(spots))]

    # Accesses

    def next_offset(self, offset):
        return offset if offset >= NO_OFFSET else offset + NEXT_OFFSET

    def load_halves(self, name, a, word):
        """The result comes to the places from a on; `word` makes the load of an i32, from 4 bytes further on or not, to
        a place."""
        if name[:4] == "i32.":
            return word(name, 0, a)
        if name == "i64.load":
            return [*word("i32.load", 4, a + 1), *word("i32.load", 0, a)]
        items = word("i32.load" if "32" in name[4:] else "i32" + name[3:], 0, a)
        if name.endswith("_u"):
            return [*items, self.run(self.set_place(a + 1, 0))]
        return [*items, self.run(self.load_place("#u", a)), self.run(self.set_place(a + 1, 0)),
                self.when([self.if_in("#u", "..-1")], self.set_place(a + 1, -1))]

    def store_halves(self, name, v, word):
        """The value is in the places from v on; `word` makes the store of an i32, to 4 bytes further on or not, from a
        place."""
        if name[:4] == "i32.":
            return word(name, 0, v)
        if name == "i64.store":
            return [*word("i32.store", 4, v + 1), *word("i32.store", 0, v)]
        return word("i32.store" if name == "i64.store32" else "i32" + name[3:], 0, v)

    def load_any(self, sure, name, a, offset):
        """The address is in the place a, from which on the result comes."""
        return self.load_halves(name, a, lambda word, further, place: self.load(
            sure, word, a, self.next_offset(offset) if further else offset, place))

    def store_any(self, sure, name, a, offset):
        """The address is in the place a, and the value in the next ones."""
        return self.store_halves(name, a + 1, lambda word, further, place: self.store(
            sure, word, a, self.next_offset(offset) if further else offset, place))

    def load_known(self, name, a, address):
        return self.load_halves(name, a, lambda word, further, place: self.load_word_at(word, address + further, place))

    def store_known(self, name, a, address):
        return self.store_halves(name, a + 1, lambda word, further, place: self.store_word_at(
            word, address + further, place))
