"""Random values for random_models.py: expressions of each type, over what a definition has."""
VALUES = ["int", "int", "int", "bool", "real", "string", "list int", "set int", "dict(int: int)", "lot", "colour"]


class Home:
    """What a definition has: its variables by type, its channels with what they carry and their ways, and what it may do."""

    def __init__(self, is_function=False, exit_type=None, calls=(), starts=()):
        self.variables, self.channels, self.lists = [], [], []
        self.is_function, self.exit_type = is_function, exit_type
        self.calls, self.starts = list(calls), list(starts)
        self.loops = 0


class Values:
    """By chance: names, and expressions of each type."""

    def __init__(self, chance):
        self.chance, self.count, self.home = chance, 0, Home()

    # Names and choices

    def fresh(self, letter):
        self.count += 1
        return f"{letter}{self.count}"

    def may(self, share):
        return self.chance.random() < share

    def one(self, *choices):
        """One of some calls, each of them with its weight before it; a weight of 0 rules it out."""
        weights, calls = choices[::2], choices[1::2]
        return self.chance.choices(calls, weights)[0]()

    def named(self, wanted):
        return [name for name, of in self.home.variables if of == wanted]

    def some(self, names):
        return self.chance.choice(names)

    # Expressions

    def value(self, of, depth=2):
        """An expression of a type."""
        names = self.named(of)
        if names and self.may(0.4 if depth else 0.7):
            return self.some(names)
        form = {
            "int": self.int_of, "bool": self.bool_of, "real": self.real_of, "string": self.string_of, "list int": self.list_of,
            "set int": self.set_of, "dict(int: int)": self.dict_of, "lot": self.lot_of, "colour": self.colour_of, "chan int": self.channel_of,
        }[of]
        return form(depth - 1 if depth else 0, depth == 0)

    def int_of(self, depth, leaf):
        number = str(self.chance.choice([0, 1, 2, 3, 5, 9])) if self.may(0.8) else self.some(["limit", "(-2)", "(-1)"])
        if leaf:
            return number
        a, b = self.value("int", depth), self.value("int", depth)
        lists, lots, dicts, dists = self.named("list int"), self.named("lot"), self.named("dict(int: int)"), self.named("dist int")
        calls = [f for f in self.home.calls if f.result == "int"]
        return self.one(
            4, lambda: number,
            6, lambda: f"({a} {self.some(['+', '-', '+', '-', '*'])} {b})",
            3, lambda: f"({a} {self.some(['mod', 'div'])} {self.some(['2', '3', '7', '(-3)'])})",
            0.1, lambda: f"({a} {self.some(['mod', 'div'])} {b})",
            1, lambda: f"{self.some(['abs', 'sign'])}({a})",
            1, lambda: f"{self.some(['min', 'max'])}({a}, {b})",
            1, lambda: f"{self.some(['floor', 'ceil', 'round'])}({self.value('real', depth)})",
            2, lambda: f"size({self.value(self.some(['list int', 'set int', 'string', 'dict(int: int)']), depth)})",
            1, lambda: f"table[{a} mod 3]",
            0.3 if lists else 0, lambda: f"{self.some(lists)}[{a}]",
            0.3 if dicts else 0, lambda: f"{self.some(dicts)}[{a}]",
            2 if lots else 0, lambda: f"{self.some(lots)}.id",
            4 if dists else 0, lambda: f"(sample {self.some(dists)})",
            4 if calls else 0, lambda: self.call(self.some(calls), depth),
        )

    def call(self, function, depth):
        return f"{function.name}({', '.join(f'({self.value(of, depth)} mod 6)' if of == 'int' else self.value(of, depth) for of in function.parameters)})"

    def bool_of(self, depth, leaf):
        if leaf:
            return self.some(["true", "false"])
        of = self.some(["int", "int", "real", "string", "colour"])
        a, b = self.value(of, depth), self.value(of, depth)
        timers, instances, dists = self.named("timer"), self.named("inst"), self.named("dist bool")
        return self.one(
            6, lambda: f"({a} {self.some(['<', '<=', '==', '!=', '>', '>='])} {b})",
            2, lambda: f"({self.value('bool', depth)} {self.some(['and', 'or'])} {self.value('bool', depth)})",
            1, lambda: f"(not {self.value('bool', depth)})",
            1, lambda: f"({self.value('int', depth)} in {self.value(self.some(['list int', 'set int', 'dict(int: int)']), depth)})",
            1, lambda: f"({self.value('set int', depth)} sub {self.value('set int', depth)})",
            1, lambda: f"empty({self.value(self.some(['list int', 'set int']), depth)})",
            2 if timers else 0, lambda: f"ready({self.some(timers)})",
            2 if instances else 0, lambda: f"finished({self.some(instances)})",
            3 if dists else 0, lambda: f"(sample {self.some(dists)})",
        )

    def real_of(self, depth, leaf):
        number = self.some(["0.0", "0.5", "1.0", "2.25", "pace"])
        if leaf:
            return number
        a, b = self.value("real", depth), self.value("real", depth)
        lots, dists, timers = self.named("lot"), self.named("dist real"), self.named("timer")
        calls = [f for f in self.home.calls if f.result == "real"]
        return self.one(
            3, lambda: number,
            3, lambda: f"({a} {self.some(['+', '-', '*'])} {b})",
            1, lambda: f"({a} / {self.some(['2.0', '3', '(-4)'])})",
            1, lambda: f"real({self.value('int', depth)})",
            1 if lots else 0, lambda: f"{self.some(lots)}.born",
            3 if not self.home.is_function else 0, lambda: "time",
            3 if dists else 0, lambda: f"(sample {self.some(dists)})",
            2 if timers else 0, lambda: f"real({self.some(timers)})",
            2 if calls else 0, lambda: self.call(self.some(calls), depth),
        )

    def string_of(self, depth, leaf):
        text = self.some(['""', '"a"', '"bc"', '"d\\n"', '"\\"e"'])
        if leaf:
            return text
        return self.one(
            2, lambda: text,
            2, lambda: f"({self.value('string', depth)} + {text})",
            2, lambda: f"string({self.value(self.some(VALUES), depth)})",
        )

    def list_of(self, depth, leaf):
        if leaf:
            return self.some(["<int>[]", "[1]", "[2, 0, 7]", "table"])
        xs, a, b = self.value("list int", depth), self.value("int", depth), self.value("int", depth)
        calls = [f for f in self.home.calls if f.result == "list int"]
        return self.one(
            3, lambda: f"({xs} + [{a}])",
            2, lambda: f"[{a}, {b}]",
            1, lambda: f"range({a} mod 5)",
            1, lambda: f"({xs})[{a}:{b}]",
            1, lambda: f"({xs})[1:]",
            2, lambda: f"insert({xs}, {a}, less)",
            1, lambda: f"dict_keys({self.value('dict(int: int)', depth)})",
            2 if calls else 0, lambda: self.call(self.some(calls), depth),
        )

    def set_of(self, depth, leaf):
        if leaf:
            return self.some(["<int>{}", "{1, 3}"])
        return f"({self.value('set int', depth)} {self.some(['+', '-', '*'])} {{{self.value('int', depth)}, {self.value('int', depth)}}})"

    def dict_of(self, depth, leaf):
        if leaf:
            return self.some(["<int: int>{}", "{1: 2}"])
        return self.one(
            2, lambda: f"({self.value('dict(int: int)', depth)} + {{{self.value('int', depth)}: {self.value('int', depth)}}})",
            1, lambda: f"({self.value('dict(int: int)', depth)} - {{{self.value('int', depth)}}})",
        )

    def lot_of(self, depth, leaf):
        return f"({self.value('int', depth)}, {self.value('real', depth)})"

    def colour_of(self, depth, leaf):
        return self.some(["red", "green", "blue"])

    def channel_of(self, depth, leaf):
        return self.some([name for name, of, ways in self.home.channels if of == "int" and ways == ""] or ["spare"])
