"""Random models of Chi 3 of many forms: processes that meet, wait, start others and end, with the values and loops in between.

`Model(random.Random(n)).source()` is one of them, and always the same for n. Nearly all are programs that break no rule. Whether they
fault, wait for ever or never end is left to chance.
"""
from random_values import VALUES, Home, Values

CONSTANTS = "const int limit = 5;\nconst list int table = [4, 1, 3];\nconst real pace = 0.5\n"
TYPES = "enum colour = {red, green, blue};\ntype lot = tuple(int id; real born)\n"
LESS = "func bool less(int a; int b):\n  return a < b\nend\n"
CARRIED = ["int", "void", "lot", "string", "list int", "chan int", "bool"]
WIDTHS = {"int": ["%d", "%4d", "%-3d|", "%s"], "real": ["%s", "%.2f", "%8.3f", "%f"]}
DISTS = {
    "int": ["constant(2)", "uniform(0, 4)", "binomial(3, 0.5)"],
    "real": ["uniform(0.0, 2.0)", "exponential(1.5)", "constant(0.25)"],
    "bool": ["bernoulli(0.5)"],
}


class Function:
    def __init__(self, name, parameters, result):
        self.name, self.parameters, self.result = name, parameters, result


class Process:
    """A process with its parameters: each a name, what it is (value, channel, list, dist) and of which type, and for a channel its ways."""

    def __init__(self, name, parameters, exit_type):
        self.name, self.parameters, self.exit_type = name, parameters, exit_type


class Model(Values):
    """A model, written as it is made."""

    def __init__(self, chance):
        super().__init__(chance)
        self.exit_type = chance.choice([None, "int"])
        self.carried = chance.sample(CARRIED, 2)  # by its channels, mostly
        self.functions, self.processes = [], []

    # Statements

    def block(self, size, depth, margin):
        """Statements of a block, each line so far in. What it declares is gone behind it."""
        home = self.home
        kept = list(home.variables), list(home.channels), list(home.lists)
        lines = ";\n".join(self.statement(depth, margin) for _ in range(self.chance.randint(1, size)))
        home.variables, home.channels, home.lists = kept
        return lines

    def statement(self, depth, margin):
        home, runs = self.home, not self.home.is_function
        deep = 1 if depth else 0
        text = self.one(
            2, self.declared,
            5, self.assigned,
            3 * deep, lambda: self.branched(depth, margin),
            3 * deep, lambda: self.looped(depth, margin),
            0.7 if home.loops else 0, lambda: f"if {self.value('bool')}: {self.some(['break', 'continue'])} end",
            0.3, lambda: "pass",
            1 if home.is_function else 0, lambda: f"if {self.value('bool')}: return {self.value(home.exit_type)} end",
            4 if runs else 0, self.written,
            3 if runs else 0, self.delayed,
            7 if runs else 0, self.met,
            5 * deep if runs else 0, lambda: self.selected(depth, margin),
            3 if runs and home.starts else 0, self.started,
            2 if runs and self.named("inst") else 0, lambda: f"finish {self.some(self.named('inst'))}",
            0.15 if runs else 0, self.exited,
        )
        return margin + text

    def declared(self):
        home, name = self.home, self.fresh("v")
        if not home.is_function and self.may(0.4):
            return self.declared_other(name)
        of = self.some(VALUES)
        text = f"{of} {name} = {self.value(of)}" if self.may(0.7) else f"{of} {name}"
        home.variables.append((name, of))
        return text

    def declared_other(self, name):
        """A channel, a list of channels, a timer, a distribution or an instance."""
        home = self.home
        kind = self.some(["chan", "chan", "list", "timer", "dist", "inst"])
        if kind == "chan":
            of = self.some(self.carried)
            home.channels.append((name, of, ""))
            return f"chan {of} {name}"
        if kind == "list":
            home.lists.append((name, "int"))
            return f"list(3) chan int {name}"
        if kind == "timer":
            text = f"timer {name} = timer({self.value('real')})"
        elif kind == "dist":
            of = self.some(list(DISTS))
            text, kind = f"dist {of} {name} = {self.some(DISTS[of])}", f"dist {of}"
        else:
            text = f"inst {name}"
        home.variables.append((name, kind))
        return text

    def assigned(self):
        of = self.some(VALUES)
        names = [name for name in self.named(of) if name[0] != "u"]
        if not names:
            return self.declared()
        name = self.some(names)
        if of == "list int" and self.may(0.4):
            return f"if size({name}) > 0: {name}[{self.value('int')} mod size({name})] = {self.value('int')} end"
        if of == "dict(int: int)" and self.may(0.6):
            return f"{name}[{self.value('int')} mod 4] = {self.value('int')}"
        if of == "lot" and self.may(0.5):
            part = self.some(["id", "born"])
            return f"{name}.{part} = {self.value('int' if part == 'id' else 'real')}"
        if len(names) > 1 and self.may(0.2):
            pair = self.chance.sample(names, 2)
            return f"{pair[0]}, {pair[1]} = {self.value(of)}, {self.value(of)}"
        return f"{name} = {self.value(of)}"

    def branched(self, depth, margin):
        text = f"if {self.value('bool')}:\n{self.block(2, depth - 1, margin + '  ')}\n"
        if self.may(0.3):
            text += f"{margin}elif {self.value('bool')}:\n{self.block(2, depth - 1, margin + '  ')}\n"
        if self.may(0.5):
            text += f"{margin}else:\n{self.block(2, depth - 1, margin + '  ')}\n"
        return text + f"{margin}end"

    def looped(self, depth, margin):
        home, inner = self.home, margin + "  "
        kept, name = list(home.variables), self.fresh("i")
        counted = ""
        form = self.chance.randrange(4)
        if form == 0:
            head = f"for {name} in {self.some(['range(3)', 'table', self.value('list int')])}"
            home.variables.append((name, "int"))
        elif form == 1:
            other = self.fresh("i")
            head = f"for {name}, {other} in {self.value('dict(int: int)')}"
            home.variables += [(name, "int"), (other, "int")]
        elif form == 2 or home.is_function:
            head, counted = f"while {name} < {self.chance.randint(2, 4)}", f"{inner}{name} = {name} + 1;\n"
        else:
            head, counted = "while true", f"{inner}delay {self.some(['1', 'pace', '2.0'])};\n"
        home.loops += 1
        body = self.block(3, depth - 1, inner)
        home.loops -= 1
        home.variables = kept
        before = f"int {name};\n{margin}" if counted and head != "while true" else ""
        return f"{before}{head}:\n{counted}{body}\n{margin}end"

    def written(self):
        of = [self.some(VALUES) for _ in range(self.chance.randint(0, 2))]
        pieces = " ".join(self.some(WIDTHS.get(t, ["%s", "%-6s|"])) for t in of)
        values = "".join(f", {self.value(t)}" for t in of)
        return f'{self.some(["write", "writeln"])}("{self.some(["", "x ", "100%% "])}{pieces}"{values})'

    def delayed(self):
        timers, dists = self.named("timer"), self.named("dist real")
        return "delay " + self.one(
            2, lambda: self.some(["0", "1", "2", "0.5", "pace"]),
            1, lambda: f"abs({self.value('real')})",
            0.1, lambda: self.value("real"),
            1 if timers else 0, lambda: self.some(timers),
            2 if dists else 0, lambda: f"(sample {self.some(dists)})",
        )

    def met(self):
        return self.communication() or self.delayed()

    def communication(self, channel=None):
        """A send or a receive, where there is a channel for it."""
        if channel is None:
            shared = [channel for channel in self.home.channels if channel[0][0] == "p"]
            lists = self.home.lists if self.may(0.1) else [one for one in self.home.lists if one[0][0] == "p"]
            if lists and self.may(0.3):
                name, of = self.some(lists)
                channel = f"{name}[{self.value('int')} mod 3]", of, ""
            elif shared and self.may(0.9):
                channel = self.some(shared)
            elif self.home.channels and self.may(0.2):
                channel = self.some(self.home.channels)
            else:
                return None
        name, of, ways = channel
        if ways == "!" or ways == "" and self.may(0.5):
            return f"{name}!" if of == "void" else f"{name}!{self.value(of)}"
        if of == "void":
            return f"{name}?"
        names = [v for v, its in self.home.variables if its == of and v[0] != "u"]
        if of == "chan int":
            names = [v for v, its, ways in self.home.channels if its == "int" and ways == "" and v[0] == "v"]
        return f"{name}?{self.some(names)}" if names else None

    def selected(self, depth, margin):
        texts = [self.alternative(depth, margin) for _ in range(self.chance.randint(1, 4))]
        return "select " + f"\n{margin}alt ".join(text for text in texts) + f"\n{margin}end"

    def alternative(self, depth, margin):
        home, inner = self.home, margin + "  "
        if home.lists and self.may(0.25):
            name, of = self.some(home.lists)
            index, kept = self.fresh("u"), list(home.variables)
            home.variables.append((index, "int"))
            comm = self.communication((f"{name}[{index}]", of, "")) or "delay 1.0"
            guard = f"{self.value('bool')}, " if self.may(0.4) else ""
            body = self.block(2, depth - 1, inner)
            home.variables = kept
            return f"unwind {index} in range(3): {guard}{comm}:\n{body}\n{margin}end"
        comm = (self.communication() if self.may(0.75) else None) or self.delayed()
        guard = f"{self.value('bool')}, " if self.may(0.4) else ""
        body = f":\n{self.block(2, depth - 1, inner)}" if self.may(0.8) else ""
        return f"{guard}{comm}{body}"

    def started(self):
        elements = [self.element() for _ in range(self.chance.randint(1, 2))]
        return f"{self.some(['run', 'start'])} {', '.join(elements)}"

    def element(self):
        process = self.some(self.home.starts)
        if self.may(0.3):
            index, kept = self.fresh("u"), list(self.home.variables)
            self.home.variables.append((index, "int"))
            made = f"unwind {index} in {self.some(['range(2)', 'table'])}: {self.made(process)} end"
            self.home.variables = kept
            return made
        targets = self.named("inst")
        return f"{self.some(targets)} = {self.made(process)}" if targets and self.may(0.5) else self.made(process)

    def made(self, process):
        return f"{process.name}({', '.join(self.argument(*parameter) for parameter in process.parameters)})"

    def argument(self, name, kind, of, ways):
        if kind == "value":
            return self.value(of)
        if kind == "dist":
            return self.some(DISTS[of])
        if kind == "list":
            return self.some([name for name, _ in self.home.lists] or ["spares"])
        fits = [name for name, its, has in self.home.channels if its == of and (has == "" or has == ways)]
        shared = [name for name in fits if name[0] == "p"]
        return self.some(shared if shared and self.may(0.9) else fits or [f"new_{self.carried.index(of)}"])

    def exited(self):
        return f"exit {self.value('int')}" if self.home.exit_type == "int" else "exit"

    # Definitions

    def function(self):
        name, result = self.fresh("f"), self.some(["int", "int", "real", "list int"])
        parameters = [self.some(["int", "int", "list int"]) for _ in range(self.chance.randint(1, 2))]
        names = [self.fresh("p") for _ in parameters]
        self.home = Home(is_function=True, exit_type=result, calls=self.functions)
        self.home.variables = list(zip(names, parameters))
        body = self.block(4, 2, "  ") + ";\n"
        ints = [p for p, of in self.home.variables if of == "int"]
        if result == "int" and ints and self.may(0.4):
            again = ", ".join(f"{p} - 1" if p == ints[0] else p for p in names)
            body += f"  if {ints[0]} > 0: return {name}({again}) + 1 end;\n"
        made = Function(name, parameters, result)
        text = f"func {result} {name}({'; '.join(f'{of} {p}' for p, of in zip(names, parameters))}):\n{body}  return {self.value(result)}\nend\n"
        self.functions.append(made)
        return text

    def process(self):
        """A process that may start those before it. One without a channel comes to its end sooner."""
        name, parameters = self.fresh("P"), []
        for _ in range(self.chance.choice([0, 1, 1, 2, 2, 3])):
            parameters.append((self.fresh("p"), "chan", self.some(self.carried), self.some(["", "", "!", "?"])))
        if self.may(0.3):
            parameters.append((self.fresh("p"), "list", "int", ""))
        if self.may(0.5):
            parameters.append((self.fresh("p"), "value", self.some(VALUES), ""))
        if self.may(0.4):
            parameters.append((self.fresh("p"), "dist", self.some(list(DISTS)), ""))
        exit_type = self.exit_type if self.may(0.3) else None
        self.set_home(parameters, exit_type, self.processes if self.may(0.4) else [])
        text = f"proc {exit_type + ' ' if exit_type else ''}{name}({'; '.join(self.formal(*p) for p in parameters)}):\n{self.body(5, 3)}\nend\n"
        self.processes.append(Process(name, parameters, exit_type))
        return text

    def set_home(self, parameters, exit_type, starts):
        starts = [process for process in starts if process.exit_type in (None, exit_type)]
        self.home = home = Home(exit_type=exit_type, calls=self.functions, starts=starts)
        for name, kind, of, ways in parameters:
            if kind == "value":
                home.variables.append((name, of))
            elif kind == "dist":
                home.variables.append((name, f"dist {of}"))
            elif kind == "list":
                home.lists.append((name, of))
            else:
                home.channels.append((name, of, ways))

    def formal(self, name, kind, of, ways):
        return {"value": f"{of} {name}", "dist": f"dist {of} {name}", "list": f"list chan int {name}", "chan": f"chan{ways} {of} {name}"}[kind]

    def body(self, size, depth):
        """A body that has a variable for what its channels carry, and channels for what it starts."""
        lines = self.own_channels()
        for of in {"int": 0, **{of: 0 for _, of, _ in self.home.channels}}:
            if of == "chan int":
                lines.append(f"  chan int {self.fresh('v')}")
                self.home.channels.append((lines[-1].split()[-1], "int", ""))
            elif of != "void":
                lines.append(f"  {of} {self.declare(of)}")
        lines += [self.statement(depth, "  ") for _ in range(self.chance.randint(1, size))]
        if self.may(0.8) and any(name[0] == "p" for name, *_ in self.home.channels):
            lines.append(self.served(depth))
        return ";\n".join(lines)

    def own_channels(self):
        """Channels of a body that are given to what it starts where nothing else fits."""
        names = [f"  chan {of} new_{number}" for number, of in enumerate(self.carried)] if self.home.starts else []
        return [*names, "  chan int spare", "  list(3) chan int spares"]

    def served(self, depth):
        """A loop around meetings."""
        head = self.some(["while true", "while true", f"for {self.fresh('i')} in range(4)"])
        self.home.loops += 1
        lines = [f"    {self.one(2, self.met, 2, lambda: self.selected(depth - 1, '    '))}"]
        lines += [self.statement(depth - 1, "    ") for _ in range(self.chance.randint(0, 2))]
        self.home.loops -= 1
        return f"  {head}:\n" + ";\n".join(lines) + "\n  end"

    def declare(self, of):
        name = self.fresh("v")
        self.home.variables.append((name, of))
        return name

    def source(self):
        parts = [TYPES, CONSTANTS, LESS]
        parts += [self.function() for _ in range(self.chance.randint(0, 2))]
        parts += [self.process() for _ in range(self.chance.randint(1, 4))]
        self.set_home([], self.exit_type, self.processes)
        lines = self.own_channels()
        for of in self.carried:
            for _ in range(self.chance.choice([1, 1, 2])):
                lines.append(f"  chan {of} {self.fresh('p')}")
                self.home.channels.append((lines[-1].split()[-1], of, ""))
        if self.processes:
            lines.append("  start " + ", ".join(self.element() for _ in range(self.chance.randint(2, 5))))
        lines += [self.statement(3, "  ") for _ in range(self.chance.randint(1, 4))]
        exit_type = f"{self.exit_type} " if self.exit_type else ""
        parts.append(f"model {exit_type}M():\n" + ";\n".join(lines) + "\nend\n")
        return "\n".join(parts)
