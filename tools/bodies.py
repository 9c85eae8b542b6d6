"""The bodies of a job as functions of Python, for the tools beside this file.

The body of each task, loop and `main` becomes the text of one function, which `running.py` calls once for each task of a run: numbers
are `n_NAME`, objects `o_NAME`, the elements of object o are `R[o]`, and `k` counts the steps."""
from reading import NotRun, Reader

STEPS = 4_194_304
OPERATORS = {"+": "(({})+({}))&M", "-": "(({})-({}))&M", "*": "(({})*({}))&M", "/": "({})//({})", "%": "({})%({})"}
OPERATORS |= {"satadd": "min(({})+({}),M)", "min": "min({},{})", "max": "max({},{})"}
OPERATORS |= {"and": "({})&({})", "or": "({})|({})", "xor": "({})^({})", "add": "(({})+({}))&M"}
OPERATORS |= {sign: "+(({})" + sign + "({}))" for sign in ("==", "!=", "<", "<=", ">", ">=")}


class Bodies(Reader):
    """A reader that reads bodies too."""

    def block(self, names, pad, out):
        names = dict(names)
        while not self.skips("}"):
            line, word = self.line(), self.tokens[self.at][0]
            out.append(f"{pad}k += 1")
            if word == "fork":
                self.fork(names, pad, out, line)
            elif word == "if":
                self.at += 1
                out.append(f"{pad}if {self.expr(names)}:")
                self.take("{")
                self.block(names, pad + " ", out)
                if self.skips("else"):
                    out.append(f"{pad}else:")
                    self.take("{")
                    self.block(names, pad + " ", out)
            elif word == "for":
                self.at += 1
                name = self.take()
                self.take("in")
                first = self.expr(names)
                self.take("..")
                out.append(f"{pad}for n_{name} in range({first}, {self.expr(names)}):")
                out.append(f"{pad} if k >= {STEPS}: raise Fault('F6')")
                out.append(f"{pad} k += 1")
                self.take("{")
                self.block(names | {name: "int"}, pad + " ", out)
            else:
                new = self.skips("let")
                name = self.take()
                target = f"n_{name}" if new or names.get(name) == "int" else f"R[o_{name}]"
                if self.skips("["):
                    target += f"[{self.expr(names)}]"
                    self.take("]")
                op = self.take() if not self.sees("=") else None
                self.take("=")
                value = self.expr(names)
                out.append(f"{pad}{target} = {OPERATORS[op].format(target, value) if op else value}")
                self.take(";")
                if new:
                    names[name] = "int"
        out.append(f"{pad}pass")

    def fork(self, names, pad, out, line):
        self.take("fork")
        name = self.take()
        if name not in self.tasks:
            raise NotRun(f"line {line}: no task, loop or kernel has the name `{name}`")
        index, params, _ = self.tasks[name]
        self.take("(")
        length = "None"
        if index is not None:
            length = self.expr(names)
            self.take(";")
        wanted = iter(params + [("", "none", "", False)] * 17)
        given = self.several(lambda: self.argument(names, next(wanted)), ")")
        self.take(";")
        if len(given) != len(params):
            raise NotRun(f"line {line}: `{name}` has {len(params)} parameters")
        out.append(f"{pad}fork({name!r}, {line}, k, {length}, [{', '.join(given)}])")

    def argument(self, names, param):
        if param[1] == "int":
            return self.expr(names)
        name = self.take()
        if names.get(name) not in ("one", "many"):
            raise NotRun(f"line {self.line()}: `{name}` is no object here")
        if not self.skips("["):
            return f"o_{name}"
        first = self.expr(names)
        if self.skips(".."):
            last = self.expr(names)
            self.take("]")
            return f"span(o_{name}, {first}, {last})"
        self.take("]")
        return f"member(o_{name}, {first})"

    def expr(self, names, level=0):
        signs = [("==", "!=", "<", "<=", ">", ">="), ("+", "-"), ("*", "/", "%")][level]
        part = lambda: self.expr(names, level + 1) if level < 2 else self.atom(names)
        left = part()
        while self.sees(*signs):
            left = OPERATORS[self.take(*signs)].format(left, part())
            if level == 0:
                break
        return left

    def atom(self, names):
        if self.skips("("):
            value = f"({self.expr(names)})"
            self.take(")")
            return value
        if self.tokens[self.at][1] == 2:
            return str(self.number())
        name = self.take()
        if self.skips("("):
            left = self.expr(names)
            self.take(",")
            value = OPERATORS.get(name, "{}{}").format(left, self.expr(names))
            self.take(")")
            return f"({value})"
        if names.get(name) not in ("int", "one"):
            raise NotRun(f"line {self.line()}: `{name}` is no number and no object of one here")
        if not self.skips("["):
            return f"n_{name}"
        value = f"R[o_{name}][{self.expr(names)}]"
        self.take("]")
        return value

    def code(self, name, families):
        """A function `body` that makes a task's operations and leaves its steps in `steps[0]`."""
        index, params, at = self.tasks[name]
        names = {p[0]: "int" if p[1] == "int" else "many" if p[3] else "one" for p in params}
        if index is not None:
            names[index] = "int"
        if name == "main":
            names = {f[0]: "one" if f[1] is None else "many" for f in families}
        heads = [("n_" if names[p[0]] == "int" else "o_") + p[0] for p in params] + ([f"n_{index}"] if index else [])
        out = [f"def body({', '.join(heads)}):", " k = 0", " try:"]
        if name == "main":
            out += [f"  o_{f[0]} = {f[2] if f[1] is None else (f[2], f[3])}" for f in families]
        self.at = at
        self.block(names, "  ", out)
        return "\n".join(out + [" finally: steps[0] = k"])
