"""Reads jobs of kaapi for the tools beside this file.

No part of what is proved, and no check: of the static rules only those are tested without which nothing could be run. `bodies.py`
reads the bodies, and `running.py` runs them."""
import re

TOKEN = re.compile(
    r"(?:[ \t\r\n]|#[^\n]*(?:\n|\Z))*(?:([A-Za-z_][A-Za-z_0-9]*)|([0-9]+)|(==|!=|<=|>=|\.\.|[][{}(),;=<>+*/%-])|\Z)"
)
RESERVED = set("object task loop main let if else for in fork data".split())
KERNELS = """task k_mul(int n, int p, int q, r A, r B, cw(add) C) {} task k_minplus(int n, int p, int q, r A, r B, cw(min) C) {}
task k_stencil(int n, r L, r A, r R, w B) {} task k_scan(int n, int t, r S, x A) {} data"""


class NotRun(Exception):
    """Why a job cannot be run here, as a sentence."""


class Reader:
    """The tokens of a program one after another, and its declarations."""

    def __init__(self, text):
        self.tokens, at, line = [], 0, 1
        while not self.tokens or self.tokens[-1][0] not in ("data", ""):
            found = TOKEN.match(text, at)
            if not found:
                raise NotRun(f"line {line} or the next is no text of the language")
            line += text.count("\n", at, found.end())
            at = found.end()
            kind = 1 if found[1] else 2 if found[2] else 3
            self.tokens.append((found[kind] or "", kind, line, at))
        self.at = 0
        self.tasks = {}

    def line(self):
        return self.tokens[self.at][2]

    def take(self, *wanted):
        token, kind = self.tokens[self.at][:2]
        if wanted and token not in wanted or token == "" or not wanted and (kind != 1 or token in RESERVED):
            raise NotRun(f"line {self.line()}: `{token or 'the end'}` cannot stand here")
        self.at += 1
        return token

    def sees(self, *wanted):
        return self.tokens[self.at][0] in wanted

    def skips(self, wanted):
        self.at += (seen := self.sees(wanted))
        return seen

    def number(self):
        if self.tokens[self.at][1] != 2:
            raise NotRun(f"line {self.line()}: a number is wanted")
        self.at += 1
        return int(self.tokens[self.at - 1][0])

    def several(self, read, close):
        found = []
        while not self.sees(close):
            found.append(read())
            if not self.sees(close):
                self.take(",")
        self.take(close)
        return found

    def program(self):
        """The families (name, members or None, first object, object behind, elements, input, output), and where the data begin."""
        families, objects = [], 0
        while not self.sees("data"):
            word = self.take("object", "task", "loop", "main")
            name = "main" if word == "main" else self.take()
            if word == "object":
                many = self.number() if self.skips("[") else None
                many is not None and self.take("]")
                self.take("of")
                family = (name, many, objects, objects + (1 if many is None else many), self.number())
                families.append(family + (self.skips("input"), self.skips("output")))
                objects = family[3]
                self.take(";")
                continue
            index, params = None, []
            if word != "main":
                self.take("(")
                if word == "loop":
                    index = self.take()
                    self.take(";")
                params = self.several(self.param, ")")
            self.take("{")
            self.tasks[name] = (index, params, self.at)
            depth = 1
            while depth:
                if self.sees("data", ""):
                    raise NotRun(f"line {self.line()}: a `}}` is missing")
                depth += self.sees("{") - self.sees("}")
                self.at += 1
        return families, self.tokens[self.at][3]

    def param(self):
        mode = self.take("int", "r", "w", "x", "cw", "rp", "wp", "xp", "cwp")
        op = ""
        if mode in ("cw", "cwp"):
            self.take("(")
            op = self.take("add", "min", "max", "and", "or", "xor")
            self.take(")")
        name = self.take()
        return name, mode, op, self.skips("[") and bool(self.take("]"))
