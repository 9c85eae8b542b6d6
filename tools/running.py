#!/usr/bin/env python3
"""Runs jobs of kaapi for the tools beside this file, in the order of the reference run.

    tools/running.py JOB      writes the rows of the job, if it is accepted and meets no fault

No part of what is proved. `reading.py` says what of a program is tested."""
import sys
from bodies import Bodies
from reading import KERNELS, NotRun, Reader

M = 2**64 - 1
TASKS, INDEXES, LONG, DEEP = 16_384, 1_048_576, 4_096, 32
BUDGET = 20_000_000  # steps, before a run is given up


class Fault(Exception):
    """A body stops: F1 to F7."""


class Task:
    """A task of a run. `at` is the step of its parent at which it was forked; `steps` is the longest of its bodies, `work` all of them."""

    def __init__(self, name, line, at, length, given, path):
        self.name, self.line, self.at, self.length, self.given, self.path = name, line, at, length, given, path
        self.children, self.steps, self.work, self.fault = [], 0, 0, None


def clashes(one, other):
    return one[0] < other[1] and other[0] < one[1] and (one[2] != other[2] or one[2] in ("w", "x"))


class Run:
    def __init__(self, text, budget=BUDGET):
        self.reader, self.budget, self.tasks, self.indexes, self.bodies = Bodies(text), budget, 0, 0, {}
        kernels = Reader(KERNELS)
        kernels.program()
        self.families, start = self.reader.program()
        if "main" not in self.reader.tasks:
            raise NotRun("there is no `main`")
        self.kernels = set(kernels.tasks)
        self.reader.tasks |= kernels.tasks
        self.rows = [[0] * f[4] for f in self.families for _ in range(f[2], f[3])]
        self.fill(text[start:].split())
        self.steps, self.under = [0], None

    def fill(self, items):
        wanted = sum((f[3] - f[2]) * f[4] for f in self.families if f[5])
        if len(items) != wanted or not all(i.isdigit() and int(i) <= M for i in items):
            raise NotRun(f"{wanted} numbers are wanted behind `data`; there are {len(items)} items, or one is no number")
        numbers = map(int, items)
        for f in self.families:
            for o in range(f[2], f[3]) if f[5] else ():
                self.rows[o] = [next(numbers) for _ in range(f[4])]

    def body(self, name):
        if name not in self.bodies:
            words = {"Fault": Fault, "R": self.rows, "M": M, "steps": self.steps, "fork": self.fork, "span": span, "member": member}
            try:
                exec(compile(self.reader.code(name, self.families), name, "exec"), words)
            except (SyntaxError, RecursionError, MemoryError):
                raise NotRun(f"`{name}` nests too deep for this tool")
            self.bodies[name] = words["body"]
        return self.bodies[name]

    def fork(self, name, line, at, length, given):
        if length is not None and length > LONG:
            raise Fault("F7")
        task = Task(name, line, at, length, given, self.under.path + (len(self.under.children) + 1,))
        accesses = self.accesses(task)
        if any(clashes(a, b) for k, a in enumerate(accesses) for b in accesses[:k]):
            raise Fault("F4")
        if len(task.path) > DEEP:
            raise Fault("F5")
        self.under.children.append(task)

    def accesses(self, task):
        """The objects from, up to, and what agrees with what: `r`, an operator, or `w` and `x` for nothing."""
        found = []
        for (_, mode, op, many), value in zip(self.reader.tasks[task.name][1], task.given):
            if mode != "int":
                found.append((*(value if many else (value, value + 1)), op or mode.replace("p", "")))
        return found

    def run(self):
        root = Task("main", 0, 0, None, [], ())
        for name in self.reader.tasks.keys() - self.kernels:
            self.body(name)
        try:
            self.whole(root)
        except (NameError, TypeError, AttributeError):
            raise NotRun("the program breaks a rule of the language")
        return root

    def whole(self, task):
        self.tasks += 1
        self.indexes += task.length or 0
        if self.tasks > TASKS or self.indexes > INDEXES:
            raise NotRun("the run passes a limit: more than 16,384 tasks or 1,048,576 indexes")
        for (_, mode, _, _), value in zip(self.reader.tasks[task.name][1], task.given):
            if mode == "w":
                self.rows[value][:] = [0] * len(self.rows[value])
        self.under = task
        for index in [()] if task.length is None else [(i,) for i in range(task.length)]:
            self.steps[0] = 0
            try:
                if task.name in self.kernels:
                    self.steps[0] = kernel(task.name, task.given, self.rows)
                else:
                    self.body(task.name)(*task.given, *index)
            except (Fault, ZeroDivisionError, IndexError) as fault:
                task.fault = task.fault or {"ZeroDivisionError": "F1", "IndexError": "F2"}.get(type(fault).__name__) or str(fault)
            task.steps = max(task.steps, self.steps[0])
            task.work += self.steps[0]
            self.budget -= self.steps[0] + 1
            if self.budget < 0:
                raise NotRun("the run is too long for this tool")
        for child in task.children:
            self.whole(child)


def member(objects, k):
    if k >= objects[1] - objects[0]:
        raise Fault("F3")
    return objects[0] + k


def span(objects, first, last):
    if first > last or last > objects[1] - objects[0]:
        raise Fault("F3")
    return objects[0] + first, objects[0] + last


def kernel(name, given, rows):
    """Does a kernel, and gives what it is counted as: a step for each product or element."""
    if name in ("k_mul", "k_minplus"):
        n, p, q = given[:3]
        a, b, c = (rows[o] for o in given[3:])
        if max(n, p, q) > LONG or len(a) < n * p or len(b) < p * q or len(c) < n * q:
            raise Fault("F2")
        for i in range(n):
            for j in range(q):
                if name == "k_mul":
                    c[i * q + j] = (c[i * q + j] + sum(a[i * p + k] * b[k * q + j] for k in range(p))) & M
                else:
                    c[i * q + j] = min(c[i * q + j], M, *(a[i * p + k] + b[k * q + j] for k in range(p)))
        return n * p * q
    n = given[0]
    if name == "k_stencil":
        left, row, right, to = (rows[o] for o in given[1:])
        if n > LONG or min(map(len, (left, row, right, to))) < n:
            raise Fault("F2")
        wide = left[n - 1 : n] + row[:n] + right[:1]
        to[:n] = [(wide[i] + 2 * wide[i + 1] + wide[i + 2]) & M for i in range(n)]
        return n
    start, row = rows[given[2]], rows[given[3]]
    if n > LONG or len(row) < n or given[1] >= len(start):
        raise Fault("F2")
    total = start[given[1]]
    for i in range(n):
        total = row[i] = (total + row[i]) & M
    return n


def main():
    try:
        with open(sys.argv[1], encoding="latin-1", newline="") as job:
            run = Run(job.read())
        tasks = [run.run()]
        for task in tasks:
            tasks += task.children
        if any(t.fault for t in tasks):
            raise NotRun("a body meets a fault")
    except (NotRun, OSError) as why:
        sys.exit(f"{why}")
    for name, _, first, behind, _, _, output in run.families:
        for o in range(first, behind) if output else ():
            print(f"{name}[{o - first}]", *run.rows[o])


if __name__ == "__main__":
    main()
