#!/usr/bin/env python3
"""How fast bodies are run and tasks are gone through, beside C and Python.

    bench/bodies.py [PROGRAM]        PROGRAM is crates/kaapi/out/kaapi where none is given

Outside the gate. The time of an empty job is taken off. A step is a statement or a turn of a `for`. The C program
(`bodies.c`, by `cc -O2`, with every step kept) and Python do the same work with no test of rights, limits or steps."""
import pathlib, subprocess, sys, tempfile, time

TOP = pathlib.Path(__file__).resolve().parent.parent

COUNT = 2_000_000
SIDE = 64
TASKS = 16_383

JOBS = {
    "counting loop": (
        f"object A of 1 output;\ntask count(x P) {{\n  let sum = 0;\n  for i in 0..{COUNT} {{\n    sum = sum + i;\n  }}\n  P[0] = sum;\n}}\n"
        "main {\n  fork count(A);\n}\ndata\n",
        2 * COUNT,
    ),
    "tiled product": (
        f"object A of {SIDE * SIDE};\nobject B of {SIDE * SIDE};\nobject C of {SIDE * SIDE} output;\n"
        "task multiply(int n, r P, r Q, cw(add) T) {\n  for i in 0..n {\n    for j in 0..n {\n      let sum = 0;\n"
        "      for k in 0..n {\n        sum = sum + P[i * n + k] * Q[k * n + j];\n      }\n      T[i * n + j] add= sum;\n    }\n  }\n}\n"
        f"main {{\n  for t in 0..4 {{\n    fork multiply({SIDE}, A, B, C);\n  }}\n}}\ndata\n",
        4 * (2 * SIDE**3 + 4 * SIDE**2 + 2 * SIDE),
    ),
    "empty tasks": (f"task nothing() {{\n}}\nmain {{\n  for i in 0..{TASKS} {{\n    fork nothing();\n  }}\n}}\ndata\n", TASKS),
}


def seconds(command, job):
    best = None
    for _ in range(5):
        start = time.perf_counter()
        subprocess.run(command, input=job.encode(), stdout=subprocess.DEVNULL, check=False)
        took = time.perf_counter() - start
        best = took if best is None else min(best, took)
    return best


def in_c():
    with tempfile.TemporaryDirectory() as folder:
        program = pathlib.Path(folder) / "bodies"
        subprocess.run(["cc", "-O2", "-o", program, TOP / "bench/bodies.c"], check=True)
        out = subprocess.run([program], capture_output=True, text=True, check=True).stdout
    count, product, tasks = map(float, out.split())
    return {"counting loop": count, "tiled product": 4 * product, "empty tasks": tasks}


def python_count():
    total = 0
    for i in range(COUNT):
        total = total + i


def python_product():
    n = SIDE
    a, b, c = [0] * n * n, [0] * n * n, [0] * n * n
    for _ in range(4):
        for i in range(n):
            for j in range(n):
                total = 0
                for k in range(n):
                    total = total + a[i * n + k] * b[k * n + j]
                c[i * n + j] += total


def python_tasks():
    def nothing():
        pass

    for _ in range(TASKS):
        nothing()


def timed(work):
    start = time.perf_counter()
    work()
    return time.perf_counter() - start


def main():
    program = sys.argv[1] if len(sys.argv) > 1 else str(TOP / "crates/kaapi/out/kaapi")
    empty = seconds([program, "seq"], "main {} data")
    c = in_c()
    python = {"counting loop": timed(python_count), "tiled product": timed(python_product), "empty tasks": timed(python_tasks)}
    for name, (job, parts) in JOBS.items():
        took = max(seconds([program, "seq"], job) - empty, 1e-9)
        unit = "tasks" if name == "empty tasks" else "steps"
        print(f"{name:14} {took:8.4f} s {parts / took / 1e6:8.2f} million {unit} a second; C {c[name]:.4f} s, Python {python[name]:.4f} s", flush=True)


main()
