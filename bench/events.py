#!/usr/bin/env python3
"""How the time of runs by events grows with the number of tasks, beside that of the run in reference order.

    bench/events.py [PROGRAM]        PROGRAM is crates/kaapi/out/kaapi where none is given

Outside the gate. Each time is the fastest of three runs, from the start of the process to its end."""
import pathlib, subprocess, sys, time

TOP = pathlib.Path(__file__).resolve().parent.parent

# tasks beside main
COUNTS = [1_023, 2_047, 4_095, 8_191, 16_383]

WORDS = [["seq"], ["sim", "1", "0"], ["sim", "8", "7"]]


def one_frame(mode, body):
    return lambda n: (
        f"object A of 1 output;\ntask step({mode} P) {{\n  {body}\n}}\nmain {{\n  for i in 0..{n} {{\n    fork step(A);\n  }}\n}}\ndata\n"
    )


def halves(n):
    return (
        "object A of 1 output;\ntask step(int n, cwp(add) P) {\n  if n > 1 {\n    fork step(n / 2, P);\n    fork step(n / 2, P);\n  }\n}\n"
        f"main {{\n  fork step({(n + 1) // 2}, A);\n}}\ndata\n"
    )


SHAPES = {
    "one frame, none clash": one_frame("cw(add)", "P[0] add= 1;"),
    "one frame, all clash": one_frame("x", "P[0] = P[0] + 1;"),
    "two by two": halves,
}


def seconds(command, job):
    best = None
    for _ in range(3):
        start = time.perf_counter()
        subprocess.run(command, input=job.encode(), stdout=subprocess.DEVNULL, check=True)
        took = time.perf_counter() - start
        best = took if best is None else min(best, took)
    return best


def main():
    program = sys.argv[1] if len(sys.argv) > 1 else str(TOP / "crates/kaapi/out/kaapi")
    print(f"{'tasks':24}" + "".join(f"{n:>10}" for n in COUNTS))
    for shape, job in SHAPES.items():
        for words in WORDS:
            times = [seconds([program, *words], job(n)) for n in COUNTS]
            print(f"{shape}, {' '.join(words):10}" + "".join(f"{t:10.3f}" for t in times), flush=True)


main()
