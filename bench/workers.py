#!/usr/bin/env python3
"""How fast workers run tasks, beside one thread and beside OpenMP.

    bench/workers.py [PROGRAM]        PROGRAM is crates/kaapi/out/kaapi where none is given

Outside the gate. Five jobs by `seq` and by `run` with 1, 2 and 4 workers: empty tasks in one frame, empty tasks in a tree, a product of tiles
as nested `for` loops, a loop of empty indexes, and a loop of indexes of 1,000 steps, two for each turn. The time of an empty job by the same words is taken off, so the opening of the table is not counted. The C program
(`workers.c`, by `gcc -O3 -fopenmp`) does the same tasks with `depend` on the same numbers, and the indexes by `schedule(dynamic, 16)`; its tiles are compiled loops, and those of the jobs are
interpreted. The sums of both are compared. The commands take turns, and of each the fastest of five runs counts."""
import os, pathlib, subprocess, sys, tempfile, time

TOP = pathlib.Path(__file__).resolve().parent.parent

TASKS = 16_382
LEVELS = 13
TILES = 8
SIDE = 24
RUNS = 5
WORKERS = (1, 2, 4)
INDEXES = 4_096
TURNS = 500


def product():
    left = [(tile * 31 + cell * 7 + 3) % 101 for tile in range(TILES * TILES) for cell in range(SIDE * SIDE)]
    right = [(tile * 17 + cell * 5 + 1) % 103 for tile in range(TILES * TILES) for cell in range(SIDE * SIDE)]
    return (
        f"object A[{TILES * TILES}] of {SIDE * SIDE} input;\nobject B[{TILES * TILES}] of {SIDE * SIDE} input;\n"
        f"object C[{TILES * TILES}] of {SIDE * SIDE} output;\n"
        "task multiply(int n, r P, r Q, cw(add) T) {\n  for i in 0..n {\n    for j in 0..n {\n      let sum = 0;\n"
        "      for k in 0..n {\n        sum = sum + P[i * n + k] * Q[k * n + j];\n      }\n      T[i * n + j] add= sum;\n    }\n  }\n}\n"
        f"main {{\n  for i in 0..{TILES} {{\n    for j in 0..{TILES} {{\n      for k in 0..{TILES} {{\n"
        f"        fork multiply({SIDE}, A[i * {TILES} + k], B[k * {TILES} + j], C[i * {TILES} + j]);\n"
        "      }\n    }\n  }\n}\ndata\n" + " ".join(map(str, left + right)) + "\n"
    )


JOBS = {
    "flat": f"task nothing() {{\n}}\nmain {{\n  for i in 0..{TASKS} {{\n    fork nothing();\n  }}\n}}\ndata\n",
    "tree": f"task half(int n) {{\n  if n > 0 {{\n    fork half(n - 1);\n    fork half(n - 1);\n  }}\n}}\n"
    f"main {{\n  fork half({LEVELS - 1});\n  fork half({LEVELS - 1});\n}}\ndata\n",
    "product": product(),
    "indexes": f"loop nothing(i;) {{\n}}\nmain {{\n  fork nothing({INDEXES};);\n}}\ndata\n",
    "steps": "object S of 1 output;\nloop steps(i; int n, cw(add) T) {\n  let x = i;\n  for k in 0..n {\n    x = x * 3 + k;\n  }\n  T[0] add= x;\n}\n"
    f"main {{\n  fork steps({INDEXES}; {TURNS}, S);\n}}\ndata\n",
}


def timed(command, job):
    start = time.perf_counter()
    done = subprocess.run(command, input=job.encode(), capture_output=True, check=True)
    return time.perf_counter() - start, done.stdout.decode()


def total(rows):
    return sum(int(number) for row in rows.splitlines() for number in row.split()[1:]) % 2**64


def in_c(program, job, threads):
    environment = dict(os.environ, OMP_NUM_THREADS=str(threads))
    out = subprocess.run([program, job], env=environment, capture_output=True, text=True, check=True).stdout.split()
    return float(out[0]), int(out[1])


def measure(program, peer, name, job):
    ways = [("seq",)] + [("run", str(workers)) for workers in WORKERS]
    best = {}
    for _ in range(RUNS):
        for way in ways:
            empty, _ = timed([program, *way], "main {} data")
            took, rows = timed([program, *way], job)
            old = best.get(way, (float("inf"), float("inf")))
            best[way] = (min(old[0], took), min(old[1], empty))
            sums = {total(rows)}
        for threads in WORKERS:
            took, answer = in_c(peer, name, threads)
            best[threads] = min(best.get(threads, float("inf")), took)
            sums.add(answer)
        if len(sums) != 1:
            sys.exit(f"{name}: the sums differ: {sums}")
    ours = {" ".join(way): best[way][0] - best[way][1] for way in ways}
    return ours, {threads: best[threads] for threads in WORKERS}


def main():
    program = sys.argv[1] if len(sys.argv) > 1 else str(TOP / "crates/kaapi/out/kaapi")
    with tempfile.TemporaryDirectory() as folder:
        peer = pathlib.Path(folder) / "workers"
        subprocess.run(["gcc", "-O3", "-fopenmp", "-o", peer, TOP / "bench/workers.c"], check=True)
        for name, job in JOBS.items():
            ours, theirs = measure(program, peer, name, job)
            print(name)
            for way, took in ours.items():
                print(f"  {way:8} {took * 1e3:10.2f} ms")
            for threads, took in theirs.items():
                print(f"  OpenMP {threads} {took * 1e3:10.2f} ms")


if __name__ == "__main__":
    main()
