#!/usr/bin/env python3
"""How fast workers run the generated jobs, beside OpenMP.

    bench/peers.py [PROGRAM]        PROGRAM is crates/kaapi/out/kaapi where none is given

Outside the gate. Jobs of kernels, of the largest size of their kind and of one in the middle, with 1, 2 and 4 workers: by `demo`, and by `run` on
the same job as text, as `gen` writes it. The C program (`peers.c`, by `gcc -O3 -fopenmp` for the processor that `rt` builds for) makes the same
numbers and does the same tasks on the same tiles, with `depend`. The answers of all are compared. The commands take turns, and of each the fastest
run counts, in milliseconds from the start of the process to its end. Of the C program the time of the tasks alone is told too, by its own clock,
and of `demo` the time of the least job of its kind: so much goes to starting workers and opening their table."""
import os, pathlib, subprocess, sys, tempfile, time

TOP = pathlib.Path(__file__).resolve().parent.parent

JOBS = (("mul", 25), ("mul", 12), ("walks", 12), ("walks", 6), ("stencil", 1024), ("stencil", 512), ("scan", 1024), ("scan", 512))
NUMBER = 7
WORKERS = (1, 2, 4)
RUNS = 9


def timed(command, job=b"", **more):
    start = time.perf_counter()
    done = subprocess.run(command, input=job, capture_output=True, check=True, env=dict(os.environ, **more))
    return (time.perf_counter() - start) * 1e3, done.stdout.decode()


def rows_sum(rows):
    return sum(int(number) for row in rows.splitlines() for number in row.split()[1:]) % 2**64


class Best:
    """The fastest of the runs of each command, and the one answer that all of them give."""

    def __init__(self):
        self.times = {}
        self.sums = set()

    def note(self, who, took, total):
        self.times[who] = min(self.times.get(who, took), took)
        self.sums.add(int(total))


def one_turn(best, program, peer, kind, size, job):
    for workers in WORKERS:
        words = [kind, str(size), str(NUMBER)]
        took, line = timed([program, "demo", *words, str(workers)])
        best.note(("demo", workers), took, line.split()[-1])
        took, rows = timed([program, "run", str(workers)], job)
        best.note(("run", workers), took, rows_sum(rows))
        took, out = timed([peer, *words], OMP_NUM_THREADS=str(workers))
        best.note(("OpenMP", workers), took, out.split()[-1])
        best.note(("its tasks", workers), float(out.split()[0]) * 1e3, out.split()[-1])


def measure(program, peer, kind, size):
    job = timed([program, "gen", kind, str(size), str(NUMBER)])[1].encode()
    best = Best()
    for _ in range(RUNS):
        one_turn(best, program, peer, kind, size, job)
        for workers in WORKERS:
            took = timed([program, "demo", kind, "1", str(NUMBER), str(workers)])[0]
            best.times["least", workers] = min(best.times.get(("least", workers), took), took)
    if len(best.sums) != 1:
        sys.exit(f"{kind} {size}: the sums differ: {best.sums}")
    return best.times


def main():
    program = sys.argv[1] if len(sys.argv) > 1 else str(TOP / "crates/kaapi/out/kaapi")
    with tempfile.TemporaryDirectory() as folder:
        peer = str(pathlib.Path(folder) / "peers")
        subprocess.run(["gcc", "-O3", "-march=x86-64-v2", "-fopenmp", "-o", peer, TOP / "bench/peers.c"], check=True)
        print(f"| job | workers | `demo` | least `demo` | `run` | OpenMP | its tasks |\n|---|---|---|---|---|---|---|")
        for kind, size in JOBS:
            times = measure(program, peer, kind, size)
            for workers in WORKERS:
                told = " | ".join(f"{times[who, workers]:.1f}" for who in ("demo", "least", "run", "OpenMP", "its tasks"))
                print(f"| `{kind} {size}` | {workers} | {told} |", flush=True)


main()
