#!/usr/bin/env python3
"""How fast generated jobs are written, and run in reference order.

    bench/generated.py [PROGRAM]        PROGRAM is crates/kaapi/out/kaapi where none is given

Outside the gate. Of each kind the job of the largest size: the time of `gen`, and of `seq` on what `gen` wrote. Beside it the
time of the same tasks on the same numbers in C (`peers.c`, one thread), and the time of `seq` over it. The sums are compared. A
job of 256 loops of 4,096 indexes with empty bodies comes last, in reference order and by events. All are seconds of processor
time of whole processes, of the fastest of nine runs."""
import os, pathlib, resource, subprocess, sys, tempfile

TOP = pathlib.Path(__file__).resolve().parent.parent

JOBS = (("mul", 25), ("walks", 12), ("stencil", 1024), ("scan", 1024))
NUMBER = "7"
RUNS = 9

LOOPS = b"loop each(i;) {\n}\nmain {\n  for j in 0..256 {\n    fork each(4096;);\n  }\n}\ndata\n"


def spent():
    used = resource.getrusage(resource.RUSAGE_CHILDREN)
    return used.ru_utime + used.ru_stime


def timed(command, job=b""):
    """The time of the fastest run, and what the last one wrote."""
    times = []
    for _ in range(RUNS):
        start = spent()
        done = subprocess.run(command, input=job, capture_output=True, check=True)
        times.append(spent() - start)
    return min(times), done.stdout


def rows_sum(rows):
    return sum(int(number) for row in rows.splitlines() for number in row.split()[1:]) % 2**64


def main():
    os.environ["OMP_NUM_THREADS"] = "1"
    program = sys.argv[1] if len(sys.argv) > 1 else str(TOP / "crates/kaapi/out/kaapi")
    with tempfile.TemporaryDirectory() as folder:
        peer = str(pathlib.Path(folder) / "peers")
        subprocess.run(["gcc", "-O3", "-march=x86-64-v2", "-fopenmp", "-o", peer, TOP / "bench/peers.c"], check=True)
        print("| job | `gen` | `seq` | C | `seq` over C |\n|---|---|---|---|---|")
        for kind, size in JOBS:
            wrote, job = timed([program, "gen", kind, str(size), NUMBER])
            ran, rows = timed([program, "seq"], job)
            plain, out = timed([peer, kind, str(size), NUMBER])
            if rows_sum(rows) != int(out.split()[-1]):
                sys.exit(f"{kind} {size}: the sums differ")
            print(f"| `{kind} {size} {NUMBER}` | {wrote:.3f} | {ran:.3f} | {plain:.3f} | {ran / plain:.1f} |", flush=True)
    for words in (["seq"], ["sim", "8", "7"]):
        print(f"256 loops of 4,096 indexes, {' '.join(words)}: {timed([program, *words], LOOPS)[0]:.3f}", flush=True)


main()
