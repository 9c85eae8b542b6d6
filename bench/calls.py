#!/usr/bin/env python3
"""How many nanoseconds a worker's calls take, alone and where several workers make them at one time, and how a serve's time grows with records and with their accesses.

    bench/calls.py [RUNS]        of each number the median of so many runs, 9 if left out

Outside the gate. Builds `crates/kt_calls_bench` by `rt run`. That program runs the seat of worker 0 alone, on one thread, with a clock read before and after each call;
what two readings take that follow one another is taken off. A request is `post`, `lead`, `serve` and `look`, all at worker 0 itself, and gets nothing: while the
children of `main` wait for one that was begun and goes no further, and again when the whole program was run. So no other worker has a part, and no word
is in another processor's cache: what is told is the cost of the calls, not of workers that are in one another's way.

The last table is of all seats at one time, each on a thread of its own and with a task of its own, beside single steps of C's atomics (`bench/atomics.c`, gcc -O3) that are
timed in the same way. A run in which a seat made less than half of its share of the calls is made again."""
import pathlib, statistics, subprocess, sys, tempfile

TOP = pathlib.Path(__file__).resolve().parent.parent
CRATE = TOP / "crates/kt_calls_bench"

RECORDS = (1, 16, 256, 4_096)
ACCESSES = (1, 2, 4, 8)
WORKERS = (1, 8)
WORK = 4_000_000
MOST = 20_000
TURNS = 100_000
CROWDS = (1, 2, 4)
CHILDREN = 4_000
SPIN = 200_000
TRIES = 20


def waiting_job(records, accesses):
    """`main` and its children, all of which clash. Each has so many accesses."""
    names = [f"P{k}" for k in range(accesses)]
    objects = ", ".join(f"A[{k}]" for k in range(accesses))
    parameters = ", ".join(f"x {name}" for name in names)
    return (
        f"object A[{accesses}] of 1 output;\ntask part({parameters}) {{\n}}\n"
        f"main {{\n  for i in 0..{records - 1} {{\n    fork part({objects});\n  }}\n}}\ndata\n"
    )


ELEMENTS = (
    "object A of 1 output;\nobject B of 1 output;\ntask touch(int n, x P, cw(add) Q) {\n  for i in 0..n {\n    P[0] = P[0] + 1;\n    Q[0] add= i;\n  }\n}\n"
    f"main {{\n  fork touch({TURNS}, A, B);\n}}\ndata\n"
)


def crowd_job(workers, objects, mode, body, where):
    """A task for each worker, which waits a while, until each worker has one, and then does its part."""
    return (
        f"object F of 4;\nobject A[{workers}] of {objects} output;\ntask part(x P) {{\n}}\n"
        f"task touch(int n, {mode} P) {{\n  let s = 0;\n  for i in 0..{SPIN} {{\n    s = s + i;\n  }}\n  for i in 0..n {{\n    {body}\n  }}\n}}\n"
        f"main {{\n  for k in 0..{workers} {{\n    fork touch({CHILDREN if mode == 'xp' else TURNS}, A[{where}]);\n  }}\n}}\ndata\n"
    )


def lines_of(program, job, workers, asks):
    out = subprocess.run([program, str(workers), str(asks), "time"], input=job, capture_output=True, text=True, check=True).stdout
    return [line.split() for line in out.splitlines()]


def timed(program, job, workers, asks):
    """The nanoseconds of a call, by what was done and the kind of the call, with what two readings of the clock take."""
    lines = lines_of(program, job, workers, asks)
    for words in lines:
        if words[1] == "nothing" and int(words[2]) != asks:
            sys.exit(f"{words[0]}: {words[2]} of {asks} requests got nothing")
    return {(words[0], words[1]): int(words[3]) / int(words[2]) for words in lines if len(words) == 4 and int(words[2]) > 0}


def medians(program, runs, job, workers, asks):
    found = [timed(program, job, workers, asks) for _ in range(runs)]
    empty = statistics.median(one[("clock", "empty")] for one in found)
    return empty, {key: statistics.median(one[key] for one in found) - empty for key in found[0]}


def asks_for(records, accesses):
    return max(20, min(MOST, WORK // (records * accesses)))


def growth(program, runs, workers, cases):
    print(f"| {workers} workers: records | accesses | `serve`, they wait | a record | `serve`, they are finished | a record |\n|---|---|---|---|---|---|")
    first = None
    for records, accesses in cases:
        _, ns = medians(program, runs, waiting_job(records, accesses), workers, asks_for(records, accesses))
        waits, ended = ns[("waiting", "serve")], ns[("finished", "serve")]
        first = first or (waits, ended)
        more = [f"{(one - least) / (records - 1):.1f}" if records > 1 else "" for one, least in zip((waits, ended), first)]
        print(f"| {records} | {accesses} | {waits:.0f} | {more[0]} | {ended:.0f} | {more[1]} |", flush=True)


def calls(program, runs, workers):
    rows = {}
    for records in RECORDS[:3]:
        empty, ns = medians(program, runs, waiting_job(records, 1), workers, asks_for(records, 1))
        for kind in ("post", "lead", "serve", "look"):
            rows.setdefault(kind, []).append(f"{ns[('waiting', kind)]:.1f}")
    print(f"\nTwo readings of the clock: {empty:.1f} ns\n\n| {workers} workers: call | 1 record | 16 | 256 |\n|---|---|---|---|")
    for kind, row in rows.items():
        print(f"| `{kind}` | " + " | ".join(row) + " |", flush=True)


def single(program, runs):
    print("\n| call | ns |\n|---|---|")
    for job, kinds in ((ELEMENTS, ("load", "store", "fold")), (waiting_job(4_096, 1), ("publish", "claim_own", "finish"))):
        _, ns = medians(program, runs, job, 1, 20)
        for kind in kinds:
            print(f"| `{kind}` | {ns[('run', kind)]:.1f} |", flush=True)


def crowd(program, job, workers, kinds):
    """The nanoseconds of a call of each kind where all seats make it, without what two readings of the clock take."""
    for _ in range(TRIES):
        lines = [(words[0], words[1], int(words[2]), int(words[3])) for words in lines_of(program, job, workers, 200) if len(words) == 4]
        empty = next(ns / count for what, _, count, ns in lines if what == "clock")
        found = {}
        for kind in kinds:
            seats = [(count, ns) for what, own, count, ns in lines if (what, own) == ("crew", kind)]
            total = sum(count for count, _ in seats)
            if min(count for count, _ in seats) * 2 * workers < total:
                break
            found[kind] = sum(ns for _, ns in seats) / total - empty
        else:
            return found
    sys.exit(f"{workers} seats: in {TRIES} runs none made half of its share of the calls")


def steps_of(program, threads):
    """The nanoseconds of a step of C, by where and what it is, without what two readings of the clock take."""
    out = subprocess.run([program, str(threads)], capture_output=True, text=True, check=True).stdout
    found = {(where, kind): int(ns) / int(count) for where, kind, count, ns in (line.split() for line in out.splitlines())}
    return {key: ns - found[("clock", "empty")] for key, ns in found.items()}


def together(program, runs):
    """Rows of calls by seats and by threads of C, where a job makes them, or a single step of C is beside them."""
    cases = [(("publish", "claim_own", "finish"), "records", 64, "xp", "fork part(P);", "k")]
    for kind, mode, body in (("load", "r", "s = P[0];"), ("store", "x", "P[0] = i;"), ("fold", "cw(add)", "P[0] add= i;")):
        cases += [((kind,), "apart", 64, mode, body, "k"), ((kind,), "near", 1, mode, body, "k")]
        if kind != "store":
            cases.append(((kind,), "same", 64, mode, body, "0"))
    ours = {}
    for kinds, where, elements, mode, body, at in cases:
        for workers in CROWDS:
            job = crowd_job(workers, elements, mode, body, at)
            found = [crowd(program, job, workers, kinds) for _ in range(runs)]
            for kind in kinds:
                ours[(where, kind, workers)] = f"{statistics.median(one[kind] for one in found):.1f}"
    with tempfile.TemporaryDirectory() as folder:
        other = pathlib.Path(folder) / "atomics"
        subprocess.run(["gcc", "-O3", "-march=x86-64-v2", "-pthread", "-o", other, TOP / "bench/atomics.c"], check=True)
        theirs = {threads: [steps_of(other, threads) for _ in range(runs)] for threads in CROWDS}
    columns = " | ".join([f"{n} seat{'s' if n > 1 else ''}" for n in CROWDS] + [f"C, {n} thread{'s' if n > 1 else ''}" for n in CROWDS])
    print(f"\n| call | where | {columns} |\n|---|---|" + "---|" * (2 * len(CROWDS)))
    for where, kind in theirs[1][0]:
        if where == "clock":
            continue
        row = [ours.get((where, kind, n), "") for n in CROWDS]
        row += [f"{statistics.median(one[(where, kind)] for one in theirs[n]):.1f}" for n in CROWDS]
        print(f"| `{kind}` | {where} | " + " | ".join(row) + " |", flush=True)


def main():
    runs = int(sys.argv[1]) if len(sys.argv) > 1 else 9
    subprocess.run(["rt", "run"], cwd=CRATE, stdin=subprocess.DEVNULL, stdout=subprocess.DEVNULL, check=True)
    program = CRATE / "out/kt_calls_bench"
    for workers in WORKERS:
        calls(program, runs, workers)
    single(program, runs)
    print()
    growth(program, runs, 1, [(records, 1) for records in RECORDS])
    print()
    growth(program, runs, 1, [(1, 1)] + [(4_096, accesses) for accesses in ACCESSES])
    together(program, runs)


if __name__ == "__main__":
    main()
