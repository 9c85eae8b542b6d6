#!/usr/bin/env python3
"""Times the kernels beside plain loops of C, on the same tiles and in one run.

usage: bench/kernels.py [REPEATS]

Builds crates/kt_kernels_bench by `rt run`, and bench/kernels.c by gcc -O3 for the processor that `rt` builds for.
Both programs run in turn REPEATS times, 10 if left out; of each the fastest run counts. A rate is the time of the
faster loop of C over that of the kernel.
"""
import os
import subprocess
import sys
import tempfile

TOP = os.path.dirname(os.path.dirname(os.path.abspath(__file__)))
CRATE = os.path.join(TOP, "crates", "kt_kernels_bench")
PROCESSOR = "x86-64-v2"
# kernel, size, calls of a run, steps of a call, the loops of C
CASES = [
    ("mul", 16, 100, 16**3, ["mul", "mul_rows"]),
    ("mul", 64, 3, 64**3, ["mul", "mul_rows"]),
    ("minplus", 16, 100, 16**3, ["minplus", "minplus_rows"]),
    ("minplus", 64, 3, 64**3, ["minplus", "minplus_rows"]),
    ("stencil", 4096, 100, 4096, ["stencil"]),
    ("scan", 4096, 100, 4096, ["scan"]),
]
RUNS = 200


def answers(program, names):
    """Runs a program on a line for each case, and gives the sum and the nanoseconds of each."""
    lines = [f"{name} {size} {calls} {RUNS} time\n" for name, size, calls in names]
    ran = subprocess.run([program], input="".join(lines), text=True, stdout=subprocess.PIPE, check=True)
    return [(int(line.split()[2]), int(line.split()[3])) for line in ran.stdout.splitlines()]


def processor():
    with open("/proc/cpuinfo", encoding="utf-8") as file:
        for line in file:
            if line.startswith("model name"):
                return line.split(":", 1)[1].strip()
    return "unknown processor"


def main():
    repeats = int(sys.argv[1]) if len(sys.argv) > 1 else 10
    with tempfile.TemporaryDirectory() as folder:
        plain = os.path.join(folder, "kernels")
        flags = ["-O3", f"-march={PROCESSOR}"]
        subprocess.run(["gcc", *flags, os.path.join(TOP, "bench", "kernels.c"), "-o", plain], check=True)
        subprocess.run(["rt", "run"], cwd=CRATE, stdin=subprocess.DEVNULL, stdout=subprocess.DEVNULL, check=True)
        ours = [(name, size, calls) for name, size, calls, _, _ in CASES]
        loops = [(loop, size, calls) for _, size, calls, _, loops in CASES for loop in loops]
        fastest = {}
        for _ in range(repeats):
            for who, program, names in (("kernel", os.path.join(CRATE, "out", "kt_kernels_bench"), ours), ("plain", plain, loops)):
                for (name, size, _), (total, time) in zip(names, answers(program, names)):
                    known = fastest.setdefault((who, name, size), (total, time))
                    if known[0] != total:
                        sys.exit(f"{who} {name} {size}: two answers")
                    fastest[who, name, size] = (total, min(known[1], time))
    version = subprocess.run(["gcc", "-dumpfullversion"], text=True, stdout=subprocess.PIPE, check=True).stdout.strip()
    print(f"{processor()}, gcc {version} {' '.join(flags)}")
    print("| kernel | size | ns a step | plain loop of C, ns a step | rate |")
    print("|---|---|---|---|---|")
    for name, size, calls, steps, loops in CASES:
        total, time = fastest["kernel", name, size]
        for loop in loops:
            if fastest["plain", loop, size][0] != total:
                sys.exit(f"{name} {size}: the answers differ")
        best = min(fastest["plain", loop, size][1] for loop in loops)
        print(f"| `{name}` | {size} | {time / calls / steps:.3f} | {best / calls / steps:.3f} | {best / time:.2f} |")


main()
