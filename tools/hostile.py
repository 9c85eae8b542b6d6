#!/usr/bin/env python3
"""Runs the built program where memory is refused, where reads and writes fail or are short, and on jobs that are cut off.

    tools/hostile.py memory [JOB..]          each request for memory is refused, one number a run
    tools/hostile.py streams [JOB..]         each read and each write fails, one number a run; then all of them are short
    tools/hostile.py cut ORACLE [JOB..]      each job is cut off at every byte

The jobs are those of examples/ where none are given, and the program is crates/kaapi/out/kaapi, or that of the variable KAAPI.
Each is done by every way to answer a job, and cut off by those on one thread; where none are given, `gen` and `demo` are tried too. ORACLE is another program that answers as kaapi does, given the same words and the
same input; of a Python file it is run by Python. One line a job and way tells what came out; the last line is
`N passed, M failed`, and the status is 0 where none failed. `memory` and `streams` put tools/hostile.c before the C library, so
they need gcc and a program that is linked with that library. Outside the gate, and no part of what is proved."""
import concurrent.futures, os, pathlib, subprocess, sys, tempfile

TOP = pathlib.Path(__file__).resolve().parent.parent
PROGRAM = os.environ.get("KAAPI", str(TOP / "crates/kaapi/out/kaapi"))
ALONE = (["check"], ["seq"], ["sim", "3", "7"])
WAYS = (*ALONE, ["run", "2"], ["run", "8"])
# Words that ask for no answer to a job.
JOBLESS = (["gen", "mul", "1", "7"], ["demo", "mul", "1", "7", "2"])
READ_FAULT, WRITE_FAULT, NO_MEMORY = 3, 4, 10
# Seconds after which a run counts as one that does not end.
LONGEST = 60


def run(command, job, **settings):
    """Status, output, and whether a call was refused, under these settings of tools/hostile.c."""
    with tempfile.TemporaryFile() as mark:
        env = dict(os.environ, **{name: str(value) for name, value in settings.items()})
        if settings:
            env.update(LD_PRELOAD=SHIM, MARK=str(mark.fileno()))
        ran = subprocess.run(command, input=job, stdout=subprocess.PIPE, stderr=subprocess.PIPE, env=env, pass_fds=[mark.fileno()], timeout=LONGEST)
        return ran.returncode, ran.stdout, os.fstat(mark.fileno()).st_size > 0


def each_call(command, job, setting, **others):
    """What comes of failing calls 1, 2, .. until no such call is made."""
    number = 1
    while True:
        status, out, refused = run(command, job, **{setting: number}, **others)
        if not refused:
            return
        yield number, status, out
        number += 1


class Count:
    """How many runs ended as they should."""

    def __init__(self):
        self.passed = self.failed = 0

    def judge(self, fits, what, found):
        self.passed += fits
        self.failed += not fits
        if not fits:
            print(f"  {what}: status {found[0]}, output {found[1][:60]!r}")


def memory(count, name, words, job):
    command = [PROGRAM, *words]
    whole = run(command, job)[:2]
    kinds = {"no memory": 0, "the answer": 0}
    for number, status, out in each_call(command, job, "REFUSE_MEMORY"):
        fits = (status, out) in ((NO_MEMORY, b""), whole)
        kinds["no memory" if status == NO_MEMORY else "the answer"] += fits
        count.judge(fits, f"{name} {' '.join(words)}, request {number}", (status, out))
    print(f"{name}, {' '.join(words)}: {sum(kinds.values())} requests; {kinds['no memory']} times status 10 and nothing written, "
          f"{kinds['the answer']} times the answer")


def streams(count, name, words, job):
    command = [PROGRAM, *words]
    status, text = run(command, job)[:2]
    calls = {"FAIL_READ": 0, "FAIL_WRITE": 0}
    for piece in (1, 10, 4096):
        pieces = {"READ_PIECE": piece, "WRITE_PIECE": piece}
        for setting, wanted in (("FAIL_READ", READ_FAULT), ("FAIL_WRITE", WRITE_FAULT)):
            for number, found, out in each_call(command, job, setting, **pieces):
                front = b"" if setting == "FAIL_READ" else text[: piece * (number - 1)]
                count.judge((found, out) == (wanted, front), f"{name} {' '.join(words)}, {setting} {number}, pieces of {piece}", (found, out))
                calls[setting] += 1
        found = run(command, job, **pieces)[:2]
        count.judge(found == (status, text), f"{name} {' '.join(words)}, pieces of {piece}", found)
    print(f"{name}, {' '.join(words)}: {calls['FAIL_READ']} reads and {calls['FAIL_WRITE']} writes that fail, of pieces of 1, 10 and 4096 bytes; "
          "and the answer in each of the pieces")


def cut(count, name, oracle, job):
    def both(length):
        found = [run([PROGRAM, *words], job[:length])[:2] for words in ALONE]
        check, seq = (run([*oracle, *words], job[:length])[:2] for words in ALONE[:2])
        return length, found, [check, seq, seq]

    statuses = {}
    with concurrent.futures.ThreadPoolExecutor(os.cpu_count()) as pool:
        for length, found, wanted in pool.map(both, range(len(job) + 1)):
            for words, one, other in zip(ALONE, found, wanted):
                count.judge(one == other, f"{name} {' '.join(words)}, {length} bytes, not {other}", one)
                statuses[one[0]] = statuses.get(one[0], 0) + 1
    told = ", ".join(f"{number} times status {status}" for status, number in sorted(statuses.items()))
    print(f"{name}, cut at each of {len(job) + 1} places: {told}")


def main(args):
    if not args or args[0] not in ("memory", "streams", "cut") or (args[0] == "cut" and len(args) < 2):
        sys.exit(__doc__)
    kind, rest = args[0], args[1:]
    oracle = [rest.pop(0)] if kind == "cut" else []
    if oracle and oracle[0].endswith(".py"):
        oracle = [sys.executable, *oracle]
    paths = [pathlib.Path(path) for path in rest] or sorted((TOP / "examples").glob("*.job"))
    count = Count()
    for path in paths:
        job = path.read_bytes()
        if kind == "cut":
            cut(count, path.name, oracle, job)
            continue
        for words in WAYS:
            (memory if kind == "memory" else streams)(count, path.name, words, job)
    if kind != "cut" and not rest:
        for words in JOBLESS:
            (memory if kind == "memory" else streams)(count, "no job", words, b"")
    print(f"{count.passed} passed, {count.failed} failed")
    return count.failed > 0 or count.passed == 0


if __name__ == "__main__":
    with tempfile.TemporaryDirectory() as folder:
        SHIM = str(pathlib.Path(folder) / "hostile.so")
        if sys.argv[1:2] != ["cut"]:
            subprocess.run(["gcc", "-O2", "-shared", "-fPIC", "-o", SHIM, str(TOP / "tools/hostile.c")], check=True)
        sys.exit(main(sys.argv[1:]))
