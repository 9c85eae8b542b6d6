#!/usr/bin/env python3
"""How fast texts are read, checked and printed, in MB a second of text.

    bench/text.py [PROGRAM]        PROGRAM is crates/kaapi/out/kaapi where none is given

Outside the gate. Each job is written to a file and given to `kaapi check`:
  read     the last token before `data` is wrong, so that reading is all that is done
  examples as `read`, a program of many definitions: the tasks and loops of examples/, again and again under new names
  check    the last statement breaks a rule, so that the whole program is read and checked
  print    the program is accepted, and its canonical text is written
  forks    as `check`, a text of forks, each of which looks up a task and an object
  blocks   as `check`, one block of all statements, in which the names are looked up
Then texts with more than a program may have are checked, by how many:
  objects  declarations of objects
  tasks    tasks, each of which forks itself
  lets     `let` statements of one block, each with the name before it
  params   parameters of one task, and as many names in its body
  ahead    forks in front of the tasks that they fork
  handed   forks in front of the objects that they hand on
Sizes double, so that a time that is not linear shows. At last `kaapi seq` reads 2^20 numbers and writes their rows."""
import pathlib, re, subprocess, sys, tempfile, time

TOP = pathlib.Path(__file__).resolve().parent.parent
LINE = "  P[3] = P[1] + v * 7 - satadd(P[2], min(v, 41));\n  for i in 0..v {\n    let w = i % 5;\n    P[i] = w;\n  }\n"


def tasks(size):
    """1,024 tasks, in all of about so many bytes."""
    body = LINE * max(1, size // 1024 // len(LINE))
    return "object A of 64;\n" + "".join(f"task t{k}(int v, x P) {{\n{body}}}\n" for k in range(1024))


def examples(size):
    """The tasks and loops of examples/, without their comments, as often as fits."""
    parts = []
    for path in sorted((TOP / "examples").glob("*.job")):
        program = re.sub(r"#[^\n]*\n", "\n", path.read_text()).split("\ndata")[0]
        parts += re.findall(r"^(task|loop) (\w+)(\(.*?^}\n)", program, re.S | re.M)
    once = "".join(f"{kind} {name}{{k}}" + rest.replace("{", "{{").replace("}", "}}") for kind, name, rest in parts)
    return "".join(once.format(k=k) for k in range(size // len(once)))


def forks(size):
    """main forks 1,023 tasks on 4,000 objects."""
    heads = "".join(f"object A{k} of 1;\n" for k in range(4000)) + "".join(f"task t{k}(int v, x P) {{}}\n" for k in range(1023))
    line = "  fork t{}({}, A{});\n"
    out, length, k = [], len(heads), 0
    while length < size:
        text = line.format(k * 7 % 1023, k, k * 11 % 4000)
        out.append(text)
        length += len(text)
        k += 1
    return heads + "main {\n" + "".join(out)


def blocks(size):
    """One block of statements, with 60 names before them."""
    names = "".join(f"  let name{k} = {k};\n" for k in range(60))
    line = "  name1 = name59 + name0 * name30;\n"
    return "main {\n" + names + line * (size // len(line))


def jobs(size):
    yield "read", tasks(size) + "main {} }\ndata\n"
    yield "examples", examples(size) + "main {} }\ndata\n"
    yield "check", tasks(size) + "main { nothing = 1; }\ndata\n"
    yield "print", tasks(size) + "main {}\ndata\n"
    yield "forks", forks(size) + "  nothing = 1;\n}\ndata\n"
    yield "blocks", blocks(size) + "  nothing = 1;\n}\ndata\n"


def many(count):
    """Texts with so many of what a program may have few of."""
    objects = "".join(f"object A{k} of 1;\n" for k in range(count))
    yield "objects", objects + "main {}\ndata\n"
    yield "tasks", "".join(f"task t{k}() {{ fork t{k}(); }}\n" for k in range(count)) + "main {}\ndata\n"
    lets = "".join(f"  let v{k + 1} = v{k};\n" for k in range(count))
    yield "lets", "main {\n  let v0 = 0;\n" + lets + "}\ndata\n"
    params, names = ", ".join(f"int p{k}" for k in range(count)), "".join(f"  let v = p{k};\n" for k in range(count))
    yield "params", f"task t({params}) {{\n{names}}}\nmain {{}}\ndata\n"
    forks, bodies = "".join(f"  fork t{k}();\n" for k in range(count)), "".join(f"task t{k}() {{}}\n" for k in range(count))
    yield "ahead", "main {\n" + forks + "}\n" + bodies + "data\n"
    forks = "".join(f"  fork t(A{k});\n" for k in range(count))
    yield "handed", "main {\n" + forks + "}\ntask t(x P) {}\n" + objects + "data\n"


def data():
    """As many numbers as a job may have, which are written again."""
    numbers = "".join(f"{k * 0x9E3779B97F4A7C15 % 2**64}\n" for k in range(1 << 20))
    return "object A[256] of 4096 input output;\nmain {}\ndata\n" + numbers


ROUNDS = 7


def seconds(program, path, word):
    with open(path, "rb") as job:
        start = time.perf_counter()
        subprocess.run([program, word], stdin=job, stdout=subprocess.DEVNULL, check=False)
        return time.perf_counter() - start


def measure(program, texts, word="check"):
    """Of each text its name, its size in MB and the fastest of ROUNDS runs. The texts take turns, so that a slow minute of the machine falls on all."""
    with tempfile.TemporaryDirectory() as folder:
        paths = []
        for name, text in texts:
            path = pathlib.Path(folder, name)
            path.write_text(text)
            paths.append(path)
        best = {path: min(times) for path, times in zip(paths, zip(*([seconds(program, path, word) for path in paths] for _ in range(ROUNDS))))}
        for path in paths:
            yield path.name, path.stat().st_size / 1e6, best[path]


def main():
    program = sys.argv[1] if len(sys.argv) > 1 else str(TOP / "crates/kaapi/out/kaapi")
    for megabytes in (4, 8, 16, 32):
        for name, size, took in measure(program, jobs(megabytes * 1_000_000)):
            print(f"{name:8} {size:5.1f} MB {took:7.2f} s {size / took:7.1f} MB/s", flush=True)
    for count in (20_000, 40_000, 80_000, 160_000, 320_000):
        for name, size, took in measure(program, many(count)):
            print(f"{name:8} {count:7} {size:5.1f} MB {took:7.2f} s {size / took:7.1f} MB/s", flush=True)
    for name, size, took in measure(program, [("data", data())], "seq"):
        print(f"{name:8} {size:5.1f} MB {took:7.2f} s {size / took:7.1f} MB/s", flush=True)


main()
