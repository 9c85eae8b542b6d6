"""The graph of the tasks of a job as DOT and SVG, for `shape`, which says when each task begins and for what it waits."""
import shutil, subprocess
from html import escape


def names_of(families):
    return [f[0] if f[1] is None else f"{f[0]}[{o - f[2]}]" for f in families for o in range(f[2], f[3])]


def label(run, names, task):
    if task.name == "main":
        return "main"
    shown = [] if task.length is None else [f"{task.length};"]
    for (_, mode, _, many), value in zip(run.reader.tasks[task.name][1], task.given):
        if mode == "int":
            shown.append(str(value))
        elif not many:
            shown.append(names[value])
        else:
            ends = [names[value[0]], names[value[1] - 1]] if value[0] < value[1] else ["nothing"]
            shown.append(" to ".join(dict.fromkeys(ends)))
    return f"{task.name}({', '.join(shown)})".replace(";,", ";")


def edges(tasks):
    """Who waits for whom, without what follows from the rest; and the forks of which nothing else tells the place."""
    above = {}
    for task in tasks[1:]:
        waits = list(task.frame.waits(task))
        above[id(task)] = set().union(*(above[id(w)] | {id(w)} for w in waits))
        further = set().union(*(above[id(w)] for w in waits))
        yield from ((w, task, "") for w in waits if id(w) not in further)
        if not waits:
            yield task.parent, task, " [style=dashed]"


def dot(run, names, tasks):
    place = {id(t): f"t{k}" for k, t in enumerate(tasks)}
    lines = [f'  {place[id(t)]} [label="{label(run, names, t)}\\n{t.start} to {t.end}"];' for t in tasks]
    lines += [f"  {place[id(a)]} -> {place[id(b)]}{style};" for a, b, style in edges(tasks)]
    return "\n".join(["digraph job {", "  node [shape=box, fontname=Helvetica, fontsize=10];", *lines, "}"])


def svg(run, names, tasks):
    if shutil.which("dot"):
        return subprocess.run(["dot", "-Tsvg"], input=dot(run, names, tasks), capture_output=True, text=True, check=True).stdout
    joined, depth, rows = list(edges(tasks)), {id(tasks[0]): 0}, {}
    for a, b, _ in joined:
        depth[id(b)] = max(depth.get(id(b), 0), depth[id(a)] + 1)
    for task in tasks:
        rows.setdefault(depth[id(task)], []).append(task)
    wide = 12 + 7 * max(len(label(run, names, t)) for t in tasks)
    total = max(map(len, rows.values())) * (wide + 20)
    spot = {id(t): (total * (2 * k + 1) // (2 * len(row)), 30 + 70 * d) for d, row in rows.items() for k, t in enumerate(row)}
    lines = [f'<svg xmlns="http://www.w3.org/2000/svg" width="{total}" height="{70 * len(rows)}" font-family="Helvetica" font-size="11">']
    for a, b, style in joined:
        (x, y), (u, v) = spot[id(a)], spot[id(b)]
        lines.append(f'<line x1="{x}" y1="{y + 12}" x2="{u}" y2="{v - 12}" stroke="gray"{" stroke-dasharray=" + repr("4") if style else ""}/>')
    for task in tasks:
        x, y = spot[id(task)]
        lines.append(f'<rect x="{x - wide // 2}" y="{y - 12}" width="{wide}" height="24" fill="white" stroke="black"/>')
        lines.append(f'<text x="{x}" y="{y + 4}" text-anchor="middle">{escape(label(run, names, task))}</text>')
    return "\n".join(lines + ["</svg>"])
