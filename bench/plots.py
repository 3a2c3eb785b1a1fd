#!/usr/bin/env python3
"""Draws the plots of docs/BENCHMARKS.md with matplotlib: bench/plots.py FIGURES FOLDER, as bench/report.py calls it."""
import json
import sys
from pathlib import Path

import matplotlib

matplotlib.use("svg")
import matplotlib.pyplot as plt
from matplotlib.ticker import FuncFormatter, NullFormatter, NullLocator

COLOURS = {"path_server": "#1f5fa8", "Redis": "#c2402f", "loop in C": "#8a8a8a", "PostgreSQL": "#3d8b6e", "jq": "#c2402f", "gojq": "#e39a3b", "sqlite3": "#3d8b6e",
           "python": "#8464a8"}
MARKERS = {"path_server": "o", "Redis": "s", "loop in C": "^", "PostgreSQL": "D", "jq": "s", "gojq": "v", "sqlite3": "D", "python": "P"}
MEBIBYTE = 1 << 20
# pixels of a line of text
LINE = 15
FONTS = "'DejaVu Sans', Helvetica, Arial, sans-serif"
plt.rcParams.update({"svg.fonttype": "none", "svg.hashsalt": "path_server", "font.family": "DejaVu Sans", "font.size": 10,
                     "axes.spines.top": False, "axes.spines.right": False, "axes.grid": True, "grid.color": "#dddddd", "axes.axisbelow": True,
                     "legend.frameon": False, "lines.linewidth": 2})


def plain(number, _=None):
    if number and number % MEBIBYTE == 0:
        return f"{number // MEBIBYTE:.0f} Mi"
    for size, sign in ((1e6, "M"), (1e3, "k")):
        if number >= size:
            return f"{number / size:g}{sign}"
    return f"{number:g}"


def save(figure, folder, name):
    figure.tight_layout()
    figure.savefig(folder / f"{name}.svg", metadata={"Date": None, "Creator": "bench/plots.py"})
    plt.close(figure)
    drawn = folder / f"{name}.svg"
    drawn.write_text(drawn.read_text(encoding="utf-8").replace("'DejaVu Sans'", FONTS), encoding="utf-8")


def label_ends(ax, ends):
    """Names each line at its right end, those that are close to one another a line of text apart, around their middle."""
    groups = []
    for place in sorted((ax.transData.transform((x, y))[1], x, y, name) for name, (x, y) in ends.items()):
        groups.append([place])
        while len(groups) > 1 and lowest(groups[-1]) - lowest(groups[-2]) < LINE * len(groups[-2]):
            last = groups.pop()
            groups[-1] += last
    for group in groups:
        for at, (pixels, x, y, name) in enumerate(group):
            shift = lowest(group) + LINE * at - pixels
            ax.annotate(name, (x, y), xytext=(7, shift * 72 / ax.figure.dpi), textcoords="offset points", va="center", color=COLOURS[name])


def lowest(group):
    """Where the lowest name of a group stands."""
    return sum(it[0] for it in group) / len(group) - LINE * (len(group) - 1) / 2


def lines(ax, series, title, across, up, is_log_up=True):
    """Lines by name, each of points, on a logarithmic axis across."""
    ax.set_xscale("log")
    if is_log_up:
        ax.set_yscale("log")
    for name, points in series.items():
        points = [it for it in points if it[1] is not None]
        if points:
            ax.plot(*zip(*points), color=COLOURS[name], marker=MARKERS[name], markersize=5, label=name, zorder=3 if name == "path_server" else 2)
    ax.set_title(title, loc="left", fontsize=11)
    ax.set_xlabel(across)
    ax.set_ylabel(up)
    ax.set_xticks(sorted({it[0] for points in series.values() for it in points}))
    for axis in (ax.xaxis, ax.yaxis):
        axis.set_major_formatter(FuncFormatter(plain))
        axis.set_minor_formatter(NullFormatter())
    ax.xaxis.set_minor_locator(NullLocator())
    if not is_log_up:
        ax.set_ylim(bottom=0)


def name_lines(figure, series_of):
    """Names the lines of each of the axes, once their layout is settled."""
    figure.tight_layout()
    for ax, series in series_of:
        right = ax.get_xlim()[1]
        ax.set_xlim(right=right * (right / ax.get_xlim()[0]) ** 0.3)
    figure.canvas.draw()
    for ax, series in series_of:
        label_ends(ax, {name: [it for it in points if it[1] is not None][-1] for name, points in series.items() if any(it[1] is not None for it in points)})


def connections(it, folder):
    names = [name for name in ("path_server", "Redis", "loop in C") if name in it["rows"][0][1]]
    figure, (left, right) = plt.subplots(1, 2, figsize=(10, 3.8))
    rates = {name: [(count, by[name][0]) for count, by in it["rows"]] for name in names}
    times = {name: [(count, by[name][2]) for count, by in it["rows"]] for name in names}
    lines(left, rates, "Requests a second", "connections", "requests a second", False)
    lines(right, times, "99 of 100 requests take at most", "connections", "microseconds")
    name_lines(figure, [(left, rates), (right, times)])
    save(figure, folder, "connections")


def queries(it, folder):
    names = [name for name in ("path_server", "jq", "gojq", "sqlite3", "python") if name in it["rows"][0][2]]
    figure, (left, right) = plt.subplots(1, 2, figsize=(10, 3.8))
    shell = {name: [(length, by[name][0] * 1000) for length, _, by in it["rows"]] for name in names}
    served = {"path_server": [(row[0], row[1] / 1000) for row in it["served"]], "PostgreSQL": [(row[0], row[2] and row[2] / 1000) for row in it["served"]]}
    lines(left, shell, "From the shell, process start included", "bytes of the text", "milliseconds")
    lines(right, served, "On a server that keeps the text", "bytes of the text", "milliseconds")
    name_lines(figure, [(left, shell), (right, served)])
    save(figure, folder, "queries")


def memory(it, folder):
    rows = it["rows"]
    figure, ax = plt.subplots(figsize=(10, 3.4))
    for shift, name, at in ((-0.19, "path_server", 2), (0.19, "Redis", 3)):
        values = [(row[at] or 0) / row[1] / row[0] for row in rows]
        bars = ax.bar([place + shift for place in range(len(rows))], values, 0.36, color=COLOURS[name], label=name if name == "path_server" else "Redis, as strings")
        ax.bar_label(bars, [f"{value:.1f}" for value in values], fontsize=9, padding=1)
    ax.axhline(1, color="#222222", linewidth=1, linestyle="--", label="the texts alone")
    ax.set_xticks(range(len(rows)), [f"{row[1]:,} documents\nof {row[0]:,} bytes" for row in rows])
    ax.set_ylabel("bytes of memory for a byte of text")
    ax.grid(axis="x", visible=False)
    ax.legend(ncol=3, loc="upper center", bbox_to_anchor=(0.5, 1.16), fontsize=9)
    save(figure, folder, "memory")


def reading(it, folder):
    head, *rows = it["files"]
    best = head[3].removeprefix("simdjson ").removesuffix(", GB/s")
    series = {"path_server": (COLOURS["path_server"], [float(row[1]) for row in rows]), "simdjson, SSE4.2": ("#8a8a8a", [float(row[2]) for row in rows]),
              f"simdjson, {best}": ("#c9c9c9", [float(row[3]) for row in rows]), "python": (COLOURS["python"], [it["python"][row[0]] for row in rows])}
    figure, ax = plt.subplots(figsize=(10, 3.6))
    for at, (name, (colour, values)) in enumerate(series.items()):
        bars = ax.bar([place + (at - 1.5) * 0.21 for place in range(len(rows))], values, 0.2, color=colour, label=name)
        ax.bar_label(bars, [f"{value:.2f}" for value in values], fontsize=8, padding=1)
    ax.set_xticks(range(len(rows)), [row[0].removesuffix(".json") for row in rows])
    ax.set_ylabel("gigabytes a second")
    ax.grid(axis="x", visible=False)
    ax.legend(ncol=4, loc="upper center", bbox_to_anchor=(0.5, 1.16), fontsize=9)
    save(figure, folder, "reading")


def beside(it, folder):
    names = list(dict.fromkeys(row[0] for row in it["rows"]))
    times = {(name, count): (row[1], row[2]) for name, count, row in it["rows"]}
    figure, axes = plt.subplots(1, 2, figsize=(10, 3), sharey=True)
    for ax, count in zip(axes, (1, 100)):
        for shift, at, colour, label in ((0.19, 0, "#8fb4dc", "median"), (-0.19, 1, COLOURS["path_server"], "99 of 100 within")):
            values = [times[name, count][at] for name in names]
            bars = ax.barh([len(names) - place + shift for place in range(len(names))], values, 0.36, color=colour, label=label)
            ax.bar_label(bars, [f"{value:,.0f}" for value in values], fontsize=8, padding=2)
        ax.set_xscale("log")
        ax.set_xlim(left=1, right=ax.get_xlim()[1] * 6)
        ax.xaxis.set_major_formatter(FuncFormatter(plain))
        ax.set_title(f"{count} connection{'s' if count > 1 else ''} with a small GET", loc="left", fontsize=11)
        ax.set_xlabel("microseconds")
        ax.grid(axis="y", visible=False)
    axes[0].set_yticks([len(names) - place for place in range(len(names))], names)
    figure.legend(*axes[1].get_legend_handles_labels(), ncol=2, loc="lower left", fontsize=9)
    save(figure, folder, "beside")


def main():
    figures, folder = json.loads(Path(sys.argv[1]).read_text(encoding="utf-8")), Path(sys.argv[2])
    folder.mkdir(parents=True, exist_ok=True)
    for made in (connections, queries, memory, reading, beside):
        result = figures["parts"].get(made.__name__, {}).get("result")
        if not result:
            continue
        try:
            made(result, folder)
        except Exception as error:
            print(f"bench/plots.py: {made.__name__} was not drawn: {error!r}", file=sys.stderr)


if __name__ == "__main__":
    main()
