"""Makes a table and a bar chart of what the benchmark prints: lines of a kind, an action and the microseconds of ours and
of the original. Of two lines of one kind and action, of the program at two places, the less of each counts; and of all such
pairs that of the median ratio, since a disturbed machine slows both. The rows come slowest first.

Usage: report.py CHART.svg < LINES > results.tsv
"""
import sys


def rows(lines):
    """(ratio, kind, action, ours, original) of each kind and action, slowest ratio first; those without an original last."""
    times = {}
    for line in lines:
        kind, action, ours, original = line.rstrip("\n").split("\t")
        times.setdefault((kind, action), []).append((float(ours), float(original)))
    found = []
    for (kind, action), single in times.items():
        pairs = [tuple(map(min, *two)) for two in zip(single[::2], single[1::2])]
        pairs.sort(key=lambda pair: pair[0] / pair[1] if pair[1] > 0 else pair[0])
        ours, original = pairs[len(pairs) // 2]
        ratio = ours / original if original > 0 else float("nan")
        found.append((ratio, kind, action, ours, original))
    return sorted(found, key=lambda row: (row[0] != row[0], -row[0] if row[0] == row[0] else 0))


# The colours of the chart, on light pages and on dark ones.
STYLE = """<style>
.page { fill: #ffffff; }
text { font: 12px sans-serif; fill: #1f2328; }
.longer { fill: #c0504d; }
.shorter { fill: #4f81bd; }
.one { stroke: #1f2328; }
@media (prefers-color-scheme: dark) {
.page { fill: #0d1117; }
text { fill: #e6edf3; }
.one { stroke: #e6edf3; }
}
</style>
<rect class="page" width="100%" height="100%"/>"""


def microseconds(time):
    if time != time:
        return "-"
    return f"{time:.0f}" if time >= 10 else f"{time:.2g}"


def table(found):
    yield "kind\taction\tours, µs\tthe original, µs\tratio"
    for ratio, kind, action, ours, original in found:
        shown = f"{ratio:.2f}" if ratio == ratio else "-"
        yield "\t".join([kind, action, microseconds(ours), microseconds(original), shown])


def chart(found):
    """Bars as long as the ratio, up to 2, with a line at 1."""
    found = [row for row in found if row[0] == row[0]]
    height, left, scale = 18, 350, 220
    yield (
        f'<svg xmlns="http://www.w3.org/2000/svg" width="{left + 2 * scale + 60}" height="{height * len(found) + 40}">'
    )
    yield STYLE
    yield '<text x="4" y="14">time of ours / time of the original; shorter is faster, and bars end at 2</text>'
    for n, (ratio, kind, action, _, _) in enumerate(found):
        top = 24 + n * height
        kind_of_bar = "longer" if ratio > 1.05 else "shorter"
        text = f"{kind}, {action}".replace("&", "&amp;").replace("<", "&lt;")
        length = max(1, round(min(ratio, 2) * scale))
        yield f'<text x="{left - 6}" y="{top + 12}" text-anchor="end">{text}</text>'
        yield f'<rect x="{left}" y="{top + 2}" width="{length}" height="{height - 5}" class="{kind_of_bar}"/>'
        yield f'<text x="{left + length + 4}" y="{top + 12}">{ratio:.2f}</text>'
    bottom = 24 + height * len(found)
    yield f'<line x1="{left + scale}" y1="22" x2="{left + scale}" y2="{bottom}" class="one"/>'
    yield "</svg>"


def main():
    found = rows(sys.stdin)
    with open(sys.argv[1], "w", encoding="utf-8") as file:
        file.write("\n".join(chart(found)) + "\n")
    print("\n".join(table(found)))


if __name__ == "__main__":
    main()
