"""The charts of the documents, which gnuplot draws of docs/figures.tsv. `pictures.py` makes and checks them.

A chart is drawn once all of its figures are in the file.
"""

import re
import shutil
import subprocess

from places import ROOT

# what is shown of an image, its name in the figures, and the chain
BESIDE = [
    ("page", "page", "pamcut -left 8 -right -9 | pamflip -lr | pnminvert"),
    ("page", "page", "pnminvert"),
    ("scan", "scan", "pnminvert"),
    ("scan", "scan", "pamflip -xy"),
    ("color", "color", "pamdepth 100"),
    ("color", "color", "pamflip -xy"),
    ("color", "color", "--plain pnminvert"),
    ("gray, 64 a row", "64 a row", "pamcut -left 8 | pamdepth 127"),
    ("20,000 of 64 by 64", "64 by 64", "pamcut -left 8 | pamdepth 127"),
    ("100,000 of 1 by 1", "1 by 1", "pamcut | pamcut | pamcut"),
    ("16 bits, 2,480 a row", "words of 2480", "pamenlarge 32"),
]

# the columns of images and the numbers of tools of which bench/curves.py measures the processor time
WIDTHS = [1, 4, 16, 64, 256, 1000, 4000, 20000]
NUMBERS = [1, 2, 4, 8, 16]
TOOL = "pnminvert"

BARS = """
set terminal svg size 800,{height} font "sans-serif,13" background "#ffffff"
set lmargin at screen .46
set rmargin at screen .97
set tmargin 2.5
set xrange [0:1.75]
set yrange [{count}-.4:-.6]
set xtics nomirror 0, .25, 1
set ytics nomirror scale 0
set border 1
set key at screen .97, screen .97 horizontal samplen 1
set label "Wall time as a part of Netpbm's" at screen .02, screen .95
$rows << END
{rows}
END
plot $rows using (.5):0:(.5):(.38):yticlabels(1) with boxxyerror fs solid noborder lc rgb "#d5d9e0" title "Netpbm", \\
    $rows using ($2/$3/2):0:($2/$3/2):(.22) with boxxyerror fs solid noborder lc rgb "#2f6db5" title "pnmpipe", \\
    $rows using (1.12):0:(sprintf("%.3f s (Netpbm %.3f s)", $2, $3)) with labels left notitle
"""

CURVES = """
set terminal svg size 640,360 font "sans-serif,13" background "#ffffff"
set logscale xy
set xrange [{first}/1.2:{last}*1.2]
set xtics ({ticks})
set format y "%g"
set xlabel "{label}"
set ylabel "Processor time, s"
set grid ytics lc rgb "#d5d9e0"
set border 3
set tics nomirror
set key outside top center horizontal
{blocks}
plot {plots}
"""
FORMS = ['lc rgb "#2f6db5" pt 7', 'lc rgb "#8a93a3" pt 7', 'lc rgb "#2f6db5" dt 2 pt 6', 'lc rgb "#8a93a3" dt 2 pt 6']


def figures():
    """The seconds of the program and of Netpbm's tools, by image and chain: by the clock, and of the processors where
    they are there."""
    with open(f"{ROOT}/docs/figures.tsv", encoding="utf-8") as file:
        lines = [line.rstrip("\n").split("\t") for line in file if not line.startswith("#")]
    return {(image, chain): seconds for image, chain, *seconds in lines}


def beside_netpbm(known):
    """The program's time as a part of Netpbm's, a bar for each image and chain."""
    rows = [f'"{shown}: {chain}" {" ".join(known[image, chain][:2])}' for shown, image, chain in BESIDE]
    return BARS.format(height=80 + 26 * len(rows), count=len(rows), rows="\n".join(rows))


def columns(width, form):
    """The name of an image in the figures."""
    return f"{width} columns, {form}"


def curves(label, places, lines):
    """A curve of processor time for each line of figures, over the same places."""
    blocks, plots = [], []
    for at, (title, seconds) in enumerate(lines):
        rows = "\n".join(f"{place} {time}" for place, time in zip(places, seconds))
        blocks.append(f"$line{at} << END\n{rows}\nEND")
        plots.append(f'$line{at} with linespoints lw 2 {FORMS[at]} title "{title}"')
    ticks = ", ".join(f'"{place:,}" {place}' for place in places)
    texts = {"label": label, "ticks": ticks, "blocks": "\n".join(blocks), "plots": ", ".join(plots)}
    return CURVES.format(first=places[0], last=places[-1], **texts)


def by_width(known):
    """Processor time of one tool over as many samples in rows of other widths, raw and plain."""
    lines = []
    for form in ("raw", "plain"):
        measured = [known[columns(width, form), TOOL] for width in WIDTHS]
        for at, name in ((2, "pnmpipe"), (3, "Netpbm")):
            lines.append((f"{name}, {form}", [seconds[at] for seconds in measured]))
    return curves("Columns of a row", WIDTHS, lines)


def by_tools(known):
    """Processor time of chains of more and more tools over one image."""
    measured = [known["sheet", " | ".join([TOOL] * number)] for number in NUMBERS]
    lines = [(name, [seconds[at] for seconds in measured]) for at, name in ((2, "pnmpipe"), (3, "Netpbm"))]
    return curves("Tools of the chain", NUMBERS, lines)


CHARTS = {"beside-netpbm": beside_netpbm, "by-width": by_width, "by-tools": by_tools}


def drawn():
    """Each chart whose figures are there, by its name, as gnuplot draws it."""
    made, known = {}, figures()
    for name, script_of in CHARTS.items():
        try:
            script = script_of(known)
        except LookupError:
            continue
        made[name] = subprocess.run(["gnuplot"], input=script, stdout=subprocess.PIPE, check=True, text=True).stdout
    return made


def can_draw():
    return shutil.which("gnuplot") is not None


def told_in(chart):
    return re.findall("<desc>(.*)</desc>", chart), re.findall("<tspan[^>]*>([^<]*)", chart)


def are_the_same(one, other):
    """Whether two charts are the same; where other versions of gnuplot drew them, whether their texts are."""
    (version, texts), (other_version, other_texts) = told_in(one), told_in(other)
    return one == other if version == other_version else texts == other_texts
