#!/usr/bin/env python3
"""Prints a recording of the first five minutes: an SVG that shows README's commands and their output as a terminal does.

    python3 -B tools/record.py > docs/five-minutes.svg

Commands and output are those of README's blocks down to the daemon, which tests/check_pages.py runs and compares. A
viewer without animations shows the first lines. tests/check_repository.py compares the file with what this prints.
"""
import re
import sys
from html import escape
from pathlib import Path

README = Path(__file__).resolve().parent.parent / "README.md"
LAST = "\n## The daemon\n"
BLOCK = re.compile(r"^```(sh|console)\n(.*?)^```$", re.MULTILINE | re.DOTALL)
COLUMNS, ROWS = 80, 20
# In pixels, and in seconds.
WIDTH, HEIGHT, MARGIN = 8.4, 20, 16
BEFORE_OUTPUT, AFTER_LINE, AFTER_OUTPUT = 1, 0.5, 1.5
STYLE = """\
text{font:14px monospace;white-space:pre;fill:#ddd}
.command{fill:#fff;font-weight:bold}
text{animation-name:hidden}
@keyframes hidden{from,to{visibility:hidden}}
"""


def shown(page):
    """The lines of the page's blocks as a terminal has them, each with whether it is a command."""
    for kind, text in BLOCK.findall(page.partition(LAST)[0]):
        for line in text.splitlines():
            yield (f"$ {line}", True) if kind == "sh" else (line, line.startswith("$ "))


def rows_of(line):
    """The line in pieces as wide as the terminal."""
    return [line[at : at + COLUMNS] for at in range(0, len(line), COLUMNS)]


def timed(lines):
    """Each row with whether it is of a command, and the second at which it appears."""
    second, after_output = 0.0, False
    for line, is_command in lines:
        if is_command and after_output:
            second += AFTER_OUTPUT
        for row in rows_of(line):
            yield row, is_command, second
        second += BEFORE_OUTPUT if is_command else AFTER_LINE
        after_output = not is_command


def text_of(at, row, is_command, second):
    """A row's element. It is hidden until its second."""
    kind = ' class="command"' if is_command else ""
    return f'<text{kind} y="{(at + 1) * HEIGHT}" style="animation-duration:{second:g}s">{escape(row, quote=False)}</text>'


def scrolling(rows):
    """The rule that moves the rows up where the terminal is full, and how many seconds all takes."""
    whole = rows[-1][2] + AFTER_OUTPUT
    moves = {second: at + 1 - ROWS for at, (_, _, second) in enumerate(rows) if at >= ROWS}
    moves[whole] = len(rows) - ROWS
    steps = "".join(f"{100 * second / whole:.2f}%{{transform:translateY({-count * HEIGHT}px)}}" for second, count in moves.items())
    return f"@keyframes scroll{{{steps}}}\n.rows{{animation:scroll {whole:g}s step-end forwards}}\n"


def recording(page):
    """The whole file."""
    rows = list(timed(shown(page)))
    wide, high = COLUMNS * WIDTH + 2 * MARGIN, ROWS * HEIGHT + 2 * MARGIN
    texts = "\n".join(text_of(at, *row) for at, row in enumerate(rows))
    return f"""\
<svg xmlns="http://www.w3.org/2000/svg" xml:space="preserve" width="{wide:g}" height="{high}" viewBox="0 0 {wide:g} {high}">
<title>The first five minutes of panad</title>
<style>
{STYLE}{scrolling(rows)}</style>
<rect width="100%" height="100%" rx="8" fill="#222"/>
<svg x="{MARGIN}" y="{MARGIN - 4}" width="{COLUMNS * WIDTH:g}" height="{ROWS * HEIGHT + 8}">
<g class="rows">
{texts}
</g>
</svg>
</svg>
"""


if __name__ == "__main__":
    sys.stdout.write(recording(README.read_text(encoding="utf-8")))
