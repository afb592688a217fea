#!/usr/bin/env python3
"""Draws a run as an SVG: the speed of each tick above, below it a row for each task with the time in which it ran.

    target/bin/bench < examples/density-head.csv > printed
    python3 docs/picture.py examples/density-head.csv --names lamp,reading,filter,radio < printed > docs/run.svg

Reads the run file and, on standard input, what the bench prints for it. The same input gives the same bytes. A run that was
refused, a text that cannot be read and a printed run whose ticks, finishes or total do not fit the run file get a line on
standard error and status 1; that the bench would print just this run is not looked into.
It is made for runs of up to some 100 ticks; a longer one is drawn too, with bars that no eye can tell apart.
"""

import argparse
import pathlib
import re
import sys
from fractions import Fraction
from html import escape
from typing import NamedTuple

WIDTH, LEFT, RIGHT = 960, 148, 12       # the whole, what is left of tick 0, what is right of the last tick
SPEEDS_TOP, SPEEDS_HIGH = 85, 84        # the panel of speeds: its top speed's line, and how far below it 0 is
ROWS_TOP, ROW_HIGH, BAR_HIGH = 180, 32, 17
FONT = "-apple-system, 'Segoe UI', Roboto, 'Helvetica Neue', Arial, 'Liberation Sans', 'DejaVu Sans', sans-serif"
COLOURS = ["#0072B2", "#E69F00", "#009E73", "#CC79A7", "#56B4E9", "#D55E00"]   # Okabe and Ito's, told apart by all eyes
INK, GREY, FAINT, GUIDE, SPEED = "#1b1f24", "#57606a", "#d0d7de", "#8c959f", "#3f4f63"
WORDS = ["no", "one", "two", "three", "four", "five", "six", "seven", "eight"]


class Unreadable(Exception):
    """Says what is wrong with the input, in one line."""


class RunFile(NamedTuple):
    tasks: list     # (period, reserve)
    speeds: list    # (cycles per tick, tenths of a volt)
    ends: dict      # (tick, task from 0) -> cycles in all
    ticks: int


class Printed(NamedTuple):
    rows: list      # (speed, grants, idle), one for each tick
    granted: int
    idle: int
    energy: int
    late: int
    cut: int


class Drawn(NamedTuple):
    bars: list      # for each task the (from, to) of its bars, in ticks
    idle: list      # the same for idle time
    early: list     # (task, place) of each job that finished with some of its reserve left
    full: list      # (task, place) of each job that finished as its reserve was used up
    cut: list       # (task, place) of each job that used its reserve up without a finish


def records(text, what):
    """The lines of a text as (word or nothing, numbers)."""
    for number, line in enumerate(text.splitlines(), 1):
        if not re.fullmatch(r"([a-z]+|[0-9]{1,20})(,[0-9]{1,20})+", line):
            raise Unreadable(f"line {number} of the {what} cannot be read")
        word, *fields = line.split(",")
        yield (word, [int(field) for field in fields]) if word.isalpha() else ("", [int(word), *map(int, fields)])


def run_file(text):
    tasks, speeds, ends, ticks = [], [], {}, None
    for word, fields in records(text, "run file"):
        if ticks is not None or (word, len(fields)) not in [("task", 2), ("speed", 2), ("end", 3), ("run", 1)]:
            raise Unreadable("not a run file")
        if word == "task":
            tasks.append(tuple(fields))
        elif word == "speed":
            speeds.append(tuple(fields))
        elif word == "end":
            ends[fields[0], fields[1] - 1] = fields[2]
        else:
            ticks = fields[0]
    if not tasks or not speeds or not ticks or min(map(min, tasks + speeds)) == 0:
        raise Unreadable("the run file has no task, no speed or no tick to draw, or a 0 among them")
    return RunFile(tasks, speeds, ends, ticks)


def printed_run(text, plan):
    rows, total = [], None
    for word, fields in records(text, "printed run"):
        if word == "refused":
            raise Unreadable(f"the run was refused: {fields[0]}")
        if total is not None or (word, len(fields)) not in [("", len(plan.tasks) + 3), ("total", 5)]:
            raise Unreadable("the printed run is not of this run file, or not what the bench prints")
        if word:
            total = fields
        elif fields[0] == len(rows) and fields[1] in dict(plan.speeds) and sum(fields[2:]) == fields[1]:
            rows.append((fields[1], fields[2:-1], fields[-1]))
        else:
            raise Unreadable(f"tick {len(rows)} of the printed run is missing, or its speed is not listed or not its cycles")
    if total is None or len(rows) != plan.ticks:
        raise Unreadable("the printed run has no total, or not as many ticks as the run file")
    return Printed(rows, *total)


def lay_out(plan, run):
    """Where each bar and each mark is. In a tick the jobs run by deadline, then by number, each for its share of the speed."""
    drawn = Drawn([[] for _ in plan.tasks], [], [], [], [])
    used = [0] * len(plan.tasks)
    ends = dict(plan.ends)
    for tick, (speed, grants, idle) in enumerate(run.rows):
        place = Fraction(tick)
        for task in sorted(range(len(plan.tasks)), key=lambda i: (plan.tasks[i][0] - tick % plan.tasks[i][0], i)):
            period, reserve = plan.tasks[task]
            used[task] = grants[task] + (used[task] if tick % period else 0)
            if not grants[task]:
                continue
            begin, place = place, place + Fraction(grants[task], speed)
            add(drawn.bars[task], begin, place, begin % period != 0)
            finish = ends.get((tick, task))
            if finish == used[task]:
                del ends[tick, task]
            if finish is None and used[task] == reserve:
                drawn.cut.append((task, place))
            elif finish is not None:
                (drawn.early if finish < reserve else drawn.full).append((task, place))
        if idle:
            add(drawn.idle, place, place + Fraction(idle, speed), True)
    if ends:
        raise Unreadable("the printed run has not the finishes of the run file")
    return drawn


def add(bars, begin, end, joins):
    """A bar more; where it touches the one before, and belongs to the same job, that one is lengthened."""
    if joins and bars and bars[-1][1] == begin:
        begin = bars.pop()[0]
    bars.append((begin, end))


def hold(plan, run, drawn):
    """Holds the total line to the ticks, and to what is drawn."""
    volts = dict(plan.speeds)
    sums = (sum(sum(grants) for _, grants, _ in run.rows), sum(idle for _, _, idle in run.rows),
            sum(sum(grants) * volts[speed] ** 2 for speed, grants, _ in run.rows), 0, len(drawn.cut))
    if sums != run[1:]:
        raise Unreadable("the printed run's total is not that of its ticks")


def number(value):
    """At most two decimals, and none that are 0."""
    cents = round(value * 100)
    whole, rest = divmod(cents, 100)
    return f"{whole}.{rest:02}".rstrip("0") if rest else str(whole)


def count(many, one, more):
    return f"{WORDS[many] if many < len(WORDS) else many} {one if many == 1 else more}"


def text(x, y, words, size, more=""):
    return f'<text x="{number(x)}" y="{number(y)}" font-size="{number(size)}"{more}>{words}</text>'


def fitting(words, size, room):
    """A size of type at which the words stay inside the room, as far as a guess of their width goes."""
    return min(Fraction(size), Fraction(room * 2, len(words)))


def boxes(bars, x, top, high):
    return "".join(f"M{number(x(begin))} {top}H{number(x(end))}v{high}H{number(x(begin))}z" for begin, end in bars)


def dot(x, y):
    return f'<circle cx="{number(x)}" cy="{number(y)}" r="4.2" fill="{INK}" stroke="#fff" stroke-width="1.4"/>'


def ring(x, y):
    return dot(x, y) + f'<circle cx="{number(x)}" cy="{number(y)}" r="1.8" fill="#fff"/>'


def cross(x, y):
    strokes = f"M{number(x - 4)} {number(y - 4)}l8 8m0 -8l-8 8"
    return (f'<path d="{strokes}" stroke="#fff" stroke-width="5" stroke-linecap="round"/>'
            f'<path d="{strokes}" stroke="{INK}" stroke-width="2.2" stroke-linecap="round"/>')


def flags(places, top, high):
    """Marks of releases and deadlines: a thin line with a small triangle that points down."""
    lines = "".join(f"M{number(x)} {top}v{high}" for x in places)
    heads = "".join(f"M{number(x - 4)} {top}h8l-4 6z" for x in places)
    return f'<path d="{lines}" stroke="{INK}" stroke-width="1"/><path d="{heads}" fill="{INK}"/>'


def spans(run):
    """The ticks of one speed after another, as (speed, first, after the last)."""
    found = []
    for tick, (speed, _, _) in enumerate(run.rows):
        if found and found[-1][0] == speed:
            found[-1][2] = tick + 1
        else:
            found.append([speed, tick, tick + 1])
    return found


def told(plan, run, drawn):
    """The title line and the line below it."""
    title = f"A run of {count(len(plan.tasks), 'task', 'tasks')}: "
    if any(after < before for (before, _, _), (after, _, _) in zip(run.rows, run.rows[1:])):
        title += "as jobs finish early the clock is lowered, and no job is late"
    else:
        title += "no job is late"
    top = run.granted * plan.speeds[-1][1] ** 2
    saved = (200 * (top - run.energy) + top) // (2 * top)
    below = f"Energy {run.energy:,}; the same work at top speed throughout would use {top:,}"
    below += f" ({saved}% saved)" if saved else ""
    below += f". {count(run.cut, 'job was', 'jobs were').capitalize()} cut, the reserve used up" if run.cut else ""
    return title, below + "."


def description(plan, run, names):
    speeds = ", ".join(f"{speed} in ticks {first} to {after - 1}" for speed, first, after in spans(run))
    tasks = "; ".join(f"{name}, at most {reserve} cycles every {period} ticks"
                      for name, (period, reserve) in zip(names, plan.tasks))
    return (f"Above, the speed of each of {plan.ticks} ticks in cycles per tick: {speeds}. Below, a row for each task with the "
            f"time in which it ran and its deadlines: {tasks}. The last row is idle time.")


def speed_panel(plan, run, x):
    top_speed = plan.speeds[-1][0]
    floor = SPEEDS_TOP + SPEEDS_HIGH

    def y(speed):
        return floor - Fraction(speed * SPEEDS_HIGH, top_speed)

    out = [f'<text x="10" y="{SPEEDS_TOP - 14}" font-size="14" font-weight="600">speed'
           f'<tspan font-size="11.5" font-weight="400" fill="{GREY}" dx="6">cycles per tick · volts</tspan></text>']
    steps = "".join(f"V{number(y(speed))}H{number(x(after))}" for speed, _, after in spans(run))
    out.append(f'<path d="M{LEFT} {floor}{steps}V{floor}z" fill="{SPEED}" fill-opacity=".16"/>')
    lines = "".join(f"M{LEFT} {number(y(speed))}H{WIDTH - RIGHT}" for speed, _ in plan.speeds)
    out.append(f'<path d="{lines}" stroke="{FAINT}"/><path d="M{LEFT} {floor}H{WIDTH - RIGHT}" stroke="{GREY}"/>')
    first = f"M{LEFT} {number(y(run.rows[0][0]))}"
    out.append(f'<path d="{first}{steps}" fill="none" stroke="{SPEED}" stroke-width="2.5"/>')
    used = {speed for speed, _, _ in run.rows}
    labels = [(y(speed), f"{speed:,} · {volts // 10}.{volts % 10} V", speed in used) for speed, volts in plan.speeds]
    placed = []
    for place, words, _ in [*sorted(labels, key=lambda label: (not label[2], label[0])), (Fraction(floor), "0", False)]:
        if all(abs(place - other) >= 12 for other in placed):    # a label that has no room is left out
            placed.append(place)
            out.append(text(LEFT - 8, place + 4, words, 12, ' text-anchor="end"'))
    return out


def task_row(task, plan, drawn, names, x):
    period, reserve = plan.tasks[task]
    top = ROWS_TOP + task * ROW_HIGH
    bar = top + ROW_HIGH - BAR_HIGH - 4
    small = f"≤ {reserve:,} cycles / {period:,} tick{'s' if period > 1 else ''}"
    middle = bar + Fraction(BAR_HIGH, 2)
    return [
        text(10, top + 15, escape(names[task]), fitting(names[task], 14, LEFT - 14), ' font-weight="600"'),
        text(10, top + 28, small, fitting(small, Fraction(23, 2), LEFT - 14), f' fill="{GREY}"'),
        f'<path d="M{LEFT} {bar + BAR_HIGH}H{WIDTH - RIGHT}" stroke="{FAINT}"/>',
        f'<path d="{boxes(drawn.bars[task], x, bar, BAR_HIGH)}" fill="{COLOURS[task % len(COLOURS)]}"/>',
        flags([x(tick) for tick in range(0, plan.ticks + 1, period)], top + 5, ROW_HIGH - 9),
        *(dot(x(place), middle) for who, place in drawn.early if who == task),
        *(ring(x(place), middle) for who, place in drawn.full if who == task),
        *(cross(x(place), middle) for who, place in drawn.cut if who == task),
    ]


def idle_row(plan, run, drawn, x):
    top = ROWS_TOP + len(plan.tasks) * ROW_HIGH
    bar = top + ROW_HIGH - BAR_HIGH - 4
    return [
        f'<text x="10" y="{bar + 13}" font-size="14" font-weight="600" fill="{GREY}">idle'
        f'<tspan font-size="11.5" font-weight="400" dx="6">{run.idle:,} cycles</tspan></text>',
        f'<path d="{boxes(drawn.idle, x, bar, BAR_HIGH)}" fill="url(#idle)" stroke="{FAINT}"/>',
    ]


def axis(plan, x):
    y = ROWS_TOP + (len(plan.tasks) + 1) * ROW_HIGH + 2
    step = 1 if plan.ticks <= 10 else 5 if plan.ticks <= 60 else 10 * -(-plan.ticks // 250)
    labels = range(0, plan.ticks + 1, step)
    small = "".join(f"M{number(x(tick))} {y}v4" for tick in range(plan.ticks + 1)) if plan.ticks <= 250 else ""
    large = "".join(f"M{number(x(tick))} {y}v7" for tick in labels)
    return [f'<path d="M{LEFT} {y}H{WIDTH - RIGHT}{small}{large}" stroke="{GREY}"/>',
            text(LEFT - 8, y + 19, "tick", 12, f' text-anchor="end" fill="{GREY}"'),
            *(text(x(tick), y + 19, tick, 12, f' text-anchor="middle" fill="{GREY}"') for tick in labels)]


def legend(plan, run, drawn):
    """One line of what the marks mean; a mark that this run has none of is left out."""
    y = ROWS_TOP + (len(plan.tasks) + 1) * ROW_HIGH + 43
    parts = [(True, flags([14], y - 11, 14), "release, and deadline of the job before", 252),
             (drawn.early, dot(14, y - 4), "finished early", 112),
             (drawn.full, ring(14, y - 4), "finished as its reserve ended", 192),
             (drawn.cut, cross(14, y - 4), "cut: reserve used up, no finish", 200),
             (len(spans(run)) > 1, guide(f"M14 {y - 12}v16"), "the speed changes", 0)]
    out, shift = [], 0
    for _, mark, words, wide in filter(lambda part: part[0], parts):
        out.append(f'<g transform="translate({shift})">{mark}{text(24, y, words, 12)}</g>')
        shift += wide
    return out


def guide(lines):
    return f'<path d="{lines}" stroke="{GUIDE}" stroke-dasharray="2 3"/>'


def guides(plan, run, x):
    """Dashed lines through all rows where the speed changes."""
    foot = ROWS_TOP + (len(plan.tasks) + 1) * ROW_HIGH + 2
    return guide("".join(f"M{number(x(first))} {SPEEDS_TOP + SPEEDS_HIGH}V{foot}" for _, first, _ in spans(run)[1:]))


def picture(plan, run, drawn, names):
    high = ROWS_TOP + (len(plan.tasks) + 1) * ROW_HIGH + 56
    title, below = told(plan, run, drawn)

    def x(tick):
        return LEFT + Fraction(tick) * (WIDTH - LEFT - RIGHT) / plan.ticks

    return "\n".join([
        f'<svg xmlns="http://www.w3.org/2000/svg" width="{WIDTH}" height="{high}" viewBox="0 0 {WIDTH} {high}" role="img"'
        f' aria-labelledby="title desc" font-family="{FONT}" fill="{INK}">',
        f'<title id="title">{title}</title>',
        f'<desc id="desc">{escape(description(plan, run, names))} {below}</desc>',
        '<defs><pattern id="idle" width="6" height="6" patternUnits="userSpaceOnUse" patternTransform="rotate(45)">'
        f'<path d="M0 0V6" stroke="{FAINT}" stroke-width="3"/></pattern></defs>',
        f'<rect width="{WIDTH}" height="{high}" rx="6" fill="#fff"/>',
        text(10, 27, title, 18, ' font-weight="600"'),
        text(10, 48, below, 13, f' fill="{GREY}"'),
        guides(plan, run, x),
        *speed_panel(plan, run, x),
        *(line for task in range(len(plan.tasks)) for line in task_row(task, plan, drawn, names, x)),
        *idle_row(plan, run, drawn, x),
        *axis(plan, x),
        *legend(plan, run, drawn),
        "</svg>\n",
    ])


def main():
    options = argparse.ArgumentParser(description="Draws a run as an SVG.")
    options.add_argument("runfile", type=pathlib.Path)
    options.add_argument("--names", help="names of the tasks, with commas between them")
    asked = options.parse_args()
    try:
        plan = run_file(asked.runfile.read_text("ascii"))
        run = printed_run(sys.stdin.buffer.read().decode("ascii"), plan)
        drawn = lay_out(plan, run)
        hold(plan, run, drawn)
        names = asked.names.split(",") if asked.names else [f"task {i}" for i in range(1, len(plan.tasks) + 1)]
        if len(names) != len(plan.tasks) or not all(name and name.isprintable() for name in names):
            raise Unreadable("not a name for each task, in characters that can be printed")
    except (Unreadable, OSError, UnicodeDecodeError) as error:
        print(f"picture.py: {error}", file=sys.stderr)
        return 1
    sys.stdout.buffer.write(picture(plan, run, drawn, names).encode())
    return 0


if __name__ == "__main__":
    sys.exit(main())
