"""Draws how many formulas each program has decided after a time."""
import subprocess

# Times below it are told with less than a digit that is sure.
LEAST_SECONDS = 0.001
SETTINGS = """\
set terminal svg size 760,460 font 'sans-serif,13' background rgb 'white'
set logscale x
set format x '%g'
set xlabel 'seconds of the processor for a formula'
set ylabel 'formulas decided'
set yrange [0:{top}]
set key bottom right
set grid
"""


def steps_of(times):
    """The points at which the count of decided formulas rises, the first one at the left edge."""
    rises = [max(time, LEAST_SECONDS) for time in sorted(times)]
    return [(LEAST_SECONDS, 0), *((time, place + 1) for place, time in enumerate(rises))]


def block(place, times):
    """The points as a named block of data, which gnuplot reads before it draws."""
    points = "\n".join(f"{time:.6f} {decided}" for time, decided in steps_of(times))
    return f"$curve{place} << end\n{points}\nend\n"


def draw(path, count, curves):
    """Writes an SVG with a curve for each name and the seconds that its program took for each formula that it decided, of so many formulas."""
    blocks = "".join(block(place, times) for place, (_, times) in enumerate(curves))
    drawn = ", ".join(f"$curve{place} with steps linewidth 2 title '{name}'" for place, (name, _) in enumerate(curves))
    script = f"{SETTINGS.format(top=count + 1)}set output '{path}'\n{blocks}plot {drawn}\n"
    subprocess.run(["gnuplot"], input=script, text=True, check=True)
