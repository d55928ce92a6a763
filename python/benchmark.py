"""How many nights of 512 cars a second `derive` makes from Python, beside the bare C call.

    python3 benchmark.py

in this folder prints a table. Both get the same nights; the C call is timed in a C program of its own, made with gcc of the
archive that the package takes. Each number is the quickest of several rounds, by the time that the process had a processor,
so that what else runs on the machine counts little. It isn't a part of the gate.
"""

import random
import subprocess
import tempfile
import time
from array import array
from pathlib import Path

from altairpeg import Mark, Night, building, derive

CARS, NIGHTS, ROUNDS, REPEATS = 512, 128, 60, 2
INCLUDE = building.HERE.parent.parent / "include"

BARE = """
#include <stdio.h>
#include <time.h>
#include "altairpeg.h"
static uint16_t lengths[NIGHTS][64], inbound[NIGHTS][CARS], codes[CARS];
static double now(void) { struct timespec t; clock_gettime(CLOCK_PROCESS_CPUTIME_ID, &t); return t.tv_sec + t.tv_nsec / 1e9; }
int main(void) {
    if (fread(lengths, sizeof lengths, 1, stdin) != 1 || fread(inbound, sizeof inbound, 1, stdin) != 1) return 1;
    altairpeg_counts counts = {.tracks = 8, .room = 512, .steps = 8};
    double quickest = 1e9;
    for (int round = 0; round < ROUNDS; round++) {
        double start = now();
        for (int repeat = 0; repeat < REPEATS; repeat++)
            for (int night = 0; night < NIGHTS; night++)
                if (altairpeg_derive(lengths[night], 64, inbound[night], CARS, ALTAIRPEG_OPEN, counts, codes, CARS).number) return 1;
        double taken = now() - start;
        if (taken < quickest) quickest = taken;
    }
    printf("%.0f\\n", NIGHTS * REPEATS / quickest);
}
"""


def nights():
    """Open nights of 64 trains of 8 cars each, in random order, which 8 tracks always sort."""
    drawn = random.Random(1)
    return [Night([8] * 64, drawn.sample(range(1, CARS + 1), CARS), 8, 512, Mark.OPEN) for _ in range(NIGHTS)]


def bare(given):
    """Nights a second of the C call alone."""
    with tempfile.TemporaryDirectory() as folder:
        source, program = Path(folder) / "bare.c", Path(folder) / "bare"
        source.write_text(BARE)
        sizes = [f"-D{name}={globals()[name]}" for name in ("CARS", "NIGHTS", "ROUNDS", "REPEATS")]
        subprocess.run(["gcc", "-O2", *sizes, f"-I{INCLUDE}", source, building.archive(), "-o", program], check=True)
        lists = [night.lengths for night in given] + [night.inbound for night in given]
        data = b"".join(array("H", items).tobytes() for items in lists)
        return float(subprocess.run([program], input=data, capture_output=True, check=True).stdout)


def rate(given):
    """Nights a second of `derive`."""
    quickest = float("inf")
    for _ in range(ROUNDS):
        start = time.process_time()
        for _ in range(REPEATS):
            for night in given:
                derive(night)
        quickest = min(quickest, time.process_time() - start)
    return NIGHTS * REPEATS / quickest


def turned(night, form):
    """A night with its lists in another form."""
    return night._replace(lengths=form(night.lengths), inbound=form(night.inbound))


def forms(given):
    """The same nights in the forms that users have them in."""
    yield "lists", given
    yield "array('H')", [turned(night, lambda items: array("H", items)) for night in given]
    try:
        import numpy
    except ImportError:
        return
    for kind in ("uint16", "int64"):
        yield f"numpy {kind}", [turned(night, lambda items: numpy.array(items, kind)) for night in given]


def main():
    """Prints the table."""
    given = nights()
    alone = bare(given)
    print("| derive, 512 cars | nights/s | C call/this |\n|---|---|---|")
    print(f"| C call | {alone:.0f} | 1.0 |")
    for name, night in forms(given):
        reached = rate(night)
        print(f"| Python, {name} | {reached:.0f} | {alone / reached:.1f} |")


if __name__ == "__main__":
    main()
