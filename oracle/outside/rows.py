"""Counts of rows by dynamic programming over states: what rows.c prints of the C functions, from the request's words.

A row is read pixel by pixel. Its state is where the first run of at least `run` ink pixels starts, the last pixel of the last
such run, and how many ink pixels in a row it ends with (so many or more, from `run` on); a count goes with each state. No closed
form and no recurrence of the finder's is used.

    rows.py functions|odd    the lines of `rows functions`, or of `rows odd`"""
import sys

ODD = (0, 1, 2, 3, 4, 7, 8, 9, 10, 59, 60, 61, 62, 255, 256, 258, 264, 65538, 2147483648, 4294967295)


def steps(run, most):
    """For each length from 0 on, how many rows there are of each outline, None or (first, last)."""
    states = {(None, 0): 1}
    for length in range(most + 1):
        found = {}
        for (outline, _), count in states.items():
            found[outline] = found.get(outline, 0) + count
        assert sum(found.values()) == 2 ** length
        yield found
        after = {}
        for (outline, ink), count in states.items():
            light = (outline, 0)
            after[light] = after.get(light, 0) + count
            more = min(ink + 1, run)
            if more == run:
                first = outline[0] if outline else length - run + 1
                outline = (first, length)
            dark = (outline, more)
            after[dark] = after.get(dark, 0) + count
        states = after


def main():
    counts = {run: list(steps(run, 60)) for run in range(2, 9)}
    out = []

    def without(run, length):
        if not 2 <= run <= 8:
            out.append(f"run {run} length {length} refused 17")
        elif length > 60:
            out.append(f"run {run} length {length} refused 22")
        else:
            out.append(f"run {run} length {length} count {counts[run][length][None]}")

    def with_outline(run, length, first, last):
        places = f"from {first} to {last}"
        if not 2 <= run <= 8:
            out.append(f"run {run} length {length} refused 17 {places}")
        elif length > 60 or first >= length or last >= length:
            out.append(f"run {run} length {length} refused 22 {places}")
        else:
            out.append(f"run {run} length {length} count {counts[run][length].get((first, last), 0)} {places}")

    odd = sys.argv[1] == "odd"
    for run in ODD if odd else range(2, 9):
        for length in ODD if odd else range(61):
            without(run, length)
            for first in ODD if odd else range(length):
                for last in ODD if odd else range(length):
                    with_outline(run, length, first, last)
    print("\n".join(out))


main()
