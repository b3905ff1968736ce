#!/usr/bin/env python3
"""Counts the arrows of a picture that run through a dot.

    .ci/pictures/clear.py < PICTURE.svg

It reads nothing but the elements: a dot is a `g` with its outline (a ring around that isn't counted), an arrow a `polyline`. An arrow runs through a dot where one of its lines
has a point within the dot's outline, taken as a rectangle; at the two dots that it joins it only touches that.
"""

import bisect
import re
import sys
import xml.etree.ElementTree as tree
from fractions import Fraction

SVG = "{http://www.w3.org/2000/svg}"
OUTLINES = (f"{SVG}rect", f"{SVG}polygon")


def box_of(outline):
    """Where the rectangle around an outline begins, and how wide and high it is."""
    if outline.tag == f"{SVG}rect":
        return tuple(int(outline.get(name)) for name in ("x", "y", "width", "height"))
    xs, ys = zip(*(map(int, point.split(",")) for point in outline.get("points").split()))
    return min(xs), min(ys), max(xs) - min(xs), max(ys) - min(ys)


def dots_of(root):
    """The rectangles of the dots, from the highest down."""
    dots = []
    for group in root.iter(f"{SVG}g"):
        x, y = map(int, re.fullmatch(r"translate\((\d+),(\d+)\)", group.get("transform")).groups())
        left, top, width, height = box_of(next(shape for shape in group if shape.tag in OUTLINES and shape.get("class") != "r"))
        dots.append((y + top, y + top + height, x + left, x + left + width))
    return sorted(dots)


def arrows_of(root):
    """The points of each arrow, with its class."""
    for line in root.iter(f"{SVG}polyline"):
        yield line.get("class"), [tuple(map(int, point.split(","))) for point in line.get("points").split()]


def inside(start, end, low, high):
    """For which parts of a way from one place to another one is between two others: an open range of 0 to 1, or None."""
    if start == end:
        return (Fraction(-1), Fraction(2)) if low < start < high else None
    ends = sorted((Fraction(low - start, end - start), Fraction(high - start, end - start)))
    return tuple(ends)


def meets(p, q, dot):
    """Whether the line between two points has one within a dot."""
    top, bottom, left, right = dot
    across, down = inside(p[0], q[0], left, right), inside(p[1], q[1], top, bottom)
    if across is None or down is None:
        return False
    low, high = max(across[0], down[0]), min(across[1], down[1])
    return low < high and low < 1 and high > 0


def runs_through(points, dots):
    """Whether a line of an arrow runs through one of the dots."""
    for p, q in zip(points, points[1:]):
        low, high = sorted((p[1], q[1]))
        for place in range(bisect.bisect_left(dots, (low - 100,)), len(dots)):
            if dots[place][0] > high:
                break
            if meets(p, q, dots[place]):
                return True
    return False


def share_a_stretch(p, q, r, s):
    """Whether two straight lines lie on one another for a while: they run the same way, in one line, and there is more than a point of both."""
    across, down = q[0] - p[0], q[1] - p[1]
    if any(across * (end[1] - p[1]) != down * (end[0] - p[0]) for end in (r, s)):
        return False
    axis = 0 if abs(across) >= abs(down) else 1
    (low, high), (other_low, other_high) = (sorted((one[axis], other[axis])) for one, other in ((p, q), (r, s)))
    return max(low, other_low) < min(high, other_high)


def lie_on_one_another(points, others):
    """Whether two arrows do so."""
    return any(share_a_stretch(p, q, r, s) for p, q in zip(points, points[1:]) for r, s in zip(others, others[1:]))


def count(picture):
    """How many arrows a picture has, and how many of them run through a dot."""
    root = tree.fromstring(picture)
    dots = dots_of(root)
    through = [runs_through(points, dots) for _, points in arrows_of(root)]
    return len(through), sum(through)


if __name__ == "__main__":
    arrows, through = count(sys.stdin.buffer.read())
    print(f"{arrows} arrows, {through} through a dot")
    sys.exit(1 if through else 0)
