#!/usr/bin/env python3
"""Says what a picture's style hides, or shows too faintly, on a light page and on a dark one.

    .ci/pictures/seen.py < PICTURE.svg

A shape is seen if its fill or its line has a contrast of 3 to 1 at least against the ground, a text if it has 4.5 to 1 against each of the grounds that
it stands on: the ground and a band, or the dot. The style may say nothing of these but colours, widths, dashes, heads of arrows, fonts and in which order a text is painted, so that it can't hide
or move what it doesn't paint over.
"""

import re
import sys
import xml.etree.ElementTree as tree

SVG = "{http://www.w3.org/2000/svg}"
SHAPES, LINES = ("rect", "polygon"), ("line", "polyline", "path")
PROPERTIES = {"fill", "stroke", "stroke-width", "stroke-dasharray", "marker-end", "marker-mid", "text-anchor", "font", "font-size", "font-weight", "paint-order"}
INHERITED = {"fill": "#000", "stroke": "none", "stroke-width": "1"}
SHAPE_CONTRAST, TEXT_CONTRAST, LEAST_FONT = 3, 4.5, 10
DARK = re.compile(r"@media \(prefers-color-scheme:dark\)\{((?:[^{}]*\{[^{}]*\})*)\}")


def rules_of(text):
    """The selectors of a style, as words, each with what it declares."""
    rules = []
    for selectors, body in re.findall(r"([^{}]+)\{([^{}]*)\}", text):
        declared = dict(part.split(":", 1) for part in body.split(";") if part)
        rules += [(selector.split(), declared) for selector in selectors.split(",")]
    return rules


def pages_of(root):
    """The rules for a light page, and for a dark one."""
    text = root.find(f"{SVG}style").text
    light = DARK.sub("", text)
    return {"light": rules_of(light), "dark": rules_of(light) + [rule for dark in DARK.findall(text) for rule in rules_of(dark)]}


def fits(word, element):
    return word[1:] in element.get("class", "").split() if word.startswith(".") else element.tag == f"{SVG}{word}"


def selects(words, path):
    """Whether a selector selects the last element of a path."""
    if not fits(words[-1], path[-1]):
        return False
    left = words[:-1]
    for element in reversed(path[:-1]):
        if left and fits(left[-1], element):
            left = left[:-1]
    return not left


def style_of(path, rules):
    """What is declared of the last element of a path: by the selector with the most classes, then the most tags, then the last one."""
    style = dict(INHERITED) if len(path) == 1 else style_of(path[:-1], rules)
    found = [(sum(word[0] == "." for word in words), len(words), place, declared) for place, (words, declared) in enumerate(rules) if selects(words, path)]
    for *_, declared in sorted(found, key=lambda it: it[:3]):
        style.update(declared)
    return style


def light_of(colour):
    """The relative luminance of a colour."""
    digits = colour[1:] if len(colour) == 7 else "".join(2 * digit for digit in colour[1:])
    parts = [int(digits[at : at + 2], 16) / 255 for at in (0, 2, 4)]
    red, green, blue = (part / 12.92 if part <= 0.04045 else ((part + 0.055) / 1.055) ** 2.4 for part in parts)
    return 0.2126 * red + 0.7152 * green + 0.0722 * blue


def contrast(colour, ground):
    """How many to one a colour stands out from a ground; nothing does that isn't painted."""
    if not re.fullmatch("#(?:[0-9a-f]{3}){1,2}", colour):
        return 0
    less, more = sorted((light_of(colour), light_of(ground)))
    return (more + 0.05) / (less + 0.05)


def font_size(style):
    """The last size that is declared of a font."""
    return min([int(size) for name in ("font", "font-size") for size in re.findall(r"(\d+)px", style.get(name, ""))], default=0)


def paints(style, tag):
    """The colours in which a shape is painted."""
    fill = [style["fill"]] if tag in (*SHAPES, "path") else []
    return fill + [style["stroke"]] * (float(style["stroke-width"]) >= 1)


def is_seen(path, rules, grounds):
    """Whether an element stands out from what it stands on."""
    tag, style = path[-1].tag.removeprefix(SVG), style_of(path, rules)
    if tag != "text":
        return any(contrast(colour, grounds[0]) >= SHAPE_CONTRAST for colour in paints(style, tag))
    dots = [outline for outline in path[-2] if outline.tag in (f"{SVG}rect", f"{SVG}polygon") and outline.get("class") != "r"]
    if path[-2].tag == f"{SVG}g":
        grounds = [style_of([*path[:-1], dots[0]], rules)["fill"]]
    return font_size(style) >= LEAST_FONT and all(contrast(style["fill"], ground) >= TEXT_CONTRAST for ground in grounds)


def paths_of(element, above=()):
    """Each element with those that it stands in."""
    path = [*above, element]
    yield path
    for inner in element:
        yield from paths_of(inner, path)


def name_of(path):
    """The classes of an element and of the dot that it belongs to, or its tag."""
    names = [element.get("class", element.tag.removeprefix(SVG)) for element in path[1:] if element.tag != f"{SVG}defs"]
    return " ".join(names)


def judge(root):
    """The names of what is drawn but for grounds and bands, and what is wrong with how it looks."""
    seen, wrong = set(), []
    for page, rules in pages_of(root).items():
        wrong += [f"{page}: {' '.join(words)} says {name}" for words, declared in rules for name in declared if name not in PROPERTIES]
        grounds = [style_of([root, tree.Element(f"{SVG}rect", {"class": name})], rules)["fill"] for name in ("w", "b")]
        for path in paths_of(root):
            if path[-1].tag.removeprefix(SVG) in (*SHAPES, *LINES, "text") and path[-1].get("class") not in ("w", "b"):
                seen.add(name_of(path))
                if not is_seen(path, rules, grounds):
                    wrong.append(f"{page}: {name_of(path)} isn't seen")
    return seen, sorted(set(wrong))


if __name__ == "__main__":
    found, faults = judge(tree.parse(sys.stdin).getroot())
    print(f"seen: {', '.join(sorted(found))}")
    sys.exit("\n".join(faults) if faults else 0)
