"""The drawing of the floors in docs/DESIGN.md beside crates.txt, for tests/documents: each crate
stands there once, and stands on crates of the rows below its own, or to its left. Where a bar parts
rows, no crate stands on one at the other side of it."""

import re


def read_crates(text):
    """The crates of crates.txt, each with those of them that it stands on."""
    lines = [line.partition(":") for line in text.splitlines() if line.strip()]
    names = [head.split()[0] for head, _, _ in lines]
    return {name: [it for it in uses.split() if it in names]
            for name, (_, _, uses) in zip(names, lines)}


def read_places(design):
    """Where each name of the drawing stands: its row, from above, the side of the bar if there is
    one, and how far from the left. Before the first bar and after the last of three stands what a
    floor is called."""
    places = []
    drawing = re.findall(r"(?m)^    (.*)", design.partition("\n## What a crate shows")[0])
    for row, line in enumerate(drawing):
        sides = line.split("|")[1:3] if line.count("|") > 2 else line.split("|")[1:2]
        for side, part in enumerate(sides):
            places += [(name, row, side if len(sides) == 2 else None, column)
                       for column, name in enumerate(re.findall(r"\w+", part))]
    return places


def stands_on(place, below):
    """Whether what stands at a place may stand on what stands at another."""
    (row, side, column), (other_row, other_side, other_column) = place, below
    if side is not None and other_side is not None and side != other_side:
        return False
    return other_row > row or (other_row == row and other_column < column)


def differences(crates, design):
    """What is wrong with the drawing: crates.txt and docs/DESIGN.md are given."""
    uses, places = read_crates(crates), read_places(design)
    drawn, at = [name for name, *_ in places], {name: place for name, *place in places}
    found = [f"{name} stands {drawn.count(name)} times" for name in uses if drawn.count(name) != 1]
    found += [f"{name} is no crate" for name in drawn if name not in uses]
    found += [f"{name} stands on {below}" for name in uses for below in uses[name]
              if name in at and below in at and not stands_on(at[name], at[below])]
    return found


# Mistakes in the drawing, and in crates.txt: what stands there, and what is put in its place.
OF_DRAWING = [
    ("a crate to the left of what it uses", "dvg_io  dvg_svg", "dvg_svg  dvg_io"),
    ("a crate below what it uses", "|  dvg_tool  ", "|  dvg       "),
    ("a crate is missing", "dvg_moment", ""),
    ("a crate stands twice", "dvg_log ", "dvg_log  dvg_gen"),
    ("a name that is no crate", "dvg_log ", "dvg_log  dvg_logging"),
    ("rows that are exchanged", "dvg_cells_cpu  dvg_cells_board  dvg_cells_motion",
     "dvg_theorem  dvg_world"),
]
OF_CRATES = [
    ("a port that uses the tool", "dvg_c staticlib: dvg_device", "dvg_c staticlib: dvg_lay"),
    ("a law that uses the tool", "\ndvg_progress: ", "\ndvg_progress: dvg_print "),
]


def missed_mistakes(crates, design):
    """The planted mistakes that aren't found, or change nothing."""
    tried = [(what, text := design.replace(before, after), text != design,
              differences(crates, text)) for what, before, after in OF_DRAWING]
    tried += [(what, text := crates.replace(before, after), text != crates,
               differences(text, design)) for what, before, after in OF_CRATES]
    return [what for what, _, is_changed, found in tried if not is_changed or not found]
