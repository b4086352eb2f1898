"""docs/PROOF.md beside the files of proofs, for tests/documents. What stands in bold there is a
file of the crate that is named before it, by a heading or by its name and a colon. Of the crates
whose whole proof the page goes through, each file of lemmas stands in the part of its crate, after
those that it uses."""

import glob
import os
import re

# The crates whose files all stand on the page, in their order.
WHOLE = ["dvg_theorem", "dvg_world"]

TOKEN = re.compile(r"(?m)^## (\w+)|\b(dvg_\w+):(?!:)|\*\*(\w+)\*\*")


def read_proofs(top):
    """The files of lemmas of each crate, each with the names of those that it uses."""
    proofs = {}
    for path in glob.glob(f"{top}/crates/*/proofs/*.antt"):
        crate, name = path.split("/")[-3], os.path.basename(path)[:-len(".antt")]
        with open(path, encoding="utf-8") as file:
            used = re.findall(rf"\bRattle\.{crate}\.proofs\.(\w+)", file.read())
        if name != "Lib":
            proofs.setdefault(crate, {})[name] = set(used) - {name}
    return proofs


def read_names(page):
    """The names that stand in bold, each with its crate and with the heading that it is below."""
    part, crate, names = None, None, []
    for heading, before, name in TOKEN.findall(page):
        if name:
            names.append((part, crate, name))
        elif heading:
            part, crate = heading, heading
        else:
            crate = before
    return names


def wrong_order(proofs, names):
    """The files of a crate that don't stand in this list of names, or before one that they use."""
    for name, used in proofs.items():
        if name not in names:
            yield f"{name} doesn't stand there"
            continue
        yield from (f"{name} stands before {other}, which it uses" for other in used
                    if other in names and names.index(other) > names.index(name))


def differences(page, proofs):
    """What is wrong with the page."""
    names = read_names(page)
    found = [f"{crate} has no {name} in proofs/" for _, crate, name in names
             if name not in proofs.get(crate, {})]
    for crate in WHOLE:
        below = [name for part, of, name in names if part == of == crate]
        found += [f"{crate}: {what}" for what in sorted(wrong_order(proofs[crate], below))]
    return found


# Mistakes in the page: what stands there, and what is put in its place.
PLANTED = [
    ("a file that is missing", "**Linked**", "Linked"),
    ("a name that is no file", "**Linked**", "**Linked** and **Linking**"),
    ("a file before one that it uses",
     "**Machine** takes a run by whole instructions, and **Ends**",
     "**Ends** takes a run by whole instructions, and **Machine**"),
    ("a file of another crate", "**Fetching**", "**Machine**"),
    ("a file of another crate, in the table", "dvg_driver: **Places**", "dvg_driver: **Linked**"),
]


def missed_mistakes(page, proofs):
    """The planted mistakes that aren't found, or change nothing."""
    tried = [(what, page.replace(before, after)) for what, before, after in PLANTED]
    return [what for what, turned in tried if turned == page or not differences(turned, proofs)]
