"""Has the prover refuse wrong laws, for tests/wrong_bodies.

A wrong law is a text in a crate's wrong-laws.edits, below a name that says what is wrong. It
changes definitions, or bytes or cells that are written as one, and names the function whose
contract is no longer proved then, as `rattle check --only` takes it:

    # what_is_wrong
    law: laws::word_zero
    file: specs/Law.antt
    old: words of one line, which stand once in that file
    new: what stands there in the wrong definition

Each is tried in a copy of the crate, by a check of that law alone over what is kept of its proof.
The law must be `not proved`, by an error of a proof. A change that the definitions themselves don't
stand, or by which proofs miss a name and nothing else, shows nothing. The crate as it is, checked
in the same way, must prove each law that is named."""

import re
import shutil
from dataclasses import dataclass

from at_home import at_home  # if passed on
from copies import functions_of
from rooms import DEPENDENT, GONE, Unfit, check, make_room
from sources import changes, texts_of

EDITS = "wrong-laws.edits"

ERROR = re.compile(r"(?m)^(?:\./)?((?:src|specs|proofs)/\S+?):\d+:\d+: error: (?:`([^`]+)`: )?(.*)")

@dataclass(frozen=True)
class WrongLaw:
    """A wrong law: the name of its text, the law that it names, and files with their new texts."""

    name: str
    law: str
    files: dict


def laws_of(crate):
    """What the prover calls the functions of a crate's folder."""
    for file in sorted((crate / "src").rglob("*.rt")):
        path, text = str(file.relative_to(crate)), file.read_text(encoding="utf-8")
        yield from (it.symbol(it.name) for it in functions_of(crate, path, text))


def changed_files(crate, said):
    """The files that a text changes, with what stands in them then. Each change is made in what the
    ones before it made."""
    files = {}
    for path, old, new in changes(said):
        if not path.startswith("specs/"):
            raise Unfit("changes more than definitions")
        text = files.get(path) or (crate / path).read_text(encoding="utf-8")
        if text.count(old) != 1:
            raise Unfit(f"no longer applies: {path} has {text.count(old)} times: {old}")
        files[path] = text.replace(old, new)
    if all((crate / path).read_text(encoding="utf-8") == text for path, text in files.items()):
        raise Unfit("changes nothing")
    return files


def read_laws(crate, results):
    """The wrong laws of a crate's folder; a text that is none is a failure."""
    crate = at_home(crate)  # if passed on
    laws = set(laws_of(crate))
    for name, said in texts_of(crate / EDITS):
        try:
            law = re.match(r"law: (\S+)\n", said)
            if not law or law[1] not in laws:
                raise Unfit("names no law of the crate")
            yield WrongLaw(name, law[1], changed_files(crate, said))
        except Unfit as why:
            results.failed.append(f"{name}: {why}")


def proved_in(said, crate):
    """The functions of a crate that a check names, each with whether it is proved."""
    lines = re.findall(rf"(?m)^fn {crate.name}::(\S+): (.*)", said)
    return {law: words.startswith("proved") for law, words in lines}


def refusal(law, said, crate):
    """The file and the name of the proof that refuses a law, as a check says."""
    is_proved = proved_in(said, crate).get(law)
    errors = [it for it in ERROR.findall(said) if not DEPENDENT.match(it[2])]
    wrong = [it for it in errors if not it[0].startswith("proofs/")]
    if wrong:
        raise Unfit(f"doesn't compile: {wrong[0][0]}: {wrong[0][2]}")
    if is_proved is None:
        raise Unfit(f"the check came to no end: {said[-300:]}")
    if is_proved:
        raise Unfit("is proved: the law doesn't say it, or it means the same")
    own = [f"{file}: {name}" for file, name, why in errors if not GONE.search(why)]
    if not own:
        raise Unfit("is refused by no error of a proof, but for names that are gone")
    return own[0]


def try_control(crate, room, laws, results):
    """Checks these laws in a room with a crate's folder as it is. Returns those that are proved."""
    said, seconds = check(make_room(room, crate, crate), crate.name, sorted(laws))
    results.times.append(seconds)
    proved = {law for law, is_proved in proved_in(said, crate).items() if is_proved}
    for law in sorted(laws - proved):
        results.failed.append(f"{law}: isn't proved of the crate as it is: {said[-300:]}")
    return proved


def try_law(crate, proved, room, wrong, results):
    """Tries a wrong law of a crate's folder in a room, over what is kept where it was proved."""
    made = make_room(room, crate, proved)
    for path, text in wrong.files.items():
        (made / path).write_text(text, encoding="utf-8")
    said, seconds = check(made, crate.name, [wrong.law])
    results.times.append(seconds)
    try:
        why = refusal(wrong.law, said, crate)
        results.passed.append(f"{wrong.name}: {wrong.law}: {why}, {seconds:.0f} s")
    except Unfit as why:
        results.failed.append(f"{wrong.name}: {wrong.law}: {why}, {seconds:.0f} s")
    shutil.rmtree(room)


def begin(crate, room, results):
    """Reads the wrong laws of a crate's folder, and checks the laws as they are. Returns what tries
    each wrong law."""
    crate = at_home(crate)  # if passed on
    wrong = list(read_laws(crate, results))
    if not wrong:
        return []
    proved = try_control(crate, room / "as_it_is", {it.law for it in wrong}, results)
    return [lambda it=it: try_law(crate, room / "as_it_is", room / it.name, it, results)
            for it in wrong if it.law in proved]
