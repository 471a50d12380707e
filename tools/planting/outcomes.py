"""What became of each bug: run, kept in a file of its own, and written as a table."""
import json
import os
import re

from planting.bugs import above, copy, label, plants, read, run, runs, write
from planting.told import check, edited_function

WORDS = {"refused": "refused", "above": "refused above", "test": "a test tells", "survived": "survived", "bad": "BAD", "names": "NAMES LOST"}
START, END = "<!-- table -->\n", "\n<!-- end of table -->"


def kept(plant, ending):
    return os.path.join(runs, f"{plant['crate']}-{plant['name']}.{ending}")


def tested(crate):
    """The first of this crate's tests, the texts that programs print and the tests above it that tells; '' where all agree."""
    own, texts, tests = [], [], []
    for name in [crate] + above(crate):
        at = os.path.join(copy, "crates", name)
        if any("#[test]" in read(at, "src", file) for file in os.listdir(os.path.join(at, "src"))):
            (own if name == crate else tests).append((name, "test"))
        if os.path.exists(os.path.join(at, "stdout")):
            texts.append((name, "run"))
    for name, word in own + texts + tests:
        status, said, out = run(name, word)
        if word == "run" and (status or said != read(copy, "crates", name, "stdout")):
            return f"the text that {name} prints"
        if word == "test" and status:
            told = re.search(r"^.*(FAILED|failed|error).*$", out, re.M)
            return f"`rt test` of {name}: {told[0].strip()[:110] if told else ''}"
    return ""


def noticed(plant, known):
    """Who notices the bug that now stands in the copy: a word, and who told what."""
    crate, only = plant["crate"], edited_function(plant, known)
    # the function alone first, since that is quick where it is refused
    for part in [only, ""] if only else [""]:
        word, said = check(crate, part, kept(plant, "txt"))
        if word != "proved":
            return word, said
    if plant["same"]:
        return "survived", ""
    for name in above(crate):
        word, said = check(name)
        if word != "proved":
            return ("above" if word == "refused" else word), f"{name}: {said}"
    said = tested(crate)
    return ("test", said) if said else ("survived", "")


def planted(plant, known):
    """Plants the bug, keeps what became of it, and takes it away again."""
    saved = {}
    try:
        for path, old, new in plant["edits"]:
            at = os.path.join(copy, "crates", plant["crate"], path)
            text = read(at)
            saved.setdefault(at, text)
            if text.count(old) != 1:
                return "bad", f"{text.count(old)} places for {old!r}"
            write(text.replace(old, new), at)
        outcome = noticed(plant, known)
        write(json.dumps(outcome), kept(plant, "json"))
        return outcome
    finally:
        for at, text in saved.items():
            write(text, at)


def row(plant):
    """The row of a bug that was run; '' where it was not, or where its run shows nothing."""
    if not os.path.exists(kept(plant, "json")):
        return ""
    word, said = json.loads(read(kept(plant, "json")))
    if word not in ("refused", "above", "test", "survived"):
        return ""
    if plant["same"]:
        said += ("; " if said else "") + "means the same: " + plant["same"]
    files = ", ".join(dict.fromkeys(path.replace("src/", "") for path, _, _ in plant["edits"] if path.startswith("src/")))
    return f"| {plant['crate']}, {files} | {plant['name']}: {plant['bug']} | {WORDS[word]} | {said.replace('|', chr(92) + '|')} |"


def write_table(at):
    """Writes the rows into the page; one that was not run here keeps the row that it has there."""
    before, _, rest = read(at).partition(START)
    old, _, after = rest.partition(END)
    stood = {(line.split(",")[0], line.split(" | ")[1].split(":")[0]): line for line in old.split("\n")[2:]}
    rows = ["| crate, file | planted | outcome | told by |", "|---|---|---|---|"]
    for plant in plants():
        made = row(plant) or stood.get((f"| {plant['crate']}", plant["name"]), "")
        if made:
            rows.append(made)
    write(before + START + "\n".join(rows) + END + after, at)
    return rows[2:]
