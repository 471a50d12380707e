"""What a check says of a bug: the first function that is not proved, and which promise of it."""
import os
import re

from planting.bugs import copy, functions_before, read, run, write

# A proof file that lost a name, and any line with a place.
LOST = re.compile(r"(note: )?(\./)?proofs/.*(has no field|is not in scope|has no `|was not admitted)")
PLACED = re.compile(r"(note: )?(\./)?\S+:\d+:\d+:")


def ensured(crate, path):
    """The names of what a function ensures, as its source has them ('' for a clause with no name)."""
    name, clauses, inside = path[-1].split("<")[0], [], False
    for line in read(copy, "crates", crate, "src", path[1] + ".rt").split("\n"):
        if re.search(r"\bfn %s\b" % re.escape(name), line):
            inside = True
        elif inside and re.match(r"\s*(\{|\}|fn |pub fn )", line):
            inside = False
        found = re.match(r"\s*ensures (\w*) ?\{", line)
        if inside and found:
            clauses.append(found[1])
    return clauses


def field(crate, path, line):
    """The field of a record, one for each clause, that a line of a proof file stands in."""
    for text in reversed(read(copy, "crates", crate, path).split("\n")[:line]):
        found = re.match(r"\s+(?:let )?([\w-]+)( :[^=]*)? = ", text)
        if found:
            return "" if "let" in text.split("=")[0] else found[1]
        if re.match(r"\S", text):
            return ""
    return ""


def by_clause(crate, path, goals, errors):
    """Which clauses the goals or the errors speak of, as words; '' where that cannot be told."""
    known = ensured(crate, path)
    mine = [e for e in errors if "/" + path[-1].split("<")[0] + "/" in e[1]] or errors
    if not goals and mine:
        goals = [mine[0][3] or ""]
        one = field(crate, mine[0][1], int(mine[0][2]))
        if one and one in known:
            return f"clause `{one}`"
    clauses = list(dict.fromkeys(g.split("-clause-")[1] for g in goals if "-clause-" in g))
    if clauses:
        return "clause " + ", ".join(f"`{c}`" for c in clauses)
    goal = goals[0] if goals else ""
    if goal.startswith("returns") and not known:
        return "what its trait ensures"
    if goal.startswith("returns") and len(known) == 1:
        return f"clause `{known[0]}`" if known[0] else "its `ensures`"
    return f"goal `{goal}`" if goal else "its proof"


def promise(crate, out):
    """The first function that is not proved itself, and what of it is not: clauses, or the goal."""
    failed = re.search(r"^fn (\S+): (not proved|no proof: (?!it calls).*)", out, re.M)
    told = re.finditer(r"^(?:\./)?(proofs/\S+?):(\d+):\d+: error: (?:`([^`]*)`: )?(.*)", out, re.M)
    errors = [e for e in told if not LOST.match(e[0])]
    if not failed:
        return f"{errors[0][1]}: {errors[0][4][:90]}" if errors else ""
    path = failed[1].split("::")
    goals = re.findall(r"`([^`]+)`", failed[2].partition("did not prove")[2])
    return "`" + "::".join(path[1:]) + "`: " + by_clause(crate, path, goals, errors)


def edited_function(plant, known):
    """The function that a plant edits, where it edits one, as the check names it."""
    found = set()
    for path, old, _ in plant["edits"]:
        names = functions_before(read(copy, "crates", plant["crate"], path), old)
        module = f"{plant['crate']}::{os.path.basename(path)[:-3]}::"
        found.update(k for k in known if names and k.startswith(module) and k.split("::")[-1] == names[-1])
    return found.pop() if len(found) == 1 else ""


def check(crate, only="", log=""):
    """What a check says: proved, refused, names, bad or unknown; and the promise or the message."""
    status, _, out = run(crate, "check", *(["--only", only] if only else []))
    if log:
        write(out, log)
    if status == 0:
        return "proved", ""
    lines = out.split("\n")
    compiled = next((line for line in lines if re.search(r"\berror\[[\w-]+\]", line)), "")
    if compiled:
        return "bad", compiled
    if "logic=not-proved" not in out and not re.search(r"^only=\d+ proved=\d+", out, re.M):
        first = next((line for line in lines if ": error" in line), f"status {status}")
        return ("bad" if status == 1 else "unknown"), first
    unread = next((line for line in lines if re.match(r"(\./)?(src|specs)/\S+:\d+:\d+: error", line)), "")
    if unread:
        return "bad", unread
    told = [line for line in lines if PLACED.match(line) and ": error" in line]
    if told and LOST.match(told[0]):
        return "names", told[0]
    return "refused", promise(crate, out)
