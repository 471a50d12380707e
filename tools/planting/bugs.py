"""The planted bugs, the crates, and the copy of the repository that a bug is put into."""
import os
import re
import signal
import subprocess
import tempfile

root = os.path.dirname(os.path.dirname(os.path.dirname(os.path.abspath(__file__))))
runs = os.path.join(tempfile.gettempdir(), "govdrez-planted")
copy = os.environ.get("PLANT_COPY", os.path.join(runs, "copy"))


def read(*path):
    with open(os.path.join(*path), encoding="utf-8") as file:
        return file.read()


def write(text, *path):
    with open(os.path.join(*path), "w", encoding="utf-8") as file:
        file.write(text)


def crates():
    """Each crate with what it rests on, in the order of crates.txt."""
    lines = [line.partition(":") for line in read(root, "crates.txt").split("\n") if not line.startswith("#")]
    return {name: below.split() for name, colon, below in lines if colon}


def above(crate):
    found = [crate]
    for name, below in crates().items():
        if set(below) & set(found):
            found.append(name)
    return found[1:]


def edits(lines):
    """What an edit changes: a file, the text that stands there, and the text in its place."""
    path = old = ""
    for line in lines:
        word, _, rest = line.partition(":")
        if word == "file":
            path = rest.strip()
        elif word == "old":
            old = rest[1:]
        elif word == "new":
            yield path, old, rest[1:]


def plants():
    """Every plant, in the order of crates.txt and of its file."""
    found = []
    for crate in crates():
        at = os.path.join(root, "tools", "planted", crate + ".plants")
        for part in ("\n" + read(at)).split("\nplant:")[1:] if os.path.exists(at) else []:
            name, *lines = part.split("\n")
            told = {word: rest.strip() for word, _, rest in (line.partition(":") for line in lines)}
            if "edit" in told:
                lines = read(root, "crates", crate, "must-fail", told["edit"]).split("\n")
            bug, same = told["bug"], told.get("same", "")
            found.append({"crate": crate, "name": name.strip(), "bug": bug, "same": same, "edits": list(edits(lines))})
    return found


def label(plant):
    return f"{plant['crate']}/{plant['name']}"


def functions_before(text, old):
    """The names of the functions that begin before this text, the nearest last."""
    return re.findall(r"^ *(?:pub(?:\(crate\))? )?fn (\w+)", text[: text.find(old)], re.M)


def run(crate, *words):
    """What rt says in a crate of the copy: its status, its output, and that with its errors."""
    pipe = {"stdout": subprocess.PIPE, "stderr": subprocess.PIPE, "text": True, "errors": "replace"}
    at = os.path.join(copy, "crates", crate)
    it = subprocess.Popen(["timeout", "1800", "rt", *words], cwd=at, start_new_session=True, **pipe)
    try:
        said, told = it.communicate()
        return it.returncode, said, said + told
    finally:
        # a run that is ended leaves no check behind
        if it.poll() is None:
            os.killpg(it.pid, signal.SIGTERM)
            it.wait()


def ready():
    """The copy, at the last commit."""
    head = subprocess.run(["git", "-C", root, "rev-parse", "HEAD"], capture_output=True, text=True).stdout.strip()
    os.makedirs(runs, exist_ok=True)
    if not os.path.isdir(copy):
        subprocess.run(["git", "clone", "-q", root, copy], check=True)
    for words in (["fetch", "-q", root, head], ["checkout", "-q", "-f", head], ["clean", "-q", "-f", "-d"]):
        subprocess.run(["git", "-C", copy, *words], check=True)
