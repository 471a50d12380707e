"""The lines of a log: their words, and the answer to each."""
import sys

from replaying.calls import CALLS
from replaying.refusals import Mistake, Refusal
from replaying.trees import Trees
from replaying.vectors import Vectors
from replaying.yard import Yard


def number(word):
    plain = word.isascii() and word.isdigit() and (word == "0" or word[0] != "0")
    if not plain or int(word) >= 2 ** 64:
        raise Mistake
    return int(word)


def valve(word):
    if word in ("shut", "open"):
        return word
    name, colon, rest = word.partition(":")
    n = number(rest) if colon else -1
    if name == "part" and 1 <= n <= 99 or name == "flow" and 0 <= n <= 9999:
        return word
    raise Mistake


def ticket(word):
    digest, colon, length = word.partition(":")
    if len(digest) != 64 or not set(digest) <= set("0123456789abcdef") or not colon:
        raise Mistake
    number(length)
    return word


def line(state, words):
    """The answer to a line; state holds the yard and the reader of payloads."""
    name, rest = words[0], words[1:]
    if name == "open":
        if len(rest) < 3:
            raise Mistake
        kind = {"tree": Trees, "vector": Vectors}.get(rest[0])
        read = {"valve": valve, "ticket": ticket}.get(rest[1])
        if not kind or not read:
            raise Mistake
        berths, payloads = number(rest[2]), [read(word) for word in rest[3:]]
        state.clear()
        yard = Yard(kind, berths, payloads)
        state.update(yard=yard, read=read)
        return f"ok {berths} berths {len(payloads)} files"
    if "yard" not in state:
        raise Mistake
    call = CALLS.get(name)
    if call is None or len(call.words) != len(rest):
        raise Mistake
    arguments = [state["read"](word) if kind == "p" else number(word) for kind, word in zip(call.words, rest)]
    yard = state["yard"]
    if yard.sealed and not call.reads:
        raise Mistake
    return getattr(yard, name)(*arguments)


def replay(log, out):
    state = {}
    for n, raw in enumerate(log, 1):
        words = raw.split()
        if not words or words[0].startswith("#"):
            continue
        try:
            answer = line(state, words)
        except Refusal as refusal:
            answer = str(refusal)
        except Mistake:
            print(f"line {n}: no call", file=sys.stderr)
            return 1
        out.write(" ".join(words) + ": " + answer + "\n")
    return 0
