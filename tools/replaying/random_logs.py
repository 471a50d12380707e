"""Random logs, mostly of calls that are accepted."""
import random

from replaying.calls import CALLS


def random_log(seed, n):
    pick = random.Random(seed)
    kind, read = pick.choice(["tree", "vector"]), pick.choice(["valve", "ticket"])
    b, f = pick.randint(1, 16), pick.randint(1, 8)

    def payload():
        if read == "valve":
            return pick.choice(["shut", "open", f"part:{pick.randint(1, 99)}", f"flow:{pick.randint(0, 9999)}"])
        return "".join(pick.choice("0123456789abcdef") for _ in range(64)) + f":{pick.randint(0, 2 ** 64 - 1)}"

    def berth():
        return pick.randrange(b + (pick.random() < 0.02))

    def file():
        return pick.randrange(f + (pick.random() < 0.02))

    yield f"open {kind} {read} {b} " + " ".join(payload() for _ in range(f))
    word = {"b": berth, "f": file, "p": payload}
    weights = [call.weight for call in CALLS.values()]
    for _ in range(n - 1):
        name = pick.choices(list(CALLS), weights)[0]
        yield " ".join([name, *(str(word[kind]()) for kind in CALLS[name].words)])
