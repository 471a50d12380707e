"""The calls of a log but `open`, a row for each."""
from typing import NamedTuple


class Call(NamedTuple):
    words: str  # the words after the name: a berth (b), a file (f) or a payload (p)
    reads: bool  # a sealed yard takes only a call that reads
    weight: int  # how often a random log has it


CALLS = {
    "fork": Call("bb", reads=False, weight=6),
    "edit": Call("bfp", reads=False, weight=12),
    "judge": Call("bbf", reads=True, weight=8),
    "report": Call("bb", reads=True, weight=4),
    "pull": Call("bb", reads=False, weight=6),
    "settle": Call("bbfp", reads=False, weight=8),
    "retire": Call("bb", reads=False, weight=2),
    "drop": Call("b", reads=False, weight=1),
    "seal": Call("", reads=False, weight=0),
    "show": Call("bf", reads=True, weight=6),
}
