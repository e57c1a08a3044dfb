"""What a family of 256 copies answers: 256 that are equal, and after an edit of the first 255 that are older than it."""
import json


def answer(value):
    print(json.dumps(value, sort_keys=True, separators=(",", ":")))


def row(copy, **counts):
    return {"conflict": 0, "copy": copy, "device": "laptop", "equal": 0, "newer": 0, "older": 0, "path": f"plan-{copy}", **counts}


def board(copies, newest):
    answer({"board": {"copies": copies, "family": 1, "newest": newest, "split": False}})


def families():
    first = {"copies": 256, "family": 1, "newest": 1, "split": False}
    answer({"families": [first, {"copies": 2, "family": 258, "newest": 2, "split": False}]})


for number in range(1, 257):
    answer({"done": number})
answer({"code": 7, "refused": "FamilyFull"})
answer({"code": 6, "copy": 1, "refused": "PlaceTaken"})
answer({"code": 6, "copy": 256, "refused": "PlaceTaken"})
answer({"code": 7, "refused": "FamilyFull"})
answer({"code": 2, "copy": 257, "refused": "UnknownCopy"})
board([row(it, equal=255) for it in range(1, 257)], [*range(1, 257)])
for number in (257, 258, 259):
    answer({"done": number})
answer({"code": 6, "copy": 258, "refused": "PlaceTaken"})
board([row(1, older=255)] + [row(it, equal=254, newer=1) for it in range(2, 257)], [1])
families()
answer({"done": 260})
answer({"done": 261})
answer({"code": 7, "refused": "FamilyFull"})
answer({"code": 12, "refused": "Settled"})
answer({"done": 262})
answer({"done": 263})
answer({"code": 7, "refused": "FamilyFull"})
answer({"done": 264})
families()
answer({"pair": "Equal"})
