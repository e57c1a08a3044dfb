"""A number for each entry, and of each page the entries that are there, at most 100 from its start on."""
import json

STARTS = (0, 1, 2, 100, 101, 151, 152, 201, 250, 251, 1000, 2**64 - 1)


def answer(value):
    print(json.dumps(value, sort_keys=True, separators=(",", ":")))


def entry(number):
    if number == 1:
        return {"by": "laptop", "device": "laptop", "do": "register", "number": 1, "path": "plan.txt"}
    return {"by": "laptop", "copy": 1, "do": "edit", "number": number}


def page(start, last):
    first = max(start, 1)
    answer({"entries": [entry(it) for it in range(first, min(first + 99, last) + 1)]})


for number in range(1, 251):
    answer({"done": number})
for start in STARTS:
    page(start, 250)
answer({"done": 251})
page(152, 251)
page(251, 251)
