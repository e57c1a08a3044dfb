"""A register and 249 edits, which are 250 entries, and the journal from several numbers."""
import json

STARTS = (0, 1, 2, 100, 101, 151, 152, 201, 250, 251, 1000, 2**64 - 1)


def say(do, **fields):
    print(json.dumps({"by": "laptop", "do": do, **fields}))


say("register", device="laptop", path="plan.txt")
for _ in range(249):
    say("edit", copy=1)
for start in STARTS:
    say("journal", **{"from": start})
say("edit", copy=1)
say("journal", **{"from": 152})
say("journal", **{"from": 251})
