"""A hundred rounds of an edit, a reconcile and a merge of two copies, and then how they compare."""
import json

ROUNDS = 100


def say(do, **fields):
    print(json.dumps({"by": "laptop", "do": do, **fields}))


say("register", device="laptop", path="plan.txt")
say("duplicate", copy=1, device="usb", path="plan.txt")
for _ in range(ROUNDS):
    say("edit", copy=1)
    say("reconcile", a=2, b=1)
    say("merge", a=1, b=2)
say("pair", a=1, b=2)
say("edit", copy=2)
say("pair", a=1, b=2)
say("families")
