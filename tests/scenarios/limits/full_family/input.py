"""A family of 256 copies, and what it refuses; then a removal makes room for one, and both are withdrawn."""
import json


def say(do, **fields):
    print(json.dumps({"by": "laptop", "do": do, **fields}))


say("register", device="laptop", path="plan-1")
for number in range(2, 257):
    say("duplicate", copy=1, device="laptop", path=f"plan-{number}")
say("duplicate", copy=1, device="laptop", path="fresh")
say("duplicate", copy=1, device="laptop", path="plan-1")
say("duplicate", copy=1, device="laptop", path="plan-256")
say("duplicate", copy=256, device="laptop", path="fresh")
say("duplicate", copy=257, device="laptop", path="fresh")
say("board", family=1)
say("edit", copy=1)
say("register", device="laptop", path="fresh")
say("duplicate", copy=258, device="usb", path="fresh")
say("duplicate", copy=1, device="laptop", path="fresh")
say("board", family=1)
say("families")
# 260 to 263: a removal, a copy in its room, and both withdrawn
say("remove", copy=256)
say("duplicate", copy=1, device="laptop", path="plan-256")
say("duplicate", copy=1, device="desk", path="fresh")
say("withdraw", entry=260)
say("withdraw", entry=261)
say("withdraw", entry=260)
say("duplicate", copy=1, device="desk", path="fresh")
say("relocate", copy=256, device="desk", path="fresh")
say("families")
say("pair", a=256, b=255)
