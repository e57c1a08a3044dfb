"""A family of 256 copies, of which the first has a path that files of other devices have too."""
import json

A, B = "a" * 64, "b" * 64


def say(do, **fields):
    print(json.dumps({"by": "laptop", "do": do, **fields}))


say("register", device="laptop", path="plan.txt", sum=A)
for number in range(2, 257):
    say("duplicate", copy=1, device="laptop", path=f"plan-{number}")
say("found", device="usb", path="plan.txt", sum=A)
say("at", device="usb", path="plan.txt")
say("found", device="usb", path="plan.txt", sum=B)
# alone in its family, it makes room for a duplicate, which is refused
say("found", device="usb", path="plan.txt", sum=A)
say("found", device="usb", path="plan.txt", sum=A)
say("missing", device="usb", path="plan.txt")
say("missing", device="laptop", path="plan-256")
say("found", device="usb", path="plan.txt", sum=A)
say("found", device="usb", path="plan.txt", sum=A)
say("found", device="desk", path="plan.txt", sum=A)
say("journal", **{"from": 257})
