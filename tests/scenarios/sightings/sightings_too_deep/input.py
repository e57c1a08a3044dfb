"""A file's copy that comes and goes 300 times by sightings, and one that is removed with no heir 256 times."""
import json

A = "a" * 64


def say(do, **fields):
    print(json.dumps({"by": "usb", "do": do, **fields}))


say("found", device="laptop", path="a", sum=A)
for _ in range(300):
    say("found", device="usb", path="a", sum=A)
    say("missing", device="usb", path="a")
say("stamps", family=1)
say("found", device="laptop", path="b", sum=A)
for step in range(256):
    say("duplicate", copy=602, device="usb", path="b")
    say("remove", copy=603 + 2 * step)
say("found", device="usb", path="b", sum=A)
say("at", device="usb", path="b")
say("found", device="usb", path="a", sum=A)
say("journal", **{"from": 1114})
