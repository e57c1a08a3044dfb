"""Registers 1,002 files on a laptop, and copies of 101 of them that are edited there."""
import json


def say(**line):
    print(json.dumps({"by": "laptop", **line}))


for number in range(1002):
    say(do="register", device="laptop", path=f"{number}")
for number in range(101):
    say(do="duplicate", copy=number + 1, device="usb", path=f"{number}")
    say(do="edit", copy=number + 1)
say(do="holdings", device="laptop", **{"from": 1})
say(do="holdings", device="laptop", **{"from": 1001})
say(do="holdings", device="laptop", **{"from": 1003})
say(do="holdings", device="laptop", **{"from": None})
say(do="holdings", device="laptop", **{"from": "1"})
say(do="holdings", device="", **{"from": "1"})
say(do="status", device="usb", **{"from": 1})
say(do="status", device="usb", **{"from": 1203})
