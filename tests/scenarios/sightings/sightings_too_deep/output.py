"""What each sighting comes to, the first copy's whole part of the clock, and the refusal."""
import json

A = "a" * 64
ENTRIES = [
    {"by": "usb", "copy": 1113, "do": "remove", "number": 1114},
    {"by": "usb", "copy": 1, "device": "usb", "do": "duplicate", "number": 1115, "path": "a", "sum": A},
]


def answer(**fields):
    print(json.dumps(fields, sort_keys=True, separators=(",", ":")))


answer(did="register", done=1)
for step in range(300):
    answer(did="duplicate", done=2 + 2 * step)
    answer(did="remove", done=3 + 2 * step)
answer(stamps=[{"copy": 1, "stamp": "(1,0)"}])
answer(did="register", done=602)
for number in range(603, 1115):
    answer(done=number)
answer(code=8, refused="TooDeep")
answer(at=None)
answer(did="duplicate", done=1115)
answer(entries=ENTRIES)
