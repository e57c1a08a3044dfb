"""256 numbers, and then what each sighting comes to."""
import json

A, B = "a" * 64, "b" * 64
ENTRIES = [
    {"by": "laptop", "device": "usb", "do": "register", "number": 257, "path": "plan.txt", "sum": B},
    {"by": "laptop", "copy": 257, "do": "remove", "number": 258},
    {"by": "laptop", "copy": 256, "do": "remove", "heir": 1, "number": 259},
    {"by": "laptop", "copy": 1, "device": "usb", "do": "duplicate", "number": 260, "path": "plan.txt", "sum": A},
]


def answer(**fields):
    print(json.dumps(fields, sort_keys=True, separators=(",", ":")))


for number in range(1, 257):
    answer(done=number)
answer(code=7, refused="FamilyFull")
answer(at=None)
answer(did="register", done=257)
answer(did="remove", done=258)
answer(code=7, refused="FamilyFull")
answer(known=None)
answer(did="remove", done=259)
answer(did="duplicate", done=260)
answer(known=260)
answer(code=7, refused="FamilyFull")
answer(entries=ENTRIES)
