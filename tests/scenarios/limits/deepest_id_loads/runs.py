"""A dump of 514 entries: a file, 256 duplicates of it that are removed with no heir, and an edit."""
import json
import sys

STEPS = 256
TABLE = (
    "family 1: copies 1, newest 1, split no\n"
    "COPY  PLACE            STATE     NEWER  OLDER  EQUAL  CONFLICT\n"
    "   1  laptop:plan.txt  newest        0      0      0         0\n"
)

entries = [{"by": "laptop", "device": "laptop", "do": "register", "number": 1, "path": "plan.txt"}]
for copy in range(2, 2 * STEPS + 1, 2):
    entries.append({"by": "laptop", "copy": 1, "device": "usb", "do": "duplicate", "number": copy, "path": f"p{copy}"})
    entries.append({"by": "laptop", "copy": copy, "do": "remove", "number": copy + 1})
entries.append({"by": "laptop", "copy": 1, "do": "edit", "number": 2 * STEPS + 2})
dump = json.dumps({"entries": entries}, separators=(",", ":")) + "\n"
json.dump({"args": ["load", "/dev/stdin"], "input": dump, "output": TABLE}, sys.stdout)
print()
