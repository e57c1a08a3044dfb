"""Bad paths, written with escapes, and then good ones, written as they are; the board of each good one."""
import json
import sys

sys.stdout.reconfigure(encoding="utf-8")

BAD = ["", "a" * 1025, "\u00e9" * 512 + "a", "\u001f", "a\u007f", "\u0000", "a\nb", "\t", "a" * 1023 + "\u00e9"]
GOOD = [
    " ",
    "a" * 1024,
    "\u00e9" * 512,
    "\u65e5\u672c/\u8a08\u753b.txt",
    "\u0080\u00a0\u2028",
    "say \"hi\" \\ / ~",
    "\U0001f5c2",
    "..",
    "/",
]

for path in BAD:
    print(json.dumps({"by": "a", "do": "register", "device": "a", "path": path}))
# as it stands, U+007F is JSON and no path
print('{"by":"a","do":"register","device":"a","path":"a\u007f"}')
for path in GOOD:
    print(json.dumps({"by": "a", "do": "register", "device": "a", "path": path}, ensure_ascii=False))
# with escapes it is the same path
for path in GOOD:
    print(json.dumps({"by": "a", "do": "register", "device": "a", "path": path}))
for family in range(1, 10):
    print(json.dumps({"by": "a", "do": "board", "family": family}))
