"""Device names at the limits, first as the reporter and then as a place."""
import json

GOOD = ["a", "z", "0", "9", "-", "_", "abcdefghijklmnopqrstuvwxyz-_0123", "a" * 32]
BAD = ["", "a" * 33, "A", "aB", "Z", "a.b", "a b", " a", "a ", "a/b", "a:b", "a\n", "a\x00", "\u00e9", "\u0430", "`", "{", "@"]

for name in BAD + GOOD:
    print(json.dumps({"by": name, "do": "board", "family": 1}))
for name in BAD:
    print(json.dumps({"by": "a", "do": "register", "device": name, "path": "p"}))
for name in GOOD:
    print(json.dumps({"by": name, "do": "register", "device": name, "path": "p"}))
print(json.dumps({"by": "a", "do": "board", "family": 8}))
