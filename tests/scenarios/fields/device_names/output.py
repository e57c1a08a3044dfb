"""Eighteen bad names and eight good ones, as the reporter and as a place; the last one has 32 bytes."""
import json


def answer(value):
    print(json.dumps(value, sort_keys=True, separators=(",", ":")))


for _ in range(18):
    answer({"fault": "BadField", "field": "by"})
for _ in range(8):
    answer({"code": 13, "refused": "UnknownFamily"})
for _ in range(18):
    answer({"fault": "BadField", "field": "device"})
for number in range(1, 9):
    answer({"done": number})
row = {"conflict": 0, "copy": 8, "device": "a" * 32, "equal": 0, "newer": 0, "older": 0, "path": "p"}
answer({"board": {"copies": [row], "family": 8, "newest": [8], "split": False}})
