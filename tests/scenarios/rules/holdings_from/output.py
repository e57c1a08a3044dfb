"""The answers: 1,000 copies from a number on, all without one, and 100 rows of a status."""
import json


def answer(**line):
    print(json.dumps(line, separators=(",", ":"), sort_keys=True))


def held(number):
    touch = 1002 + 2 * number if number <= 101 else number
    return {"copy": number, "family": number, "path": f"{number - 1}", "touch": touch}


def row(number):
    place = {"copy": number, "device": "laptop", "path": f"{number - 1}"}
    return {"copy": 1001 + 2 * number, "device": "usb", "path": f"{number - 1}", "state": "obsolete", "with": place}


for number in range(1, 1205):
    answer(done=number)
answer(holdings=[held(number) for number in range(1, 1001)])
answer(holdings=[held(number) for number in range(1001, 1003)])
answer(holdings=[])
answer(holdings=[held(number) for number in range(1, 1003)])
answer(fault="BadField", field="from")
answer(fault="BadField", field="device")
answer(status=[row(number) for number in range(1, 101)])
answer(status=[row(101)])
