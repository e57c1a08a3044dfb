"""A number for each entry, the refusal of two where there is room for one, fifteen more for a full journal, and the answers to what needs no entry."""
import sys

FILES, ENTRIES = 1_000, 1_000_000
FIRST = ENTRIES - 3
A, C = "a" * 64, "c" * 64
FULL = '{"code":1,"refused":"JournalFull"}'
BOARD = (
    '{"board":{"copies":[{"conflict":0,"copy":1,"device":"desk","equal":0,"newer":0,"older":0,"path":"f1"}],'
    '"family":1,"newest":[1],"split":false}}'
)
ROWS = ",".join(
    [f'{{"copies":1,"family":{n},"newest":1,"split":false}}' for n in range(1, FILES + 1)]
    + [f'{{"copies":2,"family":{FIRST},"newest":2,"split":false}}']
)
HELD = f'{{"copy":{FIRST + 1},"family":{FIRST},"path":"g","sum":"{A}","touch":{FIRST + 1}}}'
LAST = (
    f'{{"by":"desk","copy":1,"do":"edit","number":{ENTRIES - 1}}},'
    f'{{"by":"desk","copy":1,"do":"note","number":{ENTRIES},"sum":"{C}"}}'
)
ANSWERS = (BOARD, '{"pair":"Equal"}', f'{{"families":[{ROWS}]}}', f'{{"holdings":[{HELD}]}}', f'{{"entries":[{LAST}]}}')

lines = [f'{{"done":{n}}}' for n in range(1, ENTRIES)]
lines += [FULL, '{"pair":"Equal"}', f'{{"did":"note","done":{ENTRIES}}}', *[FULL] * 15, '{"known":1}', '{"known":null}']
sys.stdout.write("\n".join([*lines, *ANSWERS, ""]))
