"""A thousand files, each edited until the journal is nearly full, a found that needs more room than there is, then each kind of report and of question."""
import sys

FILES, ENTRIES = 1_000, 1_000_000
# a file of two copies, of which one holds nothing known
FIRST = ENTRIES - 3
A, B, C = "a" * 64, "b" * 64, "c" * 64
LAST = (
    '{"by":"desk","do":"register","device":"desk","path":"g"}',
    f'{{"by":"desk","do":"duplicate","copy":{FIRST},"device":"usb","path":"g","sum":"{A}"}}',
    '{"by":"desk","do":"edit","copy":1}',
    f'{{"by":"desk","do":"found","device":"desk","path":"g","sum":"{B}"}}',
    f'{{"by":"desk","do":"pair","a":{FIRST},"b":{FIRST + 1}}}',
    f'{{"by":"desk","do":"found","device":"desk","path":"f1","sum":"{C}"}}',
)
LATE = (
    '{"by":"desk","do":"edit","copy":1}',
    '{"by":"desk","do":"edit","copy":1000001}',
    '{"by":"desk","do":"register","device":"desk","path":"f1"}',
    '{"by":"desk","do":"duplicate","copy":1,"device":"usb","path":"f1"}',
    '{"by":"desk","do":"reconcile","a":1,"b":1}',
    '{"by":"desk","do":"merge","a":1,"b":2}',
    '{"by":"desk","do":"relocate","copy":1,"device":"desk","path":"f2"}',
    '{"by":"desk","do":"remove","copy":1,"heir":1000001}',
    '{"by":"desk","do":"confirm","entry":1000000}',
    '{"by":"usb","do":"withdraw","entry":1000000}',
    '{"by":"desk","do":"withdraw","entry":1000001}',
    f'{{"by":"desk","do":"found","device":"desk","path":"f1","sum":"{A}"}}',
    f'{{"by":"desk","do":"found","device":"desk","path":"g","sum":"{B}"}}',
    f'{{"by":"desk","do":"found","device":"usb","path":"f1","sum":"{C}"}}',
    '{"by":"desk","do":"missing","device":"desk","path":"f1"}',
    f'{{"by":"desk","do":"found","device":"desk","path":"f1","sum":"{C}"}}',
    '{"by":"desk","do":"missing","device":"usb","path":"f1"}',
    '{"by":"desk","do":"board","family":1}',
    '{"by":"desk","do":"pair","a":1,"b":1}',
    '{"by":"desk","do":"families"}',
    '{"by":"desk","do":"holdings","device":"usb"}',
    '{"by":"desk","do":"journal","from":999999}',
)

lines = [f'{{"by":"desk","do":"register","device":"desk","path":"f{n}"}}' for n in range(1, FILES + 1)]
lines += [f'{{"by":"desk","do":"edit","copy":{n % FILES + 1}}}' for n in range(FILES, FIRST - 1)]
sys.stdout.write("\n".join([*lines, *LAST, *LATE, ""]))
