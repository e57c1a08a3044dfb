"""A file that is duplicated 256 times, each copy removed with no heir, then a duplicate more."""
import sys

STEPS = 256
DUPLICATE = '{{"by":"laptop","do":"duplicate","copy":1,"device":"usb","path":"p{}"}}'
LATE = (
    DUPLICATE.format(0),
    '{"by":"laptop","do":"board","family":1}',
    '{"by":"laptop","do":"stamps","family":1}',
    '{"by":"laptop","do":"edit","copy":1}',
    '{"by":"laptop","do":"stamps","family":1}',
    '{"by":"laptop","do":"journal","from":513}',
)

lines = ['{"by":"laptop","do":"register","device":"laptop","path":"plan.txt"}']
for step in range(1, STEPS + 1):
    lines += [DUPLICATE.format(step), f'{{"by":"laptop","do":"remove","copy":{2 * step}}}']
sys.stdout.write("\n".join([*lines, *LATE, ""]))
