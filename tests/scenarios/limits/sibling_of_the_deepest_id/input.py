"""A file that is duplicated 256 times, each copy but the first of them removed with no heir, then a duplicate of either."""
import sys

STEPS = 256
DUPLICATE = '{{"by":"laptop","do":"duplicate","copy":{},"device":"usb","path":"p{}"}}'

lines = ['{"by":"laptop","do":"register","device":"laptop","path":"plan.txt"}', DUPLICATE.format(1, 1)]
for step in range(2, STEPS + 1):
    lines += [DUPLICATE.format(1, step), f'{{"by":"laptop","do":"remove","copy":{2 * step - 1}}}']
lines += [DUPLICATE.format(1, 0), DUPLICATE.format(2, 0), '{"by":"laptop","do":"stamps","family":1}']
sys.stdout.write("\n".join([*lines, ""]))
