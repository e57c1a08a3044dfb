"""A file that is duplicated 256 times, each copy removed with the first as its heir, then a duplicate more."""
import sys

STEPS = 256
DUPLICATE = '{{"by":"laptop","do":"duplicate","copy":1,"device":"usb","path":"p{}"}}'

lines = ['{"by":"laptop","do":"register","device":"laptop","path":"plan.txt"}']
for step in range(1, STEPS + 1):
    lines += [DUPLICATE.format(step), f'{{"by":"laptop","do":"remove","copy":{2 * step},"heir":1}}']
lines += ['{"by":"laptop","do":"stamps","family":1}', DUPLICATE.format(0), '{"by":"laptop","do":"stamps","family":1}']
sys.stdout.write("\n".join([*lines, ""]))
