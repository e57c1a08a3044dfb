"""A number for each entry, and the stamps before and after the last."""
import sys

ONE = '{"stamps":[{"copy":1,"stamp":"(1,0)"}]}'
TWO = '{"stamps":[{"copy":1,"stamp":"((1,0),0)"},{"copy":514,"stamp":"((0,1),0)"}]}'

lines = [f'{{"done":{n}}}' for n in range(1, 514)]
sys.stdout.write("\n".join([*lines, ONE, '{"done":514}', TWO, ""]))
