"""A number for each entry, the refusal, the number of the other's duplicate, and the stamps."""
import sys

DEPTH = 256
DEEPEST = "(" * DEPTH + "1" + ",0)" * DEPTH
STAMPS = (
    f'{{"stamps":[{{"copy":1,"stamp":"({DEEPEST},0)"}},'
    '{"copy":2,"stamp":"((0,(1,0)),0)"},{"copy":513,"stamp":"((0,(0,1)),0)"}]}'
)

lines = [f'{{"done":{n}}}' for n in range(1, 513)]
lines += ['{"code":8,"refused":"TooDeep"}', '{"done":513}', STAMPS]
sys.stdout.write("\n".join([*lines, ""]))
