"""A number for each entry, the refusal, the board as it was, and the stamp before and after the edit."""
import sys

DEPTH = 256
ID = "(" * DEPTH + "1" + ",0)" * DEPTH
EVENT = "(0," * DEPTH + "1" + ",0)" * DEPTH
BOARD = (
    '{"board":{"copies":[{"conflict":0,"copy":1,"device":"laptop","equal":0,"newer":0,"older":0,"path":"plan.txt"}],'
    '"family":1,"newest":[1],"split":false}}'
)
ENTRIES = (
    '{"entries":[{"by":"laptop","copy":512,"do":"remove","number":513},'
    '{"by":"laptop","copy":1,"do":"edit","number":514}]}'
)


def stamps(event):
    """The answer with the stamp of copy 1."""
    return f'{{"stamps":[{{"copy":1,"stamp":"({ID},{event})"}}]}}'


lines = [f'{{"done":{n}}}' for n in range(1, 514)]
lines += ['{"code":8,"refused":"TooDeep"}', BOARD, stamps("0"), '{"done":514}', stamps(EVENT), ENTRIES]
sys.stdout.write("\n".join([*lines, ""]))
