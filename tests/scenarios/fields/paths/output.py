"""Ten bad paths; nine good ones, each taken the second time; and each as the board gives it back."""
import sys

sys.stdout.reconfigure(encoding="utf-8")

# as JSON texts: of all these characters only the quote and the backslash are written with a backslash
GOOD = [
    '" "',
    '"' + "a" * 1024 + '"',
    '"' + "\u00e9" * 512 + '"',
    '"\u65e5\u672c/\u8a08\u753b.txt"',
    '"\u0080\u00a0\u2028"',
    r'"say \"hi\" \\ / ~"',
    '"\U0001f5c2"',
    '".."',
    '"/"',
]

for _ in range(10):
    print('{"fault":"BadField","field":"path"}')
for number, _ in enumerate(GOOD, 1):
    print(f'{{"done":{number}}}')
for number, _ in enumerate(GOOD, 1):
    print(f'{{"code":6,"copy":{number},"refused":"PlaceTaken"}}')
for number, path in enumerate(GOOD, 1):
    row = f'{{"conflict":0,"copy":{number},"device":"a","equal":0,"newer":0,"older":0,"path":{path}}}'
    print(f'{{"board":{{"copies":[{row}],"family":{number},"newest":[{number}],"split":false}}}}')
