"""A number for each report; the copies are equal, and after one more edit the first is older."""
REPORTS = 2 + 3 * 100

for number in range(1, REPORTS + 1):
    print(f'{{"done":{number}}}')
print('{"pair":"Equal"}')
print(f'{{"done":{REPORTS + 1}}}')
print('{"pair":"Older"}')
print('{"families":[{"copies":2,"family":1,"newest":1,"split":false}]}')
