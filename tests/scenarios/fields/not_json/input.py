"""Lines that are no UTF-8, no JSON or no object, and objects with white space round them."""
import sys

LINES = [
    # not UTF-8: a lone byte, a cut character, a character too long, half a pair, above the last character
    b"\xff",
    b'{"by":"\xc3"}',
    b"\xc0\xaf",
    b"\xed\xa0\x80",
    b"\xf4\x90\x80\x80",
    b"{ \xff",
    # not JSON
    b"",
    b"   ",
    b"\r",
    b"\x00",
    b"nul",
    b"'a'",
    b'{"by":"a"',
    b'{"by":"a",}',
    b'{"by":"a"} x',
    b'{"by":"a"}{"by":"a"}',
    b"{by:1}",
    b'{"by":"a","do":"edit","copy":01}',
    b'{"by":"a","do":"edit","copy":+1}',
    b'{"by":"a","do":"register","device":"a","path":"a\x1fb"}',
    b'{"by":"a","do":"register","device":"a","path":"a\tb"}',
    "{\"by\":\"a\"}\u00a0".encode(),
    # no object
    b"[1]",
    b"1",
    b"true",
    b"null",
    b'"{}"',
    b"[]",
    b'[{"by":"a","do":"board","family":1}]',
    # white space
    b'  {"by":"a","do":"board","family":1}',
    b'{"by":"a","do":"board","family":1}\t ',
    b'{"by":"a","do":"board","family":1}\r',
    b'{ "by" :\t"a",\r"do": "board" , "family" : 1 }',
]
sys.stdout.buffer.write(b"".join(it + b"\n" for it in LINES))
