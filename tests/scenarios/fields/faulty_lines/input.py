"""One line for each kind of fault, and a last line without a newline that has none."""
import sys

LINES = [
    b"x" * 65537,
    b"",
    b"\xff",
    b"[1]",
    b'{"by":"A","do":"x"}',
    b'{"by":"a","do":"edit"}',
    b'{"by":"a","do":"reconcile","a":1}',
    b'{"by":"a","do":"merge","a":1}',
    b'{"by":"a","do":"relocate","copy":1,"device":"a"}',
    b'{"by":"a","do":"remove","copy":1,"heir":"2"}',
    b'{"by":"a","do":"confirm"}',
    b'{"by":"a","do":"withdraw"}',
    b'{"by":"a","do":"pair","a":1}',
    b'{"by":"a","do":"holdings"}',
    b'{"by":"a","do":"journal"}',
    b'{"by":"a","do":"board","family":1}',
    b'{"by":"a","do":"families"}',
]
sys.stdout.buffer.write(b"\n".join(LINES))
