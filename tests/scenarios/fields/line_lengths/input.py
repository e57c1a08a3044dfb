"""Lines of 65,536 bytes and of more, good and bad, with and without a newline."""
import sys

CALL = b'{"by":"a","do":"board","family":1}'
LIMIT = 65536
LINES = [
    b"x" * LIMIT,
    b"x" * (LIMIT + 1),
    CALL,
    CALL.ljust(LIMIT),
    CALL.ljust(LIMIT + 1),
    CALL.rjust(LIMIT),
    CALL.rjust(LIMIT + 1),
    CALL.ljust(LIMIT) + b"\r",
    b"\xff" * LIMIT,
    b"\xff" * (LIMIT + 1),
    b"x" * (3 * LIMIT) + CALL,
    b"y" * 1000000,
    CALL,
    b"x" * (LIMIT + 1),
]
sys.stdout.buffer.write(b"\n".join(LINES))
