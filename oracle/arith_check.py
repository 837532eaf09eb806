"""The fixed steps written a second time, and compared with `oracle arith`: the lines that it read, and its answers.

usage: python3 oracle/arith_check.py LINES ANSWERS
"""

import math
import pathlib
import struct
import sys

sys.dont_write_bytecode = True
sys.path.insert(1, str(pathlib.Path(__file__).resolve().parent.parent / "tools"))
import command


def from_bits(bits):
    return struct.unpack(">d", bits.to_bytes(8, "big"))[0]


def to_hex(x):
    return "7ff8000000000000" if x != x else struct.pack(">d", x).hex()


NAN = float("nan")
INF = float("inf")
PI = from_bits(0x400921FB54442D18)


def over(a, b):
    """IEEE division: Python's own raises an error at zero."""
    if b != 0 or b != b:
        return a / b
    if a == 0 or a != a:
        return NAN
    return math.copysign(INF, math.copysign(1, a) * math.copysign(1, b))


def root(x):
    return math.sqrt(x) if x >= 0 else NAN


def floor(x):
    if x != x or abs(x) == INF:
        return x
    return math.copysign(float(math.floor(x)), x)


def ceil(x):
    return -floor(-x)


def reduced(t):
    k = floor(t * from_bits(0x3FE45F306DC9C883) + 0.5)
    r = (t - k * from_bits(0x3FF921FB54400000)) - k * from_bits(0x3DD0B4611A626331)
    return (0 if k != k or abs(k) == INF else int(k) % 4), r


def kernel(r, divisors):
    w = 1.0
    for d in divisors:
        w = 1.0 - (r * r / d) * w
    return w


def quarters(t):
    k, r = reduced(t)
    s = r * kernel(r, (272, 210, 156, 110, 72, 42, 20, 6))
    c = kernel(r, (240, 182, 132, 90, 56, 30, 12, 2))
    return k, s, c


def sin(t):
    k, s, c = quarters(t)
    return (s, c, -s, -c)[k]


def cos(t):
    k, s, c = quarters(t)
    return (c, -s, -c, s)[k]


def acos(a):
    if a == 1:
        return 0.0
    if a == -1:
        return PI
    y = root(over(1 - a, 1 + a))
    turned = y > 1
    if turned:
        y = over(1.0, y)
    for _ in range(3):
        y = y / (1 + root(1 + y * y))
    z = y * y
    v = 1 / 15
    for d in (13, 11, 9, 7, 5, 3, 1):
        v = 1 / d - z * v
    angle = 16 * (y * v)
    return PI - angle if turned else angle


def exp(t):
    k = floor(t * 1.4426950408889634 + 0.5)
    r = (t - k * from_bits(0x3FE62E42FEE00000)) - k * from_bits(0x3DEA39EF35793C76)
    w = 1.0
    for d in range(16, 0, -1):
        w = 1.0 + (r / d) * w
    return w * 2.0 ** int(k)


def cosh(t):
    return (exp(t) + exp(-t)) * 0.5


def sinh(t):
    return (exp(t) - exp(-t)) * 0.5


def least(a, b):
    return b if a != a or b < a else a


def most(a, b):
    return b if a != a or b > a else a


def clamp(x, lower, upper):
    return lower if x < lower else upper if x > upper else x


FUNCTIONS = {
    "root": (1, root),
    "sin": (1, sin),
    "cos": (1, cos),
    "acos": (1, acos),
    "exp": (1, exp),
    "cosh": (1, cosh),
    "sinh": (1, sinh),
    "floor": (1, floor),
    "ceil": (1, ceil),
    "abs": (1, abs),
    "min": (2, least),
    "max": (2, most),
    "clamp": (3, clamp),
}


def answer(line):
    name, *operands = line.split(" ")
    count, function = FUNCTIONS.get(name, (0, None))
    digits = all(len(x) == 16 and set(x) <= set("0123456789abcdef") for x in operands)
    if function is None or len(operands) != count or not digits:
        return "?"
    return to_hex(function(*(from_bits(int(x, 16)) for x in operands)))


def main():
    words = command.words(__doc__)
    if len(words) != 2:
        command.wrong_words(__doc__)
    lines, answers = (pathlib.Path(word).read_bytes().decode("latin-1").removesuffix("\n").split("\n") for word in words)
    if len(lines) != len(answers):
        print(f"{len(lines)} lines of arithmetic, and {len(answers)} answers")
        return 1
    pairs = list(zip(lines, answers))
    wrong = [(line, got) for line, got in pairs if answer(line) != got]
    for line, got in wrong[:10]:
        print(f"{line}: {got}, not {answer(line)}")
    print(f"{len(pairs)} lines of arithmetic, {len(wrong)} wrong")
    return 1 if wrong else 0


command.end(main)
