"""What the scripts share that make stdin and stdout of the programs crates/replay and crates/replay_chain. With it they can import what
tools/ has."""
import math
import pathlib
import struct
import subprocess
import sys

HERE = pathlib.Path(__file__).resolve().parent
sys.path.insert(1, str(HERE.parent / "tools"))
SEPARATOR = "====\n"
INF, NAN = math.inf, math.nan
# The least float above zero, the least normal one, and the largest.
LEAST, NORMAL, MOST = 5e-324, 2.2250738585072014e-308, 1.7976931348623157e308


class Random:
    """splitmix64: the same numbers on every machine."""

    def __init__(self, seed):
        self.state = seed

    def below(self, n):
        self.state = (self.state + 0x9E3779B97F4A7C15) % 2**64
        z = self.state
        z = (z ^ z >> 30) * 0xBF58476D1CE4E5B9 % 2**64
        z = (z ^ z >> 27) * 0x94D049BB133111EB % 2**64
        return (z ^ z >> 31) % n

    def of(self, values):
        return values[self.below(len(values))]

    def unit(self):
        return self.below(2**53) / 2**53

    def size(self, low, high):
        """A float whose power of ten lies between two."""
        return (1 + self.unit()) * 10.0 ** (low + self.below(high - low + 1))


def hexes(*floats):
    """Floats by their bits, one space between; a NaN may be given as its 16 digits."""
    return " ".join(x if isinstance(x, str) else f"{struct.unpack('>Q', struct.pack('>d', x))[0]:016x}" for x in floats)


def floats(words):
    return [struct.unpack(">d", bytes.fromhex(word))[0] for word in words]


def beside(x):
    """A float, and those next to it."""
    return [math.nextafter(x, -INF), x, math.nextafter(x, INF)]


def ask(command, text):
    """What the oracle answers. Texts stand for bytes, one character each: a damaged sheet may hold any."""
    run = subprocess.run([HERE / "target/oracle", *command], input=text.encode("latin-1"), capture_output=True, check=True)
    return run.stdout.decode("latin-1")


def store(crate, parts, answers, checked):
    """Writes stdin and stdout of a crate, or says, where they are checked, whether they are other than what is stored."""
    differing = 0
    for name, text in (("stdin", parts), ("stdout", answers)):
        path = HERE.parent / "crates" / crate / name
        if not checked:
            path.write_bytes(text)
        elif path.read_bytes() != text:
            differing += 1
            print(f"{path.relative_to(HERE.parent)} is not what would be stored")
    return differing > 0
