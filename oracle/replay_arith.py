"""Parts `arith` for crates/replay, and the oracle's answers: the generated lines of some seeds, and lines that a reader can trip
over."""
from replay_common import ask

ONE = "3ff0000000000000"
MALFORMED = [
    # a word as long as any line may be, and longer ones; spaces, NULs and a carriage return where none belongs
    "a" * 64, "a" * 65, f"sin {ONE}" + " " * 60, f"\0sin {ONE}", f"sin {ONE}\r", f"sin\0 {ONE}", f"abs {ONE}\0",
    # a digit too few, one too many; a name with more to it; nothing; operands too many and too few
    f"floor {ONE[:-1]}", f"floor {ONE}0", f"clampe {ONE}", f"rootroot {ONE}", " ", "   ",
    f"clamp {ONE} {ONE} {ONE} {ONE}", f"clamp {ONE} {ONE}", f"min {ONE}", "x" * 70000,
]  # fmt: skip
LAST = ["clamp bff8000000000000 4000000000000000 3ff0000000000000", "abs bff8000000000000"]


def parts(seed, count):
    """The generated lines of so many seeds, a thousand to a part; behind them the malformed ones, and a clamp whose ends are
    exchanged."""
    lines = [line for i in range(count) for line in ask(["genarith", str(seed + i)], "").splitlines(keepends=True)]
    texts = ["".join(lines[i : i + 1000]) for i in range(0, len(lines), 1000)]
    texts.append("".join(line + "\n" for line in [*MALFORMED, *LAST]))
    return [(text, ask(["arith"], text)) for text in texts]


def stored():
    return parts(1, 1)
