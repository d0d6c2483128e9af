"""Scripts that are drawn: commands of every kind, of which some words are then spoilt."""
import random
from typing import Iterator

NAMES = ["a", "b", "c", "lot", "name", "box", "prism", "and", "x_1"]
SPOILT = ["", "0", "-0", "00", "7", "1.000", "-0.000", "5.00", "1,5", "a", "9a", "half", "box", "rp", "=", "\u00fc", "\t", "(", "16777216", "16777216.001",
          "-16777217", "8388609", "8388.609", "3", "256", "257", "1024", "1025", "65537", "9" * 40, "a" * 32, "a" * 33, "# x"]


class Drawer:
    """Draws lines of a version with a generator of random numbers."""

    def __init__(self, rng: random.Random, version: int):
        self.rng, self.version = rng, version

    def whole(self, most: int = 20) -> str:
        return str(self.rng.randint(-most, most))

    def coordinate(self) -> str:
        return f"{self.rng.randint(-9, 9)}.{self.rng.randint(100, 999)}" if self.version == 2 else self.whole()

    def coordinates(self, count: int) -> str:
        return " ".join(self.coordinate() for _ in range(count))

    def name(self) -> str:
        return self.rng.choice(NAMES)

    def expression(self, depth: int = 3) -> str:
        word = self.rng.choice(["half", "box", "prism", "all", "none", "name", "lot", "and", "or", "minus", "not"][: 11 if depth else 7])
        if word == "half":
            return f"half {' '.join(self.whole(self.rng.choice([0, 3, 3])) for _ in range(4))}"
        if word == "box":
            return f"box {self.coordinates(6)}"
        if word == "prism":
            count = self.rng.randint(3, 6)
            return f"prism {self.coordinates(2)} {count} {self.coordinates(2 * count)}"
        if word in ("name", "lot"):
            return f"{word} {self.name()}"
        return " ".join([word] + [self.expression(depth - 1) for _ in range({"all": 0, "none": 0, "not": 1}.get(word, 2))])

    def point(self) -> str:
        return f"{self.coordinates(3)} {self.rng.randint(1, 3)}"

    def line(self) -> str:
        e, n, rng = self.expression, self.name, self.rng
        count = rng.randint(0, 3)
        return rng.choice([
            lambda: f"member {e()} {self.point()}", lambda: f"let {n()} = {e()}", lambda: f"{rng.choice(['empty', 'show', 'pieces'])} {e()}",
            lambda: f"{rng.choice(['equal', 'within', 'overlap', 'contact', 'rcc'])} {e()} {e()}", lambda: f"section {e()} {self.coordinate()}",
            lambda: f"register {n()} {e()}", lambda: f"cut {n()} {e()} {n()} {n()}",
            lambda: " ".join([f"subdivide {n()} {count}"] + [f"{n()} {e()}" for _ in range(count)]),
            lambda: " ".join([f"consolidate {n()} {count}"] + [n() for _ in range(count)]), lambda: f"{rng.choice(['retire', 'neighbours', 'history', 'layer'])} {n()}",
            lambda: f"at {self.point()}", lambda: f"asof {rng.randint(0, 9)} {self.point()}", lambda: f"access {n()} {n()}", lambda: rng.choice(["audit", "list"]),
        ])()

    def spoilt(self, line: str) -> str:
        """A line with a word that is another one, that is missing, or that is one too many."""
        words = line.split(" ")
        at = self.rng.randrange(len(words))
        words[at : at + self.rng.randint(0, 2)] = [self.rng.choice(SPOILT + [words[at]]) for _ in range(self.rng.randint(0, 2))]
        return " ".join(words)


def long_lines(version: int, rng: random.Random) -> Iterator[str]:
    """Lines about the bounds: of bytes, of words and of digits."""
    most = 65536 if version == 1 else 262144
    yield "empty" + " not" * rng.choice([1022, 1023, 1024]) + rng.choice([" all", " al", ""])
    yield "#" + "x" * (most - rng.choice([0, 1, 2]))
    yield "member all " + "9" * rng.choice([30, 31, 60000]) + " 0 0 1"


def script(seed: int) -> str:
    """A script that is drawn from a seed: nine lines, of which about half are spoilt, and in every eighth script some long ones."""
    rng = random.Random(seed)
    version = rng.choice([1, 2])
    drawer = Drawer(rng, version)
    lines = [drawer.line() for _ in range(9)]
    lines = [drawer.spoilt(line) if rng.random() < 0.5 else line for line in lines]
    if seed % 8 == 0:
        lines += long_lines(version, rng)
    return "\n".join(["rp 2"] * (version == 2) + lines) + "\n"
