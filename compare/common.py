"""What the comparisons share: running a program, damaging bytes, and reporting."""
import os
import random
import subprocess
import sys

CRATES = os.path.join(os.path.dirname(os.path.abspath(__file__)), "..", "crates")


def run(name, *words, stdin):
    done = subprocess.run([os.path.join(CRATES, name, "out", name), *words], input=stdin, capture_output=True)
    said = done.stderr.decode()
    if said.count("\n") > 1:
        said = "several lines: " + said
    return done.returncode, done.stdout.decode(), said


def pair(data, at):
    return data[at] * 256 + data[at + 1]


def damaged(data):
    """The bytes as they are, cut, lengthened, with one or two bytes changed, or others altogether."""
    data = bytearray(data)
    kind = random.random()
    if kind < 0.2:
        data = data[: random.randrange(len(data))]
    elif kind < 0.3:
        data.append(random.randrange(256))
    elif kind < 0.7:
        for _ in range(random.randrange(1, 3)):
            at = random.randrange(min(len(data), 24))
            data[at] = random.choice([data[at] ^ 1 << random.randrange(8), random.randrange(256), 0, 255])
    elif kind < 0.8:
        data = bytearray(random.randrange(8) for _ in range(random.randrange(25)))
    return bytes(data)


def compare(title, one):
    """`one()` makes an input and answers (what was expected, what came, a text to show)."""
    count = int(sys.argv[1]) if len(sys.argv) > 1 else 2000
    random.seed(20261118)
    wrong = 0
    for _ in range(count):
        expected, got, shown = one()
        if expected != got:
            wrong += 1
            print(f"{title}: {shown}\n  expected {expected!r}\n  got      {got!r}")
    print(f"{title}: {count - wrong} of {count} agree")
    sys.exit(1 if wrong else 0)
