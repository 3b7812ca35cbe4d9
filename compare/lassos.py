"""`watch` beside the six path rules, evaluated on a lasso of words without any watch."""
import random

from common import compare, run

NAMES = ["always", "eventual", "until", "until-stable", "leads-to", "conditional-stable"]


def keeps(number, p, q, stem):
    """p and q say at each place of stem and loop whether the proposition holds; later places repeat the loop."""
    places = range(len(p))

    def from_on(i):
        return range(min(i, stem), len(p))

    def stable(i):
        return all(q[j] for j in from_on(i))

    return [
        lambda: all(q),
        lambda: any(q),
        lambda: any(q[i] and all(p[:i]) for i in places),
        lambda: any(stable(i) and all(p[:i]) for i in places),
        lambda: all(any(q[j] for j in from_on(i)) for i in places if p[i]),
        lambda: all(any(stable(j) for j in from_on(i)) for i in places if p[i]),
    ][number]()


def one():
    number = random.randrange(6)
    (p_on, p_off), (q_on, q_off) = [(random.randrange(5), random.choice([0, 0, 1, 2, 4])) for _ in range(2)]
    stem = [random.randrange(8) for _ in range(random.randrange(4))]
    loop = [random.randrange(8) for _ in range(random.randrange(1, 5))]
    lines = [f"pattern {NAMES[number]}"]
    if number >= 2:
        lines.append(f"P on {p_on:04x} off {p_off:04x}")
    lines.append(f"Q on {q_on:04x} off {q_off:04x}")
    lines.append(" ".join(["stem"] + [f"{w:04x}" for w in stem]))
    lines.append(" ".join(["loop"] + [f"{w:04x}" for w in loop]))
    p = [w & p_on == p_on and not w & p_off for w in stem + loop]
    q = [w & q_on == q_on and not w & q_off for w in stem + loop]
    expected = "keeps" if keeps(number, p, q, len(stem)) else "breaks"
    status, out, _ = run("watch", stdin="\n".join(lines).encode())
    return (0, expected), (status, out.splitlines()[-1] if out else ""), lines


compare("lassos", one)
