#!/usr/bin/env python3
"""Compares the layouts of random code with plain rounds, and measures the longest chains of rounds.

    bench/random/slow_layout.py PROGRAM [SEED [CODES]]
    bench/random/slow_layout.py PROGRAM chains

PROGRAM is `laid.txt`, built without proofs:

    bench/lib/build-unproved.py laid PROGRAM bench/random/laid.txt jc_bytes jc_methods jc_insn jc_kinds_after jc_plan jc_emit \\
        jc_layout

A code has some dozens of jumps and switches in two parts, and between them a switch with so many arms that many jumps have
about as much room as they need. The rounds are worked out here as docs/EMISSION.md says them, over all instructions in each round.
"""
import bisect
import random
import subprocess
import sys

JUMPS = {"g": (3, 5), "i": (3, 8)}


def starts(code, wide):
    """The offsets of the instructions, and that of the end."""
    found, at = [], 0
    for (kind, number), is_wide in zip(code, wide):
        found.append(at)
        if kind in JUMPS:
            at += JUMPS[kind][is_wide]
        else:
            at += 1 if kind == "n" else 13 + 3 - at % 4 + 4 * number
    return found + [at]


def rounds(code):
    """The wide jumps, the offset of the end, and how many rounds made a jump wide."""
    wide, count = [False] * len(code), 0
    while True:
        at = starts(code, wide)
        far = lambda n: code[n][0] in JUMPS and not -32768 <= at[code[n][1]] - at[n] <= 32767
        after = [wide[n] or far(n) for n in range(len(code))]
        if after == wide:
            return wide, at, count
        wide, count = after, count + 1


def few_insns(rng, least, most):
    """Jumps, small switches and `nop`s."""
    return [[rng.choice("gi"), 0] if rng.random() < 0.6 else ["s", rng.randrange(1, 5)] if rng.random() < 0.6 else ["n", 1]
            for _ in range(rng.randrange(least, most))]


def random_code(rng):
    """Two dense parts with a large switch between them, and jumps that mostly need about as much room as they have."""
    front, back = few_insns(rng, 2, 40), few_insns(rng, 2, 40)
    code = front + [["s", (32768 - rng.randrange(10, 500)) // 4]] + back
    at, size = starts(code, [False] * len(code)), len(code)
    for n, insn in enumerate(code):
        if insn[0] in JUMPS:
            want = at[n] + (1 if n < len(front) else -1) * (32768 - rng.randrange(-4, 40))
            to = bisect.bisect_left(at, want) - rng.randrange(2)
            insn[1] = min(size - 1, max(0, to)) if rng.random() < 0.9 else rng.randrange(size)
    return code


def asked(codes):
    """The codes as the program reads them."""
    return "".join("%s %d\n" % tuple(insn) for code in codes for insn in [*code, ("end", 0)])


def answered(program, codes):
    """What the program prints of each."""
    ran = subprocess.run([program], input=asked(codes).encode(), capture_output=True, check=True)
    return [line.split() for line in ran.stdout.decode().splitlines()]


def differs(code, words):
    wide, at, _ = rounds(code)
    if at[-1] > 65535:
        return words[:2] != ["refused", str(at[-1])]
    return words[:2] != ["end", str(at[-1])] or words[5:] != [str(n) for n, is_wide in enumerate(wide) if is_wide]


def compare(program, seed, count):
    rng = random.Random(seed)
    codes = [random_code(rng) for _ in range(count)]
    found = [rounds(code) for code in codes]
    again = lambda wide, at, code: any(w and -32768 <= at[code[n][1]] - at[n] <= 32767 for n, w in enumerate(wide))
    refused = sum(at[-1] > 65535 for _, at, _ in found)
    fit = sum(again(wide, at, code) for (wide, at, _), code in zip(found, codes))
    bad = sum(differs(code, words) for code, words in zip(codes, answered(program, codes)))
    print("codes %d, refused %d, with wide jumps %d, of more than two rounds %d, with a wide jump that has room again %d" % (
        count, refused, sum(any(wide) for wide, _, _ in found), sum(k > 2 for _, _, k in found), fit))
    print("%d differences" % bad)
    return 1 if bad else 0


def chain(count):
    """A chain of gotos, each of which gets far by the one behind it, over `nop`s."""
    length = 3 * (count - 1) + 32769
    code = [["g", count + 32768 - 2 * (count - 1 - k) + 3 * k - 3 * count] for k in range(count)]
    return code + [["n", 1]] * (length - 3 * count)


def dense_chain(count):
    """The same among gotos that lead nowhere far, in code of the largest size that is taken."""
    room = 65535 - 2 * count
    front = [["g", k] for k in range(count + max(0, min(32700, room - 32760) - 3 * count) // 3 + 1)]
    code = front + [["n", 1]] * (room - 1 - 3 * len(front))
    at = starts(code, [False] * len(code))
    for k in range(len(front)):
        want = at[k] + (32768 - 2 * (count - 1 - k) if k < count else 32767)
        code[k] = ["g", max(0, bisect.bisect_right(at[:-1], want) - 1)]
    return code


def large_chain(count):
    """Blocks of 19 bytes and a goto, of which all but the last 1,500 form a chain."""
    last, code = count - 1500, []
    for k in range(count):
        code += [["n", 1]] * 19 + [["g", 20 * k + 19]]
    code[20 * last + 19] = ["g", 20 * (last - 1500)]
    behind = [0] * (count + 1)
    for k in range(count - 1, -1, -1):
        behind[k] = behind[k + 1] + (k == last)
        start = 22 * k + 19
        for to in range(start + 32768, start + 20000, -1) if k < last else ():
            block, rest = divmod(to, 22)
            between = behind[k + 1] - behind[min((to - 20) // 22, count - 1) + 1]
            if rest <= 19 and block < count and between > 0 and to - start + 2 * (between - 1) <= 32767 < to - start + 2 * between:
                code[20 * k + 19] = ["g", 20 * block + rest]
                behind[k] += 1
                break
    return code


def chains(program):
    codes = {
        "65,535 nops": [["n", 1]] * 65535,
        "a chain of 6,500 gotos": chain(6500),
        "a chain of 6,000 gotos among others": dense_chain(6000),
        "a chain of 20,346 rounds": large_chain(21845),
    }
    for name, code in codes.items():
        print(name + ":", " ".join(answered(program, [code])[0][:4]))
    return 0


def main():
    if len(sys.argv) < 2:
        sys.exit(__doc__)
    if sys.argv[2:] == ["chains"]:
        return chains(sys.argv[1])
    seed, count = [int(word) for word in (sys.argv[2:] + ["1", "2000"][len(sys.argv) - 2 :])[:2]]
    return compare(sys.argv[1], seed, count)


if __name__ == "__main__":
    sys.exit(main())
