#!/usr/bin/env python3
"""Prints the cases of `data/drawn_orders.cases`: drawn data with an order file whose statuses decide which rules there
are. What is wanted is what `fuzz/data.py` says by the definitions alone.
"""
import itertools
import os
import random
import sys

sys.dont_write_bytecode = True
sys.path.insert(0, f"{os.path.dirname(os.path.abspath(__file__))}/../../../fuzz")
import data

# How many cases begin so.
WANTED = {"accepted": 60, "refused 601": 30, "refused 602": 30}


def decided(drawn):
    """What is printed first, and the rules."""
    return drawn.head(), drawn.rules


def case(name, rng, drawn):
    head, lines, wanted = drawn.head(), [], []
    if head.startswith("accepted"):
        for line, answer in (drawn.question(rng) for _ in range(4)):
            lines.append("|" + line)
            wanted.append("|" + answer)
    spec, order = ("".join(f"|{line}\n" for line in text.decode().rstrip("\n").split("\n")) for text in drawn.texts())
    made = f"\ncase {name}\nwords run s.lotos o\nfile s.lotos\n{spec}file o\n{order}"
    made += "input\n" + "".join(lines) if lines else ""
    return f"{made}prints\n|{head.rstrip().replace(chr(10), chr(10) + '|')}\n{''.join(wanted)}status {0 if lines else 1}"


def main():
    print("# Drawn data with an order file whose statuses decide which rules there are. Made by")
    print("# generators/drawn_orders.py, by a reference that is not the program.")
    left, count = dict(WANTED), 0
    for seed in itertools.count():
        rng = random.Random(seed)
        drawn = data.drawn(rng)
        from_left = data.Data(drawn.operations, drawn.equations, [(*it[:2], None) for it in drawn.items])
        try:
            kind = next((it for it in left if drawn.head().startswith(it)), None)
            if not kind or decided(drawn) == decided(from_left):
                continue
            made = case(f"drawn {count + 1}", rng, drawn)
        except data.TooMuch:
            continue
        print(made)
        count += 1
        left[kind] -= 1
        if not left[kind]:
            del left[kind]
        if not left:
            break


main()
