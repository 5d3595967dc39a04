#!/usr/bin/env python3
"""many_images.py [COUNT [SEED]]: random damaged images, a million if no count is given, checked, with the places, and walked by the library
and by the reading of document 01 in tests/recorded/model.py, which shares no code with it. Not a part of the gate."""

import random
import sys
from collections import Counter

from beside import OURS, differs
from make import random_group, rows_command
from model import Model, Refused, read_image, walk_image
from replay import cases, run


def bases(rng):
    """Images of small groups."""
    made = ["enum 0", "enum 1", "enum 2 2", "enum 2 3", "enum 2 4", "enum 3 2 2 2", "enum 3 3 2 3", "table 1 3 1 2 0", "table 2 3 1 2 2 0 0 1"]
    while len(made) < 20:
        rows = random_group(rng)
        if len(rows) <= 24:
            made.append(rows_command(len(rows[0]), len(rows), rows))
    for line in made:
        try:
            yield bytes.fromhex(Model().answer("image " + line)[0].split()[1])
        except Refused:
            pass


def damage(rng, image):
    data, way = bytearray(image), rng.randrange(10)
    if way == 0:
        return bytes(data[: rng.randrange(len(data) + 1)])
    if way == 1:
        return bytes(data) + bytes(rng.randrange(256) for _ in range(rng.randint(1, 3)))
    if way == 2:  # two numbers crossed
        i, j = (8 + 2 * rng.randrange(max(1, (len(data) - 8) // 2)) for _ in range(2))
        data[i : i + 2], data[j : j + 2] = data[j : j + 2], data[i : i + 2]
        return bytes(data)
    for _ in range(rng.choice((1, 1, 1, 2, 3))):
        i = rng.randrange(len(data)) if way == 3 else rng.randrange(min(8, len(data) - 1), len(data))
        data[i] = rng.choice((rng.randrange(256), rng.randrange(24), data[i] ^ 1))
    return bytes(data)


def verdict_of(data):
    """The number of a check, 0 where it takes the image, and its verdict with the places."""
    try:
        read_image(data)
    except Refused as refused:
        return refused.number, str(refused)
    return 0, "ok"


def main(count, seed):
    rng = random.Random(seed)
    images, numbers, done = list(bases(rng)), Counter(), 0
    while done < count:
        asked, wanted = [], []
        for _ in range(min(20000, count - done)):
            data = damage(rng, rng.choice(images))
            start, word = rng.randrange(7), [rng.randrange(4) for _ in range(rng.randrange(5))]
            text = data.hex() or "-"
            asked += ["imgcheck " + text, "imgverdict " + text, " ".join(map(str, ["imgwalk", text, start, *word]))]
            number, verdict = verdict_of(data)
            numbers[number] += 1
            wanted += [[str(number)], [verdict], [str(walk_image(data, start, word))]]
        for (command, got), want in zip(cases(run(asked, OURS)), wanted, strict=True):
            if got != want:
                differs("many images, seed %s" % seed, command, want, got)
        done += len(asked) // 3
    print("%d images, seed %s, no difference; numbers met: %s" % (done, seed, " ".join("%d:%d" % n for n in sorted(numbers.items()))))


if __name__ == "__main__":
    main(int(sys.argv[1]) if len(sys.argv) > 1 else 10**6, sys.argv[2] if len(sys.argv) > 2 else "1")
