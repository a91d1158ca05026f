#!/usr/bin/env python3
"""Writes the sample maps of crates/board/data: the two small worked maps and a made district.

A map file has 16-bit fields, low byte first: the counts of junctions and roads, a byte with the number of
levels and a byte 0; for each junction its code and the first road of its chain; for each road its head, the
next road of its chain, its seconds, metres, limit and mark. Roads count from 1.
"""
import random
import struct
import sys


def map_bytes(levels, codes, roads):
    """roads: tail, head, seconds, metres, limit, mark, in the order of their numbers."""
    n, m = len(codes), len(roads)
    first, last, following = [0] * n, [0] * n, [0] * (m + 1)
    for number, (tail, *_) in enumerate(roads, 1):
        if last[tail]:
            following[last[tail]] = number
        else:
            first[tail] = number
        last[tail] = number
    out = struct.pack("<HHBB", n, m, levels, 0)
    for code, road in zip(codes, first):
        out += struct.pack("<HH", code, road)
    for number, (_, head, seconds, metres, limit, mark) in enumerate(roads, 1):
        out += struct.pack("<6H", head, following[number], seconds, metres, limit, mark)
    return out


def district():
    """144 junctions in rows of 12: 4 quarters of 9 blocks of 4 junctions, some lanes one way, some closed."""
    pick = random.Random(1874)
    side = 12
    codes = []
    for row in range(side):
        for column in range(side):
            quarter = 2 * (row // 6) + column // 6
            block = 3 * (row % 6 // 2) + column % 6 // 2
            codes.append(16 * quarter + block)
    roads = []
    for row in range(side):
        for column in range(side):
            here = row * side + column
            for down, across in ((0, 1), (1, 0)):
                if row + down >= side or column + across >= side or pick.random() < 0.06:
                    continue
                there = here + down * side + across
                main = row % 6 == 3 or column % 6 == 2
                metres = pick.randrange(120, 900)
                seconds = metres // (12 if main else 7) + pick.randrange(0, 30)
                limit = pick.choice((400, 400, 260) if main else (260, 180, 75))
                ways = [(here, there), (there, here)]
                if pick.random() < 0.15:
                    ways = ways[:1] if pick.random() < 0.5 else ways[1:]
                for tail, head in ways:
                    mark = 1 if pick.random() < 0.03 else 0
                    roads.append((tail, head, seconds, metres, limit, mark))
    pick.shuffle(roads)
    return map_bytes(2, codes, roads)


def worked_four():
    roads = [(0, 1, 10, 35, 180, 0), (1, 2, 20, 20, 75, 0), (0, 2, 100, 50, 400, 0), (2, 3, 0, 25, 260, 0), (3, 2, 10, 10, 260, 0)]
    return map_bytes(1, [0, 0, 1, 1], roads)


def worked_five():
    # metres alone make the charges 100, 50, 50, 100 and 150
    roads = [(0, 1, 0, 50, 400, 0), (1, 2, 0, 25, 400, 0), (2, 3, 0, 25, 400, 0), (3, 4, 0, 50, 400, 0), (1, 3, 0, 75, 400, 0)]
    return map_bytes(1, [0, 1, 1, 1, 2], roads)


def main():
    folder = sys.argv[1] if len(sys.argv) > 1 else "crates/board/data"
    four = worked_four()
    maps = {"district.map": district(), "four.map": four, "five.map": worked_five()}
    # a mark of 2, in the last road of the first worked map
    maps["damaged.map"] = four[:-2] + b"\x02\x00"
    for name, data in maps.items():
        with open(f"{folder}/{name}", "wb") as f:
            f.write(data)


main()
