#!/usr/bin/env python3
"""Tells of each list of edges the array of its graph, or why it has none.

Usage: python3 tools/graph_answer.py FILE..

Goes over all pairs of vertices, as docs/graphs.md says, to compare with `drg graph`, with which it shares
no code. It takes it that each FILE is a list of edges.
"""
import sys
from collections import deque
from itertools import product
from pathlib import Path

GREATEST_DIAMETER = 12


def neighbours(text):
    """The set of neighbours of each vertex."""
    head, *lines = text.splitlines()
    near = [set() for _ in range(int(head.removeprefix("graph ")))]
    for line in lines:
        x, y = (int(word) for word in line.split(" "))
        near[x].add(y)
        near[y].add(x)
    return near


def distances(near, start):
    """The distance from a vertex of each vertex that has one."""
    found, queue = {start: 0}, deque([start])
    while queue:
        x = queue.popleft()
        for y in near[x] - found.keys():
            found[y] = found[x] + 1
            queue.append(y)
    return found


def answer(text):
    """The answer on a list of edges."""
    near = neighbours(text)
    if len(near) == 1:
        return "single"
    distance = [distances(near, x) for x in range(len(near))]
    pairs = list(product(range(len(near)), repeat=2))
    for x, y in pairs:
        if y not in distance[x]:
            return f"apart {x} {y}"
    references = {}
    for x, y in pairs:
        i = distance[x][y]
        down, up = (sum(distance[x][z] == i + step for z in near[y]) for step in (-1, 1))
        x1, y1, down1, up1 = references.setdefault(i, (x, y, down, up))
        if down1 != down:
            return f"differ {x1} {y1} {x} {y} {i} down {down1} {down}"
        if up1 != up:
            return f"differ {x1} {y1} {x} {y} {i} up {up1} {up}"
    return array_or_far(references)


def array_or_far(references):
    """The array of the counts at the distances from 0 on, or the pair that is too far apart."""
    diameter = len(references) - 1
    if diameter > GREATEST_DIAMETER:
        x, y, _, _ = references[GREATEST_DIAMETER + 1]
        return f"far {x} {y}"
    b = ",".join(str(references[i][3]) for i in range(diameter))
    c = ",".join(str(references[i][2]) for i in range(1, diameter + 1))
    return f"array {{{b};{c}}}"


if __name__ == "__main__":
    for name in sys.argv[1:]:
        print(answer(Path(name).read_text(encoding="utf-8")))
