#!/usr/bin/env python3
"""Writes the lists of edges of examples/edges, each as a graph is defined.

Usage: python3 tools/make_edges.py

A list has a line `graph N`, for the vertices 0 to N-1, and a line `x y` for each edge, x below y and in
ascending order. tools/check_examples.py compares the files with what is made here.
"""
from itertools import combinations, product
from pathlib import Path

FOLDER = Path(__file__).resolve().parent.parent / "examples" / "edges"
# The lines of a plane with seven points.
LINES = [{0, 1, 2}, {0, 3, 4}, {0, 5, 6}, {1, 3, 5}, {1, 4, 6}, {2, 3, 6}, {2, 4, 5}]


def edges_of(vertices, are_joined):
    """The list of edges where the vertices are these things, in their order, and some two are joined."""
    vertices = list(vertices)
    pairs = combinations(range(len(vertices)), 2)
    edges = [f"{x} {y}" for x, y in pairs if are_joined(vertices[x], vertices[y])]
    return "\n".join([f"graph {len(vertices)}"] + edges) + "\n"


def graph_of(count, pairs):
    """The list of edges of these pairs."""
    found = {frozenset(pair) for pair in pairs}
    return edges_of(range(count), lambda x, y: frozenset((x, y)) in found)


def ring(count):
    return graph_of(count, [(x, (x + 1) % count) for x in range(count)])


def path(count):
    return graph_of(count, [(x, x + 1) for x in range(count - 1)])


def complete(count):
    return edges_of(range(count), lambda x, y: True)


def disjoint_sets(sets):
    """Sets, joined where they have no common member."""
    return edges_of(sets, lambda x, y: x.isdisjoint(y))


def differ_once(x, y):
    return sum(a != b for a, b in zip(x, y)) == 1


def words(letters, length):
    """Words, joined where they differ in one place."""
    return edges_of(product(range(letters), repeat=length), differ_once)


def icosahedron():
    """Two ends, each joined to a ring of five, and each vertex of a ring to two of the other."""
    ends = [(0, x) for x in range(1, 6)] + [(11, x) for x in range(6, 11)]
    rings = [(1 + x, 1 + (x + 1) % 5) for x in range(5)] + [(6 + x, 6 + (x + 1) % 5) for x in range(5)]
    between = [(1 + x, 6 + (x + step) % 5) for x in range(5) for step in (0, 1)]
    return graph_of(12, ends + rings + between)


def shrikhande():
    """A torus of 4 times 4, with the steps (0,1), (1,0) and (1,1) forth and back."""
    steps = {(0, 1), (1, 0), (1, 1), (0, 3), (3, 0), (3, 3)}
    places = product(range(4), repeat=2)
    return edges_of(places, lambda x, y: ((y[0] - x[0]) % 4, (y[1] - x[1]) % 4) in steps)


def sets_of(points, size):
    return [set(members) for members in combinations(range(points), size)]


def made():
    """Each list of edges by the name of its file."""
    return {
        "k2": complete(2),
        "k4": complete(4),
        "heptagon": ring(7),
        "ring_25": ring(25),
        "cube": words(2, 3),
        "octahedron": edges_of(range(6), lambda x, y: y - x != 3),
        "petersen": disjoint_sets(sets_of(5, 2)),
        "icosahedron": icosahedron(),
        "shrikhande": shrikhande(),
        "rook_4_4": words(4, 2),
        # The sets of three points that are no line.
        "coxeter": disjoint_sets([members for members in sets_of(7, 3) if members not in LINES]),
        "ring_26": ring(26),
        "prism": graph_of(6, [(0, 1), (1, 2), (2, 0), (3, 4), (4, 5), (5, 3), (0, 3), (1, 4), (2, 5)]),
        "path": path(3),
        "k4_less_an_edge": edges_of(range(4), lambda x, y: (x, y) != (0, 1)),
        "two_triangles": graph_of(6, [(0, 1), (1, 2), (2, 0), (3, 4), (4, 5), (5, 3)]),
        "k1": complete(1),
    }


if __name__ == "__main__":
    FOLDER.mkdir(exist_ok=True)
    for name, text in made().items():
        (FOLDER / f"{name}.txt").write_text(text, encoding="utf-8")
