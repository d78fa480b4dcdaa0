#!/usr/bin/env python3
"""Writes the levels of the table of speed, out/levels/NAME.json and NAME.script, and manifest.json: how many frames of each are
played. They are the same on each machine and each time."""
import json
import os
import random

HERE = os.path.dirname(os.path.abspath(__file__))
OUT = os.path.join(HERE, 'out', 'levels')
L = 'ABCDEFGHIJKLMNOPQRSTUVWXYZ'


def put(g, cells, text):
    for (x, y), c in zip(cells, text):
        g[y][x] = c


def rows(g):
    return [''.join(r) for r in g]


def patrol(rng, n=2):
    ps = rng.sample('0123456789', n)
    return ['seq*'] + [['move', p] for p in ps]


def open128(rng):
    g = [['.'] * 128 for _ in range(128)]
    places = [(0, 0), (127, 127), (127, 0), (0, 127), (64, 0), (0, 64), (127, 64), (64, 127), (32, 0), (96, 127)]
    put(g, places, '0123456789')
    free = [(x, y) for y in range(128) for x in range(128) if g[y][x] == '.']
    put(g, rng.sample(free, 26), L)
    opposite = ['01', '23', '47', '56', '89']
    trees = {}
    for a in range(26):
        p, q = opposite[a % 5]
        trees['t' + L[a]] = ['seq*', ['move', p], ['move', q]]
    return {'map': rows(g), 'agents': ['t' + c for c in L], 'trees': trees}, '', 400


def maze128(rng):
    g = [['#'] * 128 for _ in range(128)]
    stack = [(1, 1)]
    g[1][1] = '.'
    while stack:
        x, y = stack[-1]
        ns = [(x + dx, y + dy, x + dx // 2, y + dy // 2) for dx, dy in ((0, 2), (2, 0), (0, -2), (-2, 0))
              if 0 <= x + dx < 128 and 0 <= y + dy < 128 and g[y + dy][x + dx] == '#']
        if not ns:
            stack.pop()
            continue
        a, b, c, d = rng.choice(ns)
        g[b][a] = g[d][c] = '.'
        stack.append((a, b))
    free = [(x, y) for y in range(128) for x in range(128) if g[y][x] == '.']
    cs = rng.sample(free, 36)
    put(g, cs[:10], '0123456789')
    put(g, cs[10:], L)
    trees = dict(('t' + c, patrol(rng, 3)) for c in L)
    return {'map': rows(g), 'agents': ['t' + c for c in L], 'trees': trees}, '', 800


def deep(rng):
    """255 nodes, depth 32; every node is ticked in every frame, one move in the whole tree."""
    g = [['.'] * 16 for _ in range(16)]
    free = [(x, y) for y in range(16) for x in range(16)]
    cs = rng.sample(free, 40)
    put(g, cs[:10], '0123456789')
    put(g, cs[10:36], L)
    put(g, cs[36:], '****')

    def leaf():
        return rng.choice([['near', rng.randint(1, 16)], ['carrying'], ['item'], ['signal', 'a'], ['at', rng.choice('0123456789')],
                           ['wait', rng.randint(1, 1000)], ['ticks', rng.randint(1, 1000), ['wait', 1000]], ['not', ['near', 3]]])

    def size(n):
        return 1 + sum(size(c) for c in n[1:] if isinstance(c, list))

    def tree():
        t = ['move', rng.choice('0123456789')]
        left = 254
        for d in range(31):
            extra, kids = left // (31 - d) - 1, [t]
            while extra > 0:
                k = leaf() if extra > 1 and d else ['item']
                kids.insert(rng.randint(0, len(kids)), k)
                extra -= size(k)
                left -= size(k)
            t = ['par', rng.randint(1, len(kids))] + kids
            left -= 1
        return t
    trees = dict(('t' + c, tree()) for c in L)
    assert all(size(t) == 255 for t in trees.values()), [size(t) for t in trees.values()]
    return {'map': rows(g), 'agents': ['t' + c for c in L], 'trees': trees}, '', 3000


def tiny(rng):
    return {'map': ['A..0', '1...'], 'agents': ['t'], 'trees': {'t': ['seq*', ['move', '0'], ['move', '1']]}}, '', 9999


def draw128(rng):
    g = [[rng.choice('....#*ab') for _ in range(128)] for _ in range(128)]
    s = ''.join('%d %s %s\n' % (f, 'on' if f % 200 else 'off', 'a') for f in range(100, 9999, 100))
    return {'map': rows(g), 'agents': [], 'trees': {}}, s, 9999


def mixed(rng):
    """A middle case: 64 by 64, walls, doors that go on and off, carriers with several questions per think."""
    g = [[rng.choice('.......##ab*') for _ in range(64)] for _ in range(64)]
    free = [(x, y) for y in range(64) for x in range(64) if g[y][x] == '.']
    cs = rng.sample(free, 36)
    put(g, cs[:10], '0123456789')
    put(g, cs[10:], L)
    trees = {}
    for c in L:
        p, q, r = rng.sample('0123456789', 3)
        trees['t' + c] = ['fallback', ['seq', ['item'], ['not', ['carrying']], ['take']],
                          ['seq', ['carrying'], ['seq*', ['move', p], ['drop']]],
                          ['par', 1, ['seq*', ['move', q], ['move', r]], ['ticks', 20, ['move', p]]]]
    s = ''.join('%d %s %s\n' % (f, 'on' if (f // 25) % 2 else 'off', 'ab'[(f // 50) % 2]) for f in range(25, 2000, 25))
    return {'map': rows(g), 'agents': ['t' + c for c in L], 'trees': trees}, s, 1500


def main():
    os.makedirs(OUT, exist_ok=True)
    man = []
    for k, f in enumerate([open128, maze128, deep, tiny, draw128, mixed]):
        v, s, n = f(random.Random(100 + k))
        name = f.__name__
        with open(os.path.join(OUT, name + '.json'), 'w') as out:
            json.dump(v, out, separators=(',', ':'))
        with open(os.path.join(OUT, name + '.script'), 'w') as out:
            out.write(s)
        man.append({'name': name, 'frames': n, 'script': bool(s)})
    with open(os.path.join(OUT, 'manifest.json'), 'w') as out:
        json.dump(man, out, indent=1)


main()
