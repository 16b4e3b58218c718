#!/usr/bin/env python3
"""The nets of each part between ports, from the table of lowering alone: no code of the repository is read.

Each named line of the table is one net, and the nets stand in the order of the passes: inputs (valid and word of each input of the
part, then ready of each of its outputs), registers, forward nets, backward nets, next nets. It prints what a program prints that
calls the four passes of `buffer_stage` on the same parts:

    part NAME INPUTS OUTPUTS WIDTH
    out VALID WORD        for each output
    ready NET             for each input
    complete true
    NUMBER NET            for each net
    next REGISTER NET     for each register
"""


class Nets:
    def __init__(self):
        self.nets = []
        self.next = {}

    def add(self, *net):
        self.nets.append(" ".join(str(part) for part in net))
        return len(self.nets) - 1

    def constant(self, width, number):
        return self.add("const", f"{width}'{number}")

    def register(self, width, reset=0):
        return self.add("register", f"{width}'{reset}")


def count_bits(depth):
    """The least k with 2 to the power of k above the depth."""
    bits = 0
    while not 2 ** bits > depth:
        bits += 1
    return bits


def stage(n, width, ins, ready):
    (iv, id_), = ins
    v0, v1, d0, d1 = n.register(1), n.register(1), n.register(width), n.register(width)
    (or_,) = ready
    r = n.add("not", v1)
    a = n.add("and", iv, r)
    b = n.add("and", v0, or_)
    c = n.add("not", b)
    k = n.add("and", v0, c)
    f = n.add("or", v1, a)
    p = n.add("or", k, f)
    q = n.add("and", k, f)
    m = n.add("choose", v1, d1, id_)
    g = n.add("choose", k, d0, m)
    n.next = {v0: p, v1: q, d0: g, d1: m}
    return [(v0, d0)], [r]


def fifo(n, width, ins, ready, depth):
    (iv, id_), = ins
    (rden,) = ready
    bits = count_bits(depth)
    count = n.register(bits)
    places = [n.register(width) for _ in range(depth)]
    z = n.constant(bits, 0)
    empty = n.add("equal", count, z)
    t = n.constant(bits, depth)
    full = n.add("equal", count, t)
    r = n.add("not", full)
    a = n.add("and", iv, r)
    y = n.constant(bits - 1, 0)
    xa = n.add("concat", y, a)
    xb = n.add("concat", y, rden)
    p = n.add("sub", count, xb)
    c = n.add("add", p, xa)
    n.next[count] = c
    for i in range(depth):
        q = n.constant(bits, i)
        h = n.add("equal", p, q)
        g = n.add("and", a, h)
        s = n.add("choose", rden, places[i + 1], places[i]) if i + 1 < depth else places[i]
        n.next[places[i]] = n.add("choose", g, id_, s)
    return [(empty, places[0])], [r]


def as_fifo(n, ins, ready):
    (iv, id_), = ins
    return [(n.add("not", iv), id_)], list(ready)


def as_vr(n, ins, ready):
    (e, d), = ins
    v = n.add("not", e)
    return [(v, d)], [n.add("and", ready[0], v)]


def twice(n, ins, ready):
    (iv, id_), = ins
    return [(iv, n.add("add", id_, id_))], list(ready)


def running_sum(n, width, ins, ready, reset):
    (iv, id_), = ins
    s = n.register(width, reset)
    od = n.add("add", s, id_)
    a = n.add("and", iv, ready[0])
    n.next[s] = n.add("choose", a, od, s)
    return [(iv, od)], list(ready)


def fork(n, ins, ready):
    (iv, id_), = ins
    flags = [n.register(1) for _ in ready]
    outs = []
    for flag in flags:
        u = n.add("not", flag)
        outs.append((n.add("and", iv, u), id_))
    waits = [n.add("or", flag, r) for flag, r in zip(flags, ready)]
    t = n.add("and", waits[0], waits[1])
    for wait in waits[2:]:
        t = n.add("and", t, wait)
    a = n.add("and", iv, t)
    c = n.add("not", a)
    for flag, (ov, _), r in zip(flags, outs, ready):
        x = n.add("and", ov, r)
        y = n.add("or", flag, x)
        n.next[flag] = n.add("and", c, y)
    return outs, [t]


def join(n, ins, ready):
    (lv, ld), (rv, rd) = ins
    v = n.add("and", lv, rv)
    d = n.add("concat", ld, rd)
    return [(v, d)], [n.add("and", ready[0], rv), n.add("and", ready[0], lv)]


def show(name, inputs, outputs, width, make):
    n = Nets()
    ins = [(n.add("input", 1), n.add("input", width)) for _ in range(inputs)]
    ready = [n.add("input", 1) for _ in range(outputs)]
    outs, readies = make(n, ins, ready)
    print("part", name, inputs, outputs, width)
    for valid, word in outs:
        print("out", valid, word)
    for net in readies:
        print("ready", net)
    print("complete true")
    for at, net in enumerate(n.nets):
        print(at, net)
    for register in sorted(n.next):
        print("next", register, n.next[register])


def main():
    show("stage 8", 1, 1, 8, lambda n, i, r: stage(n, 8, i, r))
    show("stage 1", 1, 1, 1, lambda n, i, r: stage(n, 1, i, r))
    for depth in range(2, 65):
        show("fifo 8", 1, 1, 8, lambda n, i, r: fifo(n, 8, i, r, depth))
    show("as_fifo", 1, 1, 8, as_fifo)
    show("as_vr", 1, 1, 8, as_vr)
    show("join", 2, 1, 8, join)
    for branches in range(2, 9):
        show("fork", 1, branches, 8, fork)
    show("map", 1, 1, 8, twice)
    show("scan", 1, 1, 8, lambda n, i, r: running_sum(n, 8, i, r, 5))


main()
