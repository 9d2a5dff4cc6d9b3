#!/usr/bin/env python3
"""A second implementation of the numbers and matrices of docs/NUMBERS.md, written from that page alone.

It prints the expected values that the tests and the worked values in specs/ cite, as bits. An f32 operation is done
in f64 and narrowed once: for + - * / that is the f32 operation itself, since 53 digits are more than 2 * 24 + 1.
"""
import ctypes, math, struct

def f32(x):
    return ctypes.c_float(x).value

def bits(x):
    if x != x:
        return "7FC00000"
    return "%08X" % struct.unpack(">I", struct.pack(">f", x))[0]

def of_bits(b):
    return struct.unpack(">f", struct.pack(">I", b))[0]

PI = struct.unpack(">d", bytes.fromhex("400921FB54442D18"))[0]

def divide(a, b):
    if b == 0:
        if a == 0 or a != a:
            return math.nan
        return math.copysign(math.inf, a) * math.copysign(1.0, b)
    return a / b

def cos_sin(r):
    if not math.isfinite(r):
        return math.nan, math.nan
    t = math.fmod(r, 2.0)
    if t < 0:
        t += 2.0
    if t == 2.0:
        t = 0.0
    q = 0 if t < 0.5 else 1 if t < 1.0 else 2 if t < 1.5 else 3
    v = (t - q / 2) * PI
    w = v * v
    y = 1.0
    for k in range(7, 0, -1):
        y = 1.0 - (w / (2 * k * (2 * k + 1))) * y
    s = v * y
    y = 1.0
    for k in range(8, 0, -1):
        y = 1.0 - (w / ((2 * k - 1) * (2 * k))) * y
    c = y
    c, s = [(c, s), (-s, c), (-c, -s), (s, -c)][q]
    return f32(c), f32(s)

def tangent(r):
    c, s = cos_sin(r)
    return f32(divide(s, c))

def mul(a, b): return f32(a * b)
def add(a, b): return f32(a + b)

# a matrix is (xx, yx, xy, yy, dx, dy)
def apply(m, x, y):
    xx, yx, xy, yy, dx, dy = m
    return add(add(mul(xx, x), mul(xy, y)), dx), add(add(mul(yx, x), mul(yy, y)), dy)

def product(p, c):
    def column(x, y):
        return add(mul(p[0], x), mul(p[2], y)), add(mul(p[1], x), mul(p[3], y))
    return column(c[0], c[1]) + column(c[2], c[3]) + apply(p, c[4], c[5])

def move(x, y): return (1.0, 0.0, 0.0, 1.0, x, y)
def turn(r):
    c, s = cos_sin(r)
    return (c, s, -s, c, 0.0, 0.0)
def scale(x, y): return (x, 0.0, 0.0, y, 0.0, 0.0)
def skew(x, y): return (1.0, tangent(y), tangent(-x), 1.0, 0.0, 0.0)

def matrix(tx=0.0, ty=0.0, rot=0.0, sx=1.0, sy=1.0, kx=0.0, ky=0.0, cx=0.0, cy=0.0):
    m = product(move(add(tx, cx), add(ty, cy)), turn(rot))
    m = product(m, scale(sx, sy))
    m = product(m, skew(kx, ky))
    return product(m, move(-cx, -cy))

def rounded(x):
    if x != x:
        return 0
    if math.isinf(x):
        return 32767 if x > 0 else -32768
    n = math.floor(abs(x))
    if abs(x) - n >= 0.5:
        n += 1
    return max(-32768, min(32767, n if x >= 0 else -n))

def show(m): return " ".join(bits(x) for x in m)

if __name__ == "__main__":
    print("cosine and sine of half-turns")
    for r in [0.0, 0.25, 0.5, 1.0, 1.5, 2.0, -0.5, -1.0, -1.5, -2.0, -0.0, 0.1, -0.1, 1.75, 3.25, -1e-30, 1e10, -1e20, 16777215.0, -8388607.5, math.inf, math.nan]:
        r = f32(r)
        print("  %-12r %s" % (r, show(cos_sin(r))))
    print("tangent of half-turns")
    for r in [0.0, 0.25, -0.25, 0.5, 1.0, 0.1, math.inf]:
        r = f32(r)
        print("  %-12r %s" % (r, bits(tangent(r))))
    print("rounding")
    for x in [-0.5, 0.5, 0.49999999999999994, 1.5, -1.5, 2.5, 40000.0, -40000.0, 32767.5, -32768.5, 32766.5, math.inf, -math.inf, math.nan]:
        print("  %-22r %d" % (x, rounded(x)))
    print("narrowing")
    for x in [1.00000005960464477539, 1.00000017881393432617, 1e300]:
        print("  %-22r %s" % (x, bits(f32(x))))
    print("scales")
    print("  16 / 1000", bits(f32(16.0 / 1000.0)))
    print("matrices")
    print("  product  ", show(product((1., 2., 3., 4., 5., 6.), (7., 8., 9., 10., 11., 12.))))
    inner, outer = matrix(tx=100.0), matrix(sx=2.0, sy=2.0, ty=30.0)
    print("  inner    ", show(inner))
    print("  outer    ", show(outer))
    print("  sample   ", show(product(outer, inner)), [bits(x) for p in [(0., 0.), (50., 0.)] for x in apply(product(outer, inner), *p)])
    root = product((1., 0., 0., 1., 0., 0.), outer)
    print("  from root", show(product(root, inner)))
    nine = dict(tx=10.0, ty=-20.0, rot=0.25, sx=2.0, sy=0.5, kx=0.125, ky=-0.0625, cx=3.0, cy=7.0)
    print("  nine     ", show(matrix(**nine)), [bits(x) for x in apply(matrix(**nine), 100.0, -50.0)])
    third = dict(tx=f32(0.1), ty=f32(0.2), rot=f32(1/3), sx=f32(1.1), sy=f32(-0.9), kx=f32(0.07), ky=f32(0.03), cx=f32(-0.3), cy=f32(12.7))
    print("  thirds   ", show(matrix(**third)), [bits(v) for v in third.values()])
    print("  nan      ", show(matrix(rot=math.nan)))
