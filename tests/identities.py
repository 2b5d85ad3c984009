#!/usr/bin/env python3
"""Checks what the head of crates/crc/src/lib.rt prints: every line there that is set in by four places, by this file's own
arithmetic of polynomials over the numbers 0 and 1, and that no shorter relation than x^300 exists below x^515.

A polynomial is a number whose bits are its coefficients. Those in y, which is 1 / x, are kept 32 places up.
"""
import os
import re
import sys

here = os.path.dirname(os.path.abspath(__file__))
P = 0x104C11DB7
UP = 32


def product(a, b):
    r = 0
    while b:
        if b & 1:
            r ^= a
        a <<= 1
        b >>= 1
    return r


def divided(a, b):
    q = 0
    while a.bit_length() >= b.bit_length():
        k = a.bit_length() - b.bit_length()
        q ^= 1 << k
        a ^= b << k
    return q, a


def value(text, names):
    """A sum of products. A value is a pair (number, places): the number divided by x^places."""
    tokens = re.findall(r'0x[0-9A-F]+|[xytuP]|\d+|[()+^]', text)
    if ''.join(tokens) != text.replace(' ', ''):
        sys.exit('identities: not understood: ' + text)
    at = 0

    def factor():
        nonlocal at
        token = tokens[at]
        at += 1
        if token == '(':
            v = total()
            at += 1
            return v
        if token in 'xy':
            k = 1
            if at < len(tokens) and tokens[at] == '^':
                k = int(tokens[at + 1])
                at += 2
            return (1 << k, 0) if token == 'x' else (1, k)
        return names[token] if token in names else (int(token, 0), 0)

    def term():
        v = factor()
        while at < len(tokens) and tokens[at] not in ')+':
            w = factor()
            v = product(v[0], w[0]), v[1] + w[1]
        return v

    def total():
        nonlocal at
        v = term()
        while at < len(tokens) and tokens[at] == '+':
            at += 1
            w = term()
            k = max(v[1], w[1])
            v = v[0] << k - v[1] ^ w[0] << k - w[1], k
        return v

    return total()


def whole(v, line):
    """The value without its part below x^0, which is there only where moves down lose bits."""
    if v[0] & (1 << v[1]) - 1 and ' to y^31' not in line:
        sys.exit('identities: not whole: ' + line)
    return v[0] >> v[1]


def check(line):
    text, _, where = line.partition(' where ')
    names = {}
    for part in filter(None, where.split(', ')):
        name, _, said = part.partition(' = ')
        names[name] = value(said, names)
    sides = text.replace(' to y^31', '').split(' = ')
    if re.fullmatch(r'\d+', sides[0]):
        words, _, moves = sides[1].partition('  ')
        k = int(sides[0])
        n, rest = divmod(k, 64)
        ups, downs = re.findall(r'<< (\d+)', moves), re.findall(r'>> (\d+)', moves)
        order = ['fifth', 'fourth', 'third', 'second']
        return (words == '%d * 64 + %d' % (n, rest) and ups == [str(rest)] and downs == [str(64 - rest)]
                and re.findall('|'.join(order), moves) == order[n:n + 2])
    if sides[0] == 'P':
        return all(value(s, names)[0] == P for s in sides[1:])
    if sides[0].endswith(' over P'):
        q = divided(value(sides[0][:-7], names)[0], P)[0]
        right = whole(value(sides[1], names), line)
        return (q ^ right) >> (1 if ' to y^31' in line else 0) == 0
    if sides[0].startswith('0x'):
        return all(value(s, names)[0] & 0xFFFFFFFF == int(sides[0], 16) for s in sides)
    return len({divided(value(s, names)[0], P)[1] for s in sides}) == 1


def few(limit):
    """All relations of at most five terms with 1 among them, of a degree below the limit."""
    power = [1]
    for _ in range(limit - 1):
        power.append(divided(power[-1] << 1, P)[1])
    at = {v: i for i, v in enumerate(power)}
    pairs = {}
    for i in range(1, limit):
        for j in range(i + 1, limit):
            pairs.setdefault(power[i] ^ power[j], []).append((i, j))
    found = {(at[1 ^ v],) + ij for v, ijs in pairs.items() for ij in ijs if at.get(1 ^ v, 0) > 0}
    found |= {ij for ij in pairs.get(1, [])} | {(i,) for i in range(1, limit) if power[i] == 1}
    for v, ijs in pairs.items():
        for kl in pairs.get(1 ^ v, []):
            found |= {ij + kl for ij in ijs}
    return {tuple(sorted(f)) for f in found if len(set(f)) == len(f)}


def main():
    with open(os.path.join(here, '..', 'crates', 'crc', 'src', 'lib.rt'), encoding='utf-8') as f:
        lines = [line[6:].strip() for line in f if line.startswith('//     ')]
    wrong = [line for line in lines if not check(line)]
    for line in wrong:
        print('identities: WRONG: ' + line)
    least = few(515)
    if least != {(89, 117, 155, 300)}:
        print('identities: relations of few terms below x^515:', sorted(least))
        wrong.append('few')
    if wrong or len(lines) < 15:
        sys.exit(1)
    print('identities: %d lines of the head of crates/crc/src/lib.rt hold, and x^300 is the one relation of five terms below x^515' % len(lines))


main()
