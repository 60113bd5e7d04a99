#!/usr/bin/env python3
"""The page format, reckoned a second time and by other means than the crate `page`, for its tests.

    pages.py            the sample pages in hexadecimal, 16 bytes a line
    pages.py --changes  what crates/pages must print: what becomes of every change of one byte of every sample page

A page is read here by a grammar of whole fields (struct), not by offsets.
"""
import struct
import sys

LAY = dict(name='lay', data=1, directory=3, head=5, room=15, bits=28, point='Hh')
BAR = dict(name='bar', data=2, directory=4, head=6, room=10, bits=34, point='HHh')


def on_axes(kind, point):
    if not -2048 <= point[-1] <= 2047 or not 0 <= point[0] <= 65535:
        return False
    return kind is LAY or 0 <= point[1] <= 63


def code(kind, point):
    """Each raised value as a string of binary digits, from which the digits are taken in turns."""
    values = list(point[:-1]) + [point[-1] + 2048]
    widths = [16, 12] if kind is LAY else [16, 6, 12]
    digits = [format(v, 'b').zfill(w) for v, w in zip(values, widths)]
    return int(''.join(d[i] for i in range(16) for d in digits if i < len(d)), 2)


def entry(kind, page, count, low, high):
    return struct.pack('<HI', page, count) + struct.pack('<' + kind['point'], *low) + struct.pack('<' + kind['point'], *high)


def page(first, body):
    return (bytes([first]) + body).ljust(64, b'\0')


def free(kind, following):
    return page(0, struct.pack('<H', following))


def data(kind, points):
    return page(kind['data'], bytes([len(points)]) + b''.join(struct.pack('<' + kind['point'], *p) for p in points))


def directory(kind, depth, low, high):
    return page(kind['directory'], bytes([depth]) + entry(kind, *low) + entry(kind, *high))


def head(kind, first, count, root):
    size = struct.calcsize('<HI' + 2 * kind['point'])
    return page(kind['head'], struct.pack('<HH', first, count) + (entry(kind, *root) if root else bytes(size)))


def corners(points):
    return tuple(map(min, zip(*points))), tuple(map(max, zip(*points)))


# ---- reading: 'same', 'kind' or 'field'

def good_entry(kind, fields):
    n = len(kind['point'])
    low, high = fields[2:2 + n], fields[2 + n:]
    return on_axes(kind, low) and on_axes(kind, high) and all(a <= b for a, b in zip(low, high))


def judge(kind, expected, bs):
    """What reading bs gives where a page of one of the expected forms stands."""
    forms = {0: 'free', kind['data']: 'data', kind['directory']: 'directory', kind['head']: 'head'}
    form = forms.get(bs[0])
    if form not in expected:
        return 'kind'
    one = 'HI' + 2 * kind['point']
    if form == 'free':
        ok, layout = True, '<BH'
    elif form == 'data':
        count = bs[1]
        if not 1 <= count <= kind['room']:
            return 'field'
        layout = '<BB' + count * kind['point']
        fields = struct.unpack_from(layout, bs)[2:]
        n = len(kind['point'])
        ok = all(on_axes(kind, fields[i:i + n]) for i in range(0, len(fields), n))
    elif form == 'directory':
        layout = '<BB' + 2 * one
        fields = struct.unpack_from(layout, bs)
        n = len(one)
        ok = fields[1] < kind['bits'] and good_entry(kind, fields[2:2 + n]) and good_entry(kind, fields[2 + n:])
    else:
        layout = '<BHH' + one
        fields = struct.unpack_from(layout, bs)[3:]
        ok = not any(fields) or good_entry(kind, fields)
    body = struct.calcsize(layout)
    return 'same' if ok and not any(bs[body:]) else 'field'


def parted(points, kind):
    """The points in rising code, at the first bit in which their codes differ: depth, low half, high half."""
    points = sorted(points, key=lambda p: code(kind, p))
    codes = [format(code(kind, p), 'b').zfill(kind['bits']) for p in points]
    depth = next(i for i in range(kind['bits']) if len({c[i] for c in codes}) == 2)
    return depth, [p for p, c in zip(points, codes) if c[depth] == '0'], [p for p, c in zip(points, codes) if c[depth] == '1']


LAY_POINTS = [(0, -2048), (0, -1), (0, 0), (4660, 7), (65535, 2047)]
BAR_POINTS = [(0, 0, -2048), (12, 5, -7), (4660, 63, 0), (65535, 63, 2047)]


def samples():
    for kind, points in ((LAY, LAY_POINTS), (BAR, BAR_POINTS)):
        ordered = sorted(points, key=lambda p: code(kind, p))
        assert ordered == points, ordered
        if kind is LAY:
            full = [(course, 2 * course - 14) for course in range(15)]
        else:
            full = [(course, 7 * course, 2047 - course) for course in range(10)]
        full.sort(key=lambda p: code(kind, p))
        depth, low, high = parted(points[:-1], kind)
        n = kind['name']
        yield n, 'free', 'FREE', free(kind, 4660), ('free',)
        yield n, 'data', 'DATA', data(kind, points), ('data', 'directory')
        yield n, 'full data', 'FULL', data(kind, full), ('data', 'directory')
        yield n, 'directory', 'DIRECTORY', directory(kind, depth, (513, 70000, *corners(low)), (2, 16, *corners(high))), ('data', 'directory')
        yield n, 'empty head', 'EMPTY_HEAD', head(kind, 1, 65534, None), ('head',)
        yield n, 'head', 'HEAD', head(kind, 0, 258, (7, 70016, *corners(points))), ('head',)


def main():
    kinds = {'lay': LAY, 'bar': BAR}
    if '--changes' in sys.argv:
        for kind, name, _, bs, expected in samples():
            assert judge(kinds[kind], expected, bs) == 'same'
            tally = {'same': 0, 'kind': 0, 'field': 0}
            for place in range(64):
                for value in range(256):
                    if value != bs[place]:
                        tally[judge(kinds[kind], expected, bs[:place] + bytes([value]) + bs[place + 1:])] += 1
            assert sum(tally.values()) == 64 * 255
            print(f"{kind} {name}: {tally['same']} other pages, {tally['kind']} of another kind, {tally['field']} with a wrong field, 0 misread")
        return
    for kind, name, label, bs, _ in samples():
        print(f'{kind} {name}  {kind.upper()}_{label}')
        for i in range(0, 64, 16):
            print('    ' + ', '.join(f'0x{b:02x}' for b in bs[i:i + 16]) + ',')
    for kind, points in ((LAY, LAY_POINTS), (BAR, BAR_POINTS)):
        print(kind['name'], 'corners', corners(points), 'parted', parted(points[:-1], kind), 'codes', [code(kind, p) for p in points])


main()
