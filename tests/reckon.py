# An independent reckoning of codes, by strings of binary digits: the expected output of the programs `codes` and `bench`, and the tables of `kinds_tests`.
import re, sys

AXES = {2: [("course", 0, 16), ("shog", -2048, 12)], 3: [("course", 0, 16), ("bar", 0, 6), ("shog", -2048, 12)]}
NAME = {2: "lay point", 3: "bar point"}

def raised(point):
    return [z - least for z, (_, least, _) in zip(point, AXES[len(point)])]

def on_axes(point):
    return all(0 <= v < 2 ** bits for v, (_, _, bits) in zip(raised(point), AXES[len(point)]))

def digits(point):
    queues = [list(format(v, "0%db" % bits)) for v, (_, _, bits) in zip(raised(point), AXES[len(point)])]
    taken = ""
    while any(queues):
        for queue in queues:
            if queue:
                taken += queue.pop(0)
    return taken

def shared(a, b):
    n = 0
    for x, y in zip(a, b):
        if x != y:
            break
        n += 1
    return n

def data(point):
    return b"".join(z.to_bytes(2, "little", signed=z < 0) for z in point)

def codes(lines):
    out, before = [], None
    for i, line in enumerate(lines, 1):
        text = line.strip()
        words = text.split()
        point, now = None, None
        if len(words) in (2, 3) and all(re.fullmatch(r"[+-]?[0-9]+", w) for w in words):
            point = [int(w) for w in words]
        if point is None:
            out.append('line %d: "%s" is no point: two whole numbers make a lay point, three a bar point' % (i, text))
        elif not on_axes(point):
            out.append('line %d: "%s" is off an axis' % (i, text))
        else:
            names = [name for name, _, _ in AXES[len(point)]]
            now = digits(point)
            out.append("line %d: %s, %s" % (i, NAME[len(point)], ", ".join("%s %d" % (n, z) for n, z in zip(names, point))))
            out.append("  raised " + ", ".join("%s %d" % (n, v) for n, v in zip(names, raised(point))))
            out.append("  code %d" % int(now, 2))
            out.append("  bits " + now)
            if before is not None and len(before) == len(now):
                out.append("  first bits shared with the line before: %d" % shared(before, now))
            else:
                out.append("  no point of this kind in the line before")
        before = now
    return "".join(l + "\n" for l in out)

M = 2 ** 64

def bench(count):
    state = 1
    def draw():
        nonlocal state
        state = (state * 6364136223846793005 + 1442695040888963407) % M
        return state >> 30
    def lay():
        r = draw()
        return [r % 65536, r // 65536 % 4096 - 2048]
    def bar():
        r = draw()
        return [r % 65536, r // 65536 % 64, r // 4194304 % 4096 - 2048]
    out = []
    for name, sample in (("lay", lay), ("bar", bar)):
        state = 1
        total = 0
        for _ in range(count):
            total = (total * 31 + int(digits(sample()), 2)) % M
        out.append("%s code %d" % (name, total))
        state = 1
        total = 0
        last = sample()
        for _ in range(count):
            p = sample()
            total = (total * 31 + shared(digits(last), digits(p))) % M
            last = p
        out.append("%s depth %d" % (name, total))
        state = 1
        total = 0
        for _ in range(count):
            for b in data(sample()):
                total = (total * 31 + b) % M
        out.append("%s bytes %d" % (name, total))
    return "".join(l + "\n" for l in out)

def table(points):
    for p in points:
        print("        (%s, %d, [%s])," % (", ".join(map(str, p)), int(digits(p), 2), ", ".join(map(str, data(p)))))

if __name__ == "__main__":
    if sys.argv[1] == "codes":
        sys.stdout.write(codes(sys.stdin.read().split("\n")[:-1]))
    elif sys.argv[1] == "bench":
        sys.stdout.write(bench(int(sys.argv[2])))
    else:
        ends = [(0, 65535), (-2048, 2047)]
        table([(c, s) for c in (0, 65535) for s in (-2048, 2047)] + [(0, -1), (0, 0), (0, 1), (1, -2048), (32768, -1), (40000, 17), (65535, 0), (21845, -1366)])
        table([(c, b, s) for c in (0, 65535) for b in (0, 63) for s in (-2048, 2047)] + [(0, 0, 0), (12, 5, -7), (1, 0, -2048), (0, 1, -2048), (0, 0, -2047), (40000, 42, 17)])
