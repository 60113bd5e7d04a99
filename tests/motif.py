# An independent reckoning of placed motifs: the expected output of the program `motif`. Reads its input from standard input.
import re, sys

OFF = "refused 3: off its axis"

def pair(text):
    words = text.split()
    if len(words) == 2 and all(re.fullmatch(r"[+-]?[0-9]+", w) for w in words):
        return int(words[0]), int(words[1])

def on_axes(p):
    return p[0] in range(65536) and p[1] in range(-2048, 2048)

def held(p):
    return p[0] in range(65536) and p[1] in range(-32768, 32768)

def say(p):
    return "course %d, shog %d" % p

def at(origin, p):
    total = origin[0] + p[0], origin[1] + p[1]
    return total if on_axes(p) and on_axes(total) else None

def steps(origin, motif):
    for line, p in motif:
        placed = at(origin, p)
        if placed:
            yield "line %d: %s is placed at %s" % (line, say(p), say(placed))
        elif held(p):
            yield "line %d: %s is %s" % (line, say(p), OFF)
        else:
            yield "line %d: %s" % (line, OFF)

def run(lines):
    origins, motif = [], []
    for line in (1, 2):
        if len(lines) < line:
            yield "line %d: there is none, and an origin should stand there" % line
            return
        p = pair(lines[line - 1])
        if p is None:
            yield 'line %d: "%s" is no origin: two whole numbers make one' % (line, lines[line - 1])
            return
        if not on_axes(p):
            yield 'line %d: %s: "%s"' % (line, OFF, lines[line - 1])
            return
        origins.append(p)
    for line, text in enumerate(lines[2:], 3):
        p = pair(text)
        if p is None:
            yield 'line %d: "%s" is no point: two whole numbers make one' % (line, text)
        else:
            motif.append((line, p))
    first, other = origins
    yield "origin: " + say(first)
    yield from steps(first, motif)
    yield "temporary origin: " + say(other)
    yield from steps(other, motif)
    yield "the whole motif is placed there" if all(at(other, p) for _, p in motif) else "the whole motif there: " + OFF
    yield "the first origin stands again: " + say(first)

data = sys.stdin.buffer.read().decode("utf-8", "replace")
lines = data.split("\n")
if lines[-1] == "":
    lines.pop()
for text in run([line.strip() for line in lines]):
    print(text)
