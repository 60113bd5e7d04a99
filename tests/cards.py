# The card of sixteen lay points (courses 0 to 15 at shog 0), written out by the page format: the table of lookup_tests.
def point(course, shog):
    return course.to_bytes(2, "little") + shog.to_bytes(2, "little", signed=True)

def entry(page, count, low, high):
    return page.to_bytes(2, "little") + count.to_bytes(4, "little") + point(*low) + point(*high)

def padded(body):
    return body + bytes(64 - len(body))

def data(points):
    return padded(bytes([1, len(points)]) + b"".join(point(*p) for p in points))

def directory(depth, low, high):
    return padded(bytes([3, depth]) + low + high)

def head(first, free, root):
    return padded(bytes([5]) + first.to_bytes(2, "little") + free.to_bytes(2, "little") + root)

low, high = [(c, 0) for c in range(8)], [(c, 0) for c in range(8, 16)]
card = (
    head(0, 0, entry(1, 16, (0, 0), (15, 0)))
    + directory(24, entry(2, 8, (0, 0), (7, 0)), entry(3, 8, (8, 0), (15, 0)))
    + data(low)
    + data(high)
)
if __name__ == "__main__":
    for i in range(0, len(card), 16):
        print("    " + " ".join("0x%02X," % b for b in card[i : i + 16]))
