"""Makes a screenshot smaller: a PNG of 8-bit RGB or RGBA becomes one of at most 256 colours."""
import collections
import struct
import zlib

SIGNATURE = b"\x89PNG\r\n\x1a\n"
# So many colours there are at most, and so many of them, the most frequent, stay as they are.
MOST, OWN = 256, 64


def chunks(png):
    at = len(SIGNATURE)
    while at < len(png):
        length, = struct.unpack(">I", png[at:at + 4])
        yield png[at + 4:at + 8], png[at + 8:at + 8 + length]
        at += length + 12


def pixels(png):
    """The width of a picture, and its lines as lists of (red, green, blue)."""
    parts = collections.defaultdict(bytes)
    for name, content in chunks(png):
        parts[name] += content
    width, height, depth, form = struct.unpack(">IIBB", parts[b"IHDR"][:10])
    assert depth == 8 and form in (2, 6), "a PNG of 8-bit RGB or RGBA"
    size = 3 if form == 2 else 4
    data, above, lines = zlib.decompress(parts[b"IDAT"]), bytearray(width * size), []
    for row in range(height):
        at = row * (width * size + 1)
        above = unfiltered(data[at], bytearray(data[at + 1:at + 1 + width * size]), above, size)
        lines.append(list(zip(above[0::size], above[1::size], above[2::size])))
    return width, lines


def unfiltered(kind, line, above, size):
    for i in range(len(line) if kind else 0):
        left, up = line[i - size] if i >= size else 0, above[i]
        corner = above[i - size] if i >= size else 0
        if kind == 1:
            line[i] = (line[i] + left) & 255
        elif kind == 2:
            line[i] = (line[i] + up) & 255
        elif kind == 3:
            line[i] = (line[i] + (left + up) // 2) & 255
        elif kind == 4:
            by_left, by_up = abs(up - corner), abs(left - corner)
            by_corner = abs(left + up - 2 * corner)
            other = left if by_left <= by_up else up
            line[i] = (line[i] + (other if min(by_left, by_up) <= by_corner else corner)) & 255
    return line


def spread(colours):
    """How far the colours reach in red, green or blue, in which, and where the middle is."""
    ends = [(min(values), max(values)) for values in zip(*colours)]
    low, high, part = max(((low, high, i) for i, (low, high) in enumerate(ends)),
                          key=lambda end: end[1] - end[0])
    return high - low, part, (low + high) / 2


def palette(lines):
    """To each colour its number, and the colours: the most frequent, and one a box of others.

    The box that reaches farthest is parted until there are enough, so that rare colours stay."""
    counts = collections.Counter(colour for line in lines for colour in line)
    own = [colour for colour, _ in counts.most_common(OWN)]
    boxes = [(*spread([colour]), [colour]) for colour in own]
    others = [colour for colour in counts if colour not in own]
    if others:
        boxes.append((*spread(others), others))
    while len(boxes) < MOST and max(boxes)[0] > 0:
        widest = max(boxes)
        _, part, middle, colours = widest
        boxes.remove(widest)
        for half in ([colour for colour in colours if colour[part] <= middle],
                     [colour for colour in colours if colour[part] > middle]):
            boxes.append((*spread(half), half))
    numbers = {colour: i for i, (*_, colours) in enumerate(boxes) for colour in colours}
    return numbers, [max(colours, key=counts.get) for *_, colours in boxes]


def smaller(png):
    width, lines = pixels(png)
    numbers, kept = palette(lines)
    data = b"".join(b"\0" + bytes(numbers[colour] for colour in line) for line in lines)
    head = struct.pack(">IIBBBBB", width, len(lines), 8, 3, 0, 0, 0)
    colours = b"".join(bytes(colour) for colour in kept)
    made = SIGNATURE
    for name, content in ((b"IHDR", head), (b"PLTE", colours),
                          (b"IDAT", zlib.compress(data, 9)), (b"IEND", b"")):
        made += struct.pack(">I", len(content)) + name + content
        made += struct.pack(">I", zlib.crc32(name + content))
    return made
