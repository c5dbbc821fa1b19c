"""PNG files (RFC 2083) of a page, packed for the pages of docs."""
import struct
import zlib

SIGNATURE = b"\x89PNG\r\n\x1a\n"
BYTES = 3


def chunks_of(png):
    """The names and the data of the chunks."""
    at = len(SIGNATURE)
    while at < len(png):
        [size] = struct.unpack_from(">I", png, at)
        yield png[at + 4:at + 8], png[at + 8:at + 8 + size]
        at += 12 + size


def chunk(name, data):
    return struct.pack(">I", len(data)) + name + data + struct.pack(">I", zlib.crc32(name + data))


def paeth(left, up, corner):
    """RFC 2083, 6.6: whichever is nearest to left + up - corner."""
    guess = left + up - corner
    return min((left, up, corner), key=lambda it: abs(guess - it))


def unfiltered(kind, line, above):
    """A line of pixels, by its filter (RFC 2083, 6) and the line above."""
    for at, byte in enumerate(line):
        left, corner = (line[at - BYTES], above[at - BYTES]) if at >= BYTES else (0, 0)
        up = above[at]
        guess = (0, left, up, (left + up) // 2, paeth(left, up, corner) if kind == 4 else 0)[kind]
        line[at] = (byte + guess) & 255
    return line


def packed(png):
    """The same picture of 8-bit RGB in fewer bytes: without filters, which suit photographs."""
    chunks = [*chunks_of(png)]
    width, height, *form = struct.unpack(">IIBBBBB", chunks[0][1])
    if form != [8, 2, 0, 0, 0]:
        return png
    raw = zlib.decompress(b"".join(data for name, data in chunks if name == b"IDAT"))
    stride, lines, above = width * BYTES, [], bytearray(width * BYTES)
    for at in range(0, height * (stride + 1), stride + 1):
        above = unfiltered(raw[at], bytearray(raw[at + 1:at + 1 + stride]), above)
        lines.append(b"\0" + above)
    data = zlib.compress(b"".join(lines), 9)
    found = SIGNATURE + b"".join(
        chunk(*it) for it in (chunks[0], (b"IDAT", data), (b"IEND", b"")))
    return min(found, png, key=len)
