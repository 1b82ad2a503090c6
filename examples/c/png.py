"""Makes a PNG of a grey PGM, for pages that show no PGM; or sees that a PNG made so has the PGM's samples.

    python3 png.py FILE.pgm FILE.png
    python3 png.py --check FILE.pgm FILE.png
"""
import struct
import sys
import zlib

SIGNATURE = b"\x89PNG\r\n\x1a\n"


def read_pgm(path):
    with open(path, "rb") as file:
        magic, sides, greatest, samples = file.read().split(b"\n", 3)
    width, height = map(int, sides.split())
    if magic != b"P5" or greatest != b"255" or len(samples) != width * height:
        sys.exit(f"{path} is not a PGM as the example writes it")
    return width, height, samples


def header_and_rows(width, height, samples):
    """What the chunks IHDR and IDAT hold: 8 bits of grey, and before each row a 0, which says that it is unfiltered."""
    header = struct.pack(">IIBBBBB", width, height, 8, 0, 0, 0, 0)
    rows = b"".join(b"\0" + samples[y * width:(y + 1) * width] for y in range(height))
    return header, rows


def chunk(kind, data):
    return struct.pack(">I", len(data)) + kind + data + struct.pack(">I", zlib.crc32(kind + data))


def write_png(path, header, rows):
    with open(path, "wb") as file:
        file.write(SIGNATURE + chunk(b"IHDR", header) + chunk(b"IDAT", zlib.compress(rows, 9)) + chunk(b"IEND", b""))


def read_png(path):
    """The same two, of a PNG that write_png wrote."""
    with open(path, "rb") as file:
        data = file.read()
    parts = {}
    place = len(SIGNATURE)
    while place < len(data):
        length = struct.unpack(">I", data[place:place + 4])[0]
        parts[data[place + 4:place + 8]] = data[place + 8:place + 8 + length]
        place += 12 + length
    return parts[b"IHDR"], zlib.decompress(parts[b"IDAT"])


def main():
    check = sys.argv[1:2] == ["--check"]
    paths = sys.argv[2:] if check else sys.argv[1:]
    if len(paths) != 2:
        sys.exit(__doc__)
    wanted = header_and_rows(*read_pgm(paths[0]))
    if not check:
        write_png(paths[1], *wanted)
    elif read_png(paths[1]) != wanted:
        sys.exit(f"{paths[1]} does not show {paths[0]}: make picture")


main()
