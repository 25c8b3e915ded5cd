"""Decodes the PNGs that ./demo writes (with zlib), for tools/pictures and tools/cut."""
import struct
import zlib

SIGNATURE = b"\x89PNG\r\n\x1a\n"
# 8 bits, colour, deflate, the one filter method, no interlace (PNG, section 11.2.1)
KIND = (8, 2, 0, 0, 0)
CHANNELS = 3


class Damaged(Exception):
    """What is wrong with a file."""


def need(holds, what):
    if not holds:
        raise Damaged(what)


def chunks(data):
    """Name and data of each chunk, with its checksum verified."""
    need(data.startswith(SIGNATURE), "not a PNG file")
    at = len(SIGNATURE)
    while at < len(data):
        length, name = struct.unpack(">I4s", data[at : at + 8])
        body = data[at + 8 : at + 8 + length]
        (crc,) = struct.unpack(">I", data[at + 8 + length : at + 12 + length])
        need(crc == zlib.crc32(name + body), f"wrong checksum of {name}")
        yield name, body
        at += 12 + length


def decoded(path):
    """Width, height and rows of a picture whose rows are stored unfiltered."""
    parts = list(chunks(path.read_bytes()))
    need(parts[0][0] == b"IHDR" and parts[-1] == (b"IEND", b""), f"{path.name}: no header, or no end")
    width, height, *kind = struct.unpack(">IIBBBBB", parts[0][1])
    need(tuple(kind) == KIND, f"{path.name}: unexpected format {kind}")
    image = zlib.decompress(b"".join(body for name, body in parts if name == b"IDAT"))
    stride = 1 + CHANNELS * width
    need(len(image) == stride * height, f"{path.name}: {len(image)} bytes for {width} x {height}")
    rows = [image[at : at + stride] for at in range(0, len(image), stride)]
    need(all(row[0] == 0 for row in rows), f"{path.name}: a filtered row")
    return width, height, [row[1:] for row in rows]
