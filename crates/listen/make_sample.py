#!/usr/bin/env python3
"""Makes the stored test of `listen`: a capture (stdin) and the lines that it has to give (stdout), both beside this file.

The lines come from a scan that is written here from document 01 alone, the slow way: at every byte, is there a frame?
The parts below also say how many frames they hold, and the script stops where the scan found another number."""
import os

PREAMBLE = 0x73


def header_check(second, third, fourth):
    """TF006: the 24 bits TF002 to TF005 and four zeros, of each byte the least significant bit first; polynomial 0x9; reversed."""
    register = 0
    for byte in (second, third, fourth & 0xF0):
        for bit in range(8):
            register ^= (byte >> bit & 1) << 3
            register = (register << 1 ^ 0x9) & 0xF if register & 8 else register << 1
    return int(f"{register:04b}"[::-1], 2)


def message_check(kind, data):
    """TF018: most significant bit first; the last kind starts at all ones and is inverted."""
    width = 8 * (kind + 1)
    polynomial = (0x07, 0x1021, 0x864CFB, 0x04C11DB7)[kind]
    mask = (1 << width) - 1
    register = mask if kind == 3 else 0
    for byte in data:
        register ^= byte << (width - 8)
        for _ in range(8):
            register = (register << 1 ^ polynomial if register >> (width - 1) else register << 1) & mask
    return register ^ mask if kind == 3 else register


def number(bits):
    return int("".join(f"{value:0{width}b}" for value, width in bits), 2)


def frame(payload, kind=0, message_type=0, subtype=0, tag_kind=0, tag=1, sealing=None, length=None, authentication=b""):
    """A frame with its checks; `sealing` is TF012 to TF015."""
    length = len(payload) if length is None else length
    start = number([(PREAMBLE, 8), (message_type, 7), (length, 10), (sealing is not None, 1), (kind, 2), (0, 4)]).to_bytes(4, "big")
    start = start[:3] + bytes([start[3] | header_check(*start[1:])])
    fields = [(subtype, 4), (tag_kind, 1), (tag, 32 if tag_kind else 16), (5, 7), (11, 4)]
    if sealing is not None:
        fields += zip(sealing, (4, 6, 3, 3))
    description = number(fields).to_bytes(sum(width for _, width in fields) // 8, "big")
    body = start + description + payload + authentication
    return body + message_check(kind, body[1:]).to_bytes(kind + 1, "big")


def check(data, at):
    """(length, type, subtype) of a frame that lies at `at`, or None: document 01, "The frame", in its order."""
    left = len(data) - at
    if left < 4 or data[at] != PREAMBLE or header_check(*data[at + 1:at + 4]) != data[at + 3] & 15:
        return None
    start = int.from_bytes(data[at:at + 4], "big")
    payload, sealed, kind = start >> 7 & 1023, start >> 6 & 1, start >> 4 & 3
    if payload == 0 or left < 5:
        return None
    size = 4 + 2 * (data[at + 4] >> 3 & 1) + 2 * sealed
    if left < 4 + size:
        return None
    authentication = 0
    if sealed and data[at + 3 + size] >> 3 & 7 > 1:
        code = data[at + 3 + size] & 7
        if code > 4:
            return None
        authentication = (8, 12, 16, 32, 64)[code]
    end = 4 + size + payload + authentication
    if left < end + kind + 1:
        return None
    if message_check(kind, data[at + 1:at + end]) != int.from_bytes(data[at + end:at + end + kind + 1], "big"):
        return None
    return end + kind + 1, start >> 17 & 127, data[at + 4] >> 4


def scan(data):
    at, noise = 0, 0
    while at < len(data):
        found = check(data, at)
        if found:
            if noise:
                yield f"noise {noise}"
            noise = 0
            yield "frame %d %d %d" % found
            at += found[0]
        else:
            at += 1
            noise += 1
            if noise == 65535:
                yield "noise 65535"
                noise = 0
    if noise:
        yield f"noise {noise}"
    yield "end"


def some(count, seed):
    """Bytes that look like any."""
    out = bytearray()
    for _ in range(count):
        seed = (seed * 1103515245 + 12345) & 0x7FFFFFFF
        out.append(seed >> 16 & 255)
    return bytes(out)


def damaged(data):
    return data[:-1] + bytes([data[-1] ^ 1])


def parts():
    """(what it is, its bytes, how many frames it holds)"""
    yield "noise at the start", bytes(range(20)), 0
    for kind in range(4):
        yield f"plain, check {kind}", frame(some(30 + kind, kind), kind, message_type=kind, subtype=kind + 1), 1
        yield f"plain, long tag, check {kind}", frame(some(200, kind), kind, message_type=127, subtype=15, tag_kind=1, tag=2**32 - 1), 1
    yield "shortest", frame(b"\x00"), 1
    yield "two frames with noise between", frame(b"one") + b"\x73\x73\x00" + frame(b"two", 3), 2
    for code, size in enumerate((8, 12, 16, 32, 64)):
        yield f"sealed, TF015 {code}", frame(some(90, code), 2, 1, code, 1, 9, (1, 63, 2 + code % 6, code), authentication=some(size, code)), 1
    yield "sealed, TF014 1: TF015 does not count", frame(some(40, 7), 1, 2, 0, 0, 9, (1, 2, 1, 7)), 1
    yield "sealed, TF015 5 counts: no frame", frame(some(40, 8), 1, 2, 0, 0, 9, (1, 2, 2, 5)), 0
    yield "longest", frame(some(1023, 9), 3, 4, 5, 1, 77, (15, 63, 7, 4), authentication=some(64, 9)), 1
    yield "no payload", frame(b"", 0), 0
    yield "a header with a wrong check", bytes([0x73, 0, 0x12, 0x15]) + some(20, 1), 0
    inner = frame(b"inner", 3, 3, 0)
    yield "a frame in a frame", frame(b"ab" + inner + b"cd", 2, 2, 0), 1
    yield "a frame in a damaged frame", damaged(frame(b"ab" + inner + b"cd", 2, 2, 0)), 1
    yield "a frame cut by others", frame(some(600, 3), 3)[:300] + inner + frame(some(500, 4), 1, 1, 1), 2
    yield "preambles alone", b"\x73" * 3000, 0
    yield "much noise", some(70000, 11).replace(b"\x73", b"\x74"), 0
    yield "much noise with preambles", bytes(0x73 if b > 200 else b for b in some(70000, 12)), 0
    yield "a frame after it", frame(some(1000, 13), 2, 3, 0, 1, 3), 1
    yield "a longest frame that does not end, with frames in it", frame(some(1023, 9), 3, 4, 5, 1, 77, (15, 63, 7, 4), authentication=some(64, 9))[:400] + inner + inner + b"\x73", 2


def main():
    here = os.path.dirname(os.path.abspath(__file__))
    data, frames = b"", 0
    for name, part, count in parts():
        data += part
        frames += count
        told = sum(line.startswith("frame") for line in scan(data))
        if told != frames:
            raise SystemExit(f"{name}: {told} frames, {frames} were put in")
    with open(os.path.join(here, "stdin"), "wb") as out:
        out.write(data)
    with open(os.path.join(here, "stdout"), "w", encoding="ascii") as out:
        out.write("".join(line + "\n" for line in scan(data)))


if __name__ == "__main__":
    main()
