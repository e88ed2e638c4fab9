"""Random and changed streams of frames, each in two pieces: fuzz.py PROGRAM N SEED compares what a program says of N of them with the model,
20,000 a run of the program. Most of those that are changed get a right sum again."""
import functools
import random
import subprocess
import sys
import model
from rows import whole

TABLE = []
for byte in range(256):
    register = byte
    for _ in range(8):
        register = register >> 1 ^ (0x82F63B78 if register & 1 else 0)
    TABLE.append(register)


@functools.lru_cache(maxsize=4096)
def crc32c(data):
    register = 0xFFFFFFFF
    for byte in data:
        register = register >> 8 ^ TABLE[(register ^ byte) & 255]
    return register ^ 0xFFFFFFFF


model.crc32c = crc32c
FRAMES = [frame for frame, _ in whole()]
HARD = bytes([0, 1, 2, 3, 9, 10, 11, 12, 17, 18, 32, 63, 64, 127, 128, 250, 251, 255])


def changed(draw, text):
    """A text with one to three bytes changed, put in, taken out, or cut off."""
    text = bytearray(text)
    for _ in range(draw.choice((1, 1, 1, 2, 3))):
        at, way = draw.randrange(len(text) + 1), draw.randrange(6)
        value = draw.choice(HARD) if draw.random() < 0.5 else draw.randrange(256)
        if way < 3 and at < len(text):
            text[at] = value
        elif way == 3 and at < len(text):
            text[at] ^= 1 << draw.randrange(8)
        elif way == 4:
            text.insert(at, value)
        elif at < len(text):
            del text[at:draw.choice((at + 1, len(text)))]
    return bytes(text)


def frame(draw):
    way = draw.random()
    if way < 0.3:
        return draw.choice(FRAMES)
    if way < 0.4:
        text = bytes([draw.randrange(20)]) + draw.randbytes(draw.randrange(40))
    else:
        text = changed(draw, draw.choice(FRAMES)[4:-4])
    count = len(text) if draw.random() < 0.9 else draw.choice((0, 1, len(text) + 1, 134_217_728, 134_217_729, draw.randrange(2**32)))
    body = model.u32(count) + text
    total = crc32c(body) if draw.random() < 0.95 else draw.randrange(2**32)
    whole_frame = body + model.u32(total)
    return whole_frame if draw.random() < 0.85 else changed(draw, whole_frame)


def streams(count, seed):
    draw = random.Random(seed)
    for _ in range(count):
        stream = b"".join(frame(draw) for _ in range(draw.choice((1, 1, 2, 3))))
        if draw.random() < 0.2:
            stream = stream[:draw.randrange(len(stream) + 1)]
        yield stream, draw.randrange(len(stream) + 1)


def verdict(stream):
    frames, left, bad = model.read(stream, 6)
    at = 0
    for _ in frames:
        at += 8 + int.from_bytes(stream[at:at + 4], "big")
    return f"{len(frames)} {at} {'bad' if bad else left}"


def batches(drawn, size=20_000):
    batch = []
    for stream, cut in drawn:
        batch.append((f"{stream[:cut].hex()} {stream[cut:].hex()}\n", verdict(stream), len(stream)))
        if len(batch) == size:
            yield batch
            batch = []
    yield batch


def main(program, count, seed):
    seen = {"whole": 0, "cut": 0, "bad": 0}
    streams_seen = frames_seen = bytes_seen = 0
    for batch in batches(streams(count, seed)):
        text = "".join(row for row, _, _ in batch)
        told = subprocess.run([program], input=text, capture_output=True, text=True).stdout.splitlines()
        for number, (row, wanted, length) in enumerate(batch):
            said = told[number] if number < len(told) else "nothing"
            if said != wanted:
                sys.exit(f"seed {seed}: {row.strip()}: {said!r}, and the model says {wanted!r}")
            frames, _, end = wanted.split()
            seen["bad" if end == "bad" else "whole" if end == "0" else "cut"] += 1
            streams_seen, frames_seen, bytes_seen = streams_seen + 1, frames_seen + int(frames), bytes_seen + length
    print(f"seed {seed}: {streams_seen} streams, {bytes_seen} bytes, {frames_seen} frames, the same verdicts: {seen}", flush=True)


if __name__ == "__main__":
    main(sys.argv[1], int(sys.argv[2]), int(sys.argv[3]))
