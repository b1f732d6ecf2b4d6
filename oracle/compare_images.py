#!/usr/bin/env python3
"""Compares verdicts on run images: document 01's 'Run image' and numbers 10 and 11, as a model in Python,
against our code.

  ./build_ours                     first; it takes the proofs along
  ./compare_images.py SEED COUNT   COUNT random images, most of them damaged

The Rust has no run images, so it can't be asked. The model is written from document 01's sentences; it
reads an image from its front, where our code works on offsets. The first difference is printed, and
the exit status is then 1. The same seed and count make the same images.
"""
import collections
import ctypes
import pathlib
import random
import sys

HERE = pathlib.Path(__file__).resolve().parent
library = ctypes.CDLL(str(HERE / 'target/libprobe.so'))
library.probe_verdict.argtypes = [ctypes.c_char_p, ctypes.c_uint64]
library.probe_verdict.restype = ctypes.c_uint64


class Cut(Exception):
    pass


def model(image):
    """0 for a good image, 10 or 11."""
    rest = image

    def take(n):
        nonlocal rest
        if len(rest) < n:
            raise Cut
        taken, rest = rest[:n], rest[n:]
        return taken

    def number(n):
        return int.from_bytes(take(n), 'big')

    try:
        if take(3) != b'RUN':
            return 10
        if number(2) != 1:
            return 11
        versions = []
        for _ in range(number(4)):
            key = take(number(2))
            time = number(8)
            take(number(2))
            versions.append((key, -time))
    except Cut:
        return 10
    if rest or any(not key for key, _ in versions):
        return 10
    return 0 if all(a < b for a, b in zip(versions, versions[1:])) else 10


def some_image(rng):
    """A good image of a few versions."""
    versions = {}
    for _ in range(rng.choice((0, 1, 2, 3, 5, 8))):
        key = bytes(rng.choice((0, 97, 98, 255)) for _ in range(rng.randint(1, 4)))
        if rng.random() < 0.002:
            key *= 16383
        time = rng.choice((0, 1, 2, 3, 2**63, 2**64 - 1))
        value = bytes(rng.choice((0, 120)) for _ in range(rng.choice((0, 1, 2, 3))))
        if rng.random() < 0.002:
            value = bytes(65535)
        versions[key, -time] = value
    image = b'RUN' + (1).to_bytes(2, 'big') + len(versions).to_bytes(4, 'big')
    for key, time in sorted(versions):
        value = versions[key, time]
        image += len(key).to_bytes(2, 'big') + key + (-time).to_bytes(8, 'big')
        image += len(value).to_bytes(2, 'big') + value
    return image


def damaged(rng, image):
    """The image with one or two things wrong, some of which may leave it good."""
    image = bytearray(image)
    for _ in range(rng.choice((1, 1, 1, 2))):
        way = rng.randrange(6)
        at = rng.randrange(min(len(image), 200)) if image else 0
        if way == 0 and image:
            image[at] = rng.randrange(256)
        elif way == 1 and image:
            image[at] = (image[at] + rng.choice((1, 255))) % 256
        elif way == 2:
            del image[at:]
        elif way == 3:
            image += bytes(rng.randrange(256) for _ in range(rng.randint(1, 14)))
        elif way == 4 and image:
            del image[at]
        else:
            image.insert(at, rng.choice((0, 1, 97, 255)))
    return bytes(image)


def main():
    seed, count = int(sys.argv[1]), int(sys.argv[2])
    rng = random.Random(seed)
    seen = collections.Counter()
    for _ in range(count):
        image = some_image(rng)
        if rng.random() < 0.8:
            image = damaged(rng, image)
        right, said = model(image), library.probe_verdict(image, len(image))
        if right != said:
            print(f'image {image.hex()}: document 01 {right}, ours {said}')
            return 1
        seen[right] += 1
    print(f'seed {seed}: {count} images, no difference: {seen[0]} good, {seen[10]} told 10, {seen[11]} told 11')
    return 0


if __name__ == '__main__':
    sys.exit(main())
