#!/usr/bin/env python3
"""Compares the proved program `day` with the plain one on many inputs, and times both on a long day.

From the repository's root, once the program is built (cd crates/day && rt run < stdin):
mkdir -p target && rustc -O -o target/plain_day bench/plain_day.rs && bench/compare.py
"""
import random
import subprocess
import sys
import time

PROVED, PLAIN = "crates/day/out/day", "target/plain_day"


def sheet(rng, n, shape):
    inner = [0] + [{"line": s - 1, "star": 0}.get(shape, rng.randrange(s)) for s in range(1, n)]
    wagons = rng.sample(range(n), rng.randrange(n + 1))
    berths = rng.sample(range(n), len(wagons) if rng.random() < 0.8 else rng.randrange(n + 1))
    marks = [(s in wagons) + 2 * (s in berths) for s in range(n)]
    head = n.to_bytes(2, "big") + len(wagons).to_bytes(2, "big")
    return head + b"".join(p.to_bytes(2, "big") for p in inner) + bytes(marks)


def line(rng, n):
    s, t = rng.randrange(n + 2), rng.randrange(n + 2)
    odd = [b"\n", b"s \n", b"p 00\n", b"p 01\n", b"p  1\n", b"p 1\r\n", b"m 1\n", b"q 1\n", b"n 1\n", b"p 65536\n", b"t 65535\n", b"\xff\n", b"s"]
    kinds = [b"p %d\n" % s, b"t %d\n" % s, b"b %d\n" % s, b"u %d\n" % s, b"m %d %d\n" % (s, t), b"n\n"] + [b"s\n"] * 8
    return rng.choice(odd) if rng.random() < 0.05 else rng.choice(kinds)


def damaged(rng, data):
    data = bytearray(data)
    for _ in range(rng.randrange(1, 4)):
        if data:
            data[rng.randrange(len(data))] = rng.randrange(256)
    return bytes(data[: rng.randrange(len(data) + 1)]) if rng.random() < 0.3 else bytes(data)


def run(program, data):
    return subprocess.run([program], input=data, capture_output=True, check=True).stdout


def main():
    rng = random.Random(int(sys.argv[1]) if len(sys.argv) > 1 else 1)
    count = int(sys.argv[2]) if len(sys.argv) > 2 else 2000
    for _ in range(count):
        n = rng.choice([1, 2, 3, 5, 8, 20, 100, 512])
        data = sheet(rng, n, rng.choice(["line", "star", "any"])) + b"".join(line(rng, n) for _ in range(rng.randrange(60)))
        if rng.random() < 0.3:
            data = damaged(rng, data)
        if run(PROVED, data) != run(PLAIN, data):
            sys.exit(f"different answers: {data.hex()}")
    print(f"{count} days: the same answers")
    n, half, steps = 512, 256, 31_998
    long = n.to_bytes(2, "big") + half.to_bytes(2, "big") + b"\0\0" + b"".join((s - 1).to_bytes(2, "big") for s in range(1, n))
    long += bytes([1] * half + [2] * half) + b"s\n" * steps
    for program in (PROVED, PLAIN):
        best = min(timed(program, long) for _ in range(5))
        print(f"{program}: {best:.3f} s for {steps} steps on {n} sections")


def timed(program, data):
    start = time.perf_counter()
    run(program, data)
    return time.perf_counter() - start


main()
