#!/usr/bin/env python3
"""Runs random jobs through the program and through reference.py, and reports the first difference.

Usage: compare.py N [SEED], after ./cribkite has been built.
"""
import os
import random
import subprocess
import sys
import tempfile

HERE = os.path.dirname(os.path.abspath(__file__))
PROGRAM = os.path.join(HERE, "..", "crates", "cribkite", "out", "cribkite")
FLOATS = ["0", "-0", "1", "0.5", "1e-9", "0.1", "3.4028235e38", "-3.4e38", "1e39", "1e-45", "x00000001", "x80000000",
          "x7f800000", "x7fc00001", "nan", "inf", "-inf", "0.3333333333333333333333", "16777217", "1.00000005960464477539"]


def real(r):
    return r.choice(FLOATS[:12] if r.random() < 0.97 else FLOATS) if r.random() < 0.5 else repr(r.uniform(-100, 100))


def unit(r):
    return r.choice(["0", "1", "-0", "0.5", "0.25", "x3f7fffff", repr(r.random())]) if r.random() < 0.98 else real(r)


def words(r, most):
    return ",".join(f"{r.getrandbits(32):x}" for _ in range(r.randrange(most)))


def transform(r):
    return ":".join(real(r) for _ in range(6))


def transforms(r, most):
    return ",".join(transform(r) for _ in range(r.randrange(most)))


def lay(r, name):
    fields = []
    if r.random() < 0.7:
        n = r.choice([0, 1, 2, 5, 1023, 1024, 1025]) if r.random() < 0.3 else r.randrange(8)
        fields.append("path_tags=" + bytes(r.randrange(256) for _ in range(n)).hex())
    for key in ["path_data", "draw_tags", "draw_data"]:
        if r.random() < 0.5:
            fields.append(f"{key}={words(r, 5)}")
    if r.random() < 0.5:
        fields.append(f"transforms={transforms(r, 3)}")
    if r.random() < 0.5:
        fields.append("styles=" + ",".join(f"{r.getrandbits(32):X}:{r.getrandbits(9):x}" for _ in range(r.randrange(3))))
    for key in ["paths", "segments", "clips", "open_clips"]:
        if r.random() < 0.3:
            fields.append(f"{key}={r.choice([0, 1, 2, 7, 999999, 1000000, 4294967295]) if r.random() < 0.1 else r.randrange(4)}")
    if r.random() < 0.3:
        fields.append(f"flags={r.getrandbits(32):x}")
    r.shuffle(fields)
    return f"lay {name} " + " ".join(fields)


def gradient(r, name):
    stops = ",".join(":".join(unit(r) for _ in range(5)) for _ in range(r.choice([0, 1, 2, 2, 3, 5, 16, 17])))
    return (f"gradient {name} p0={real(r)}:{real(r)} p1={real(r)}:{real(r)} stops={stops} alpha={unit(r)} "
            f"extend={r.choice([0, 1, 2, 2, 3])}")


def picture(r, name):
    side = [r.choice([1, 2, 64, 65535, 65536, 0]) if r.random() < 0.3 else r.randrange(1, 500) for _ in range(2)]
    return (f"picture {name} id={r.choice([0, 1, 2**64 - 1, r.getrandbits(20)])} size={side[0]}:{side[1]} format={r.randrange(2)} "
            f"alpha_type={r.randrange(2)} quality={r.randrange(3)} x_extend={r.choice([0, 1, 2, 2, 3])} y_extend={r.randrange(3)} "
            f"sampler_alpha={unit(r)} alpha={unit(r)}")


def run(r, name):
    glyphs = ",".join(f"{r.getrandbits(16)}:{real(r)}:{real(r)}" for _ in range(r.randrange(4)))
    more = "".join(f" {k}={transform(r)}" for k in ["glyph_transform", "brush_transform"] if r.random() < 0.5)
    return f"run {name} font={r.randrange(3)} style={r.getrandbits(32)} size={real(r)} transform={transform(r)}{more} glyphs={glyphs}"


def job(r):
    names = ["a", "b-1", "C_" + "x" * 30]
    lines = ["# a random job", ""]
    for name in names:
        room = "".join(f" {k}={r.choice([0, 1, 3, 10, 2000000])}" for k in
                       ["path_tags", "draw_data", "transforms", "patches", "color_stops", "glyphs"] if r.random() < 0.15)
        lines.append(f"scene {name}{room}")
    for _ in range(r.randrange(3, 25)):
        name = r.choice(names)
        lines.append(r.choice([
            lambda: lay(r, name), lambda: lay(r, name), lambda: gradient(r, name) if r.random() < 0.5 else lay(r, name),
            lambda: picture(r, name) if r.random() < 0.4 else lay(r, name), lambda: run(r, name) if r.random() < 0.4 else lay(r, name),
            lambda: f"append {name} {r.choice([n for n in names if n != name])}" + (f" transform={transform(r)}" if r.random() < 0.5 else ""),
            lambda: f"show {name}", lambda: f"plain {name} buffer={r.choice([0, 1023, 1024, 4096, 100000])}"])())
        if r.random() < 0.1:
            lines.append("  " + "view " + r.choice(["path_tags", "path_data", "draw_tags", "draw_data", "transforms", "styles"]) + " ")
    if r.random() < 0.1:
        lines.append(r.choice(["bogus", "scene a", "lay none", "show a b=1", "plain a", "lay a paths=1 paths=2", "lay a flags=123456789", "append a a"]))
    return (r.choice(["\n", "\r\n"]).join(lines) + r.choice(["", "\n"])).encode()


def ran(command, path):
    p = subprocess.run(command + [path], capture_output=True, timeout=600)
    return p.returncode, p.stdout, p.stderr.split(b":")[0] if p.returncode else b""


def main():
    n, seed = int(sys.argv[1]), int(sys.argv[2]) if len(sys.argv) > 2 else 1
    refused = 0
    for i in range(n):
        text = job(random.Random(seed * 1_000_003 + i))
        with tempfile.NamedTemporaryFile(suffix=".job", delete=False) as f:
            f.write(text)
        ours, theirs = ran([PROGRAM], f.name), ran([sys.executable, os.path.join(HERE, "reference.py")], f.name)
        if ours != theirs:
            print(f"job {i} of seed {seed} differs: {f.name}")
            for a, b in zip(ours[1].split(b"\n"), theirs[1].split(b"\n")):
                if a != b:
                    print("program:  ", a.decode(), "\nreference:", b.decode())
                    break
            else:
                print("program:  ", ours[0], ours[2], "\nreference:", theirs[0], theirs[2])
            return 1
        refused += theirs[1].count(b": refused")
        os.unlink(f.name)
    print(f"{n} jobs agree, with {refused} refusals among them")
    return 0


if __name__ == "__main__":
    sys.exit(main())
