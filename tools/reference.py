#!/usr/bin/env python3
"""A second implementation of the job language, written from docs/ alone, to compare the program with.

It is slow and plain on purpose. It has the commands scene, lay, gradient, picture, run, append, show,
plain and view. Usage: reference.py JOB, or the job on standard input.
"""
import re
import struct
import sys
import zlib
from fractions import Fraction

MILLION = 1_000_000
LISTS = ["path_tags", "path_data", "draw_tags", "draw_data", "transforms", "styles",
         "patches", "color_stops", "glyphs", "glyph_runs"]
STREAMS = LISTS[:6]


class Fault(Exception):
    pass


class Refused(Exception):
    pass


# ---- f32, as Python floats that are always rounded to binary32

def f32(x):
    """The nearest binary32 of a float. For + - * / of two binary32 one more rounding changes nothing."""
    if x != x or x in (float("inf"), float("-inf")):
        return x
    try:
        return struct.unpack("<f", struct.pack("<f", x))[0]
    except OverflowError:
        return float("inf") if x > 0 else float("-inf")


def bits(x):
    return 0x7FC00000 if x != x else struct.unpack("<I", struct.pack("<f", x))[0]


def from_bits(n):
    return struct.unpack("<f", struct.pack("<I", n))[0]


def mul(a, b):
    return f32(a * b)


def add(a, b):
    return f32(a + b)


def finite(x):
    return x == x and x not in (float("inf"), float("-inf"))


def round_fraction(q):
    """The binary32 nearest to an exact fraction, ties to even."""
    if q == 0:
        return 0.0
    sign, q = (-1.0, -q) if q < 0 else (1.0, q)
    e = -149
    while q >= Fraction(2) ** (e + 24):
        e += 1
        if e > 104:
            return sign * float("inf")
    n = q / Fraction(2) ** e
    m = n.numerator // n.denominator
    rest = n - m
    if rest > Fraction(1, 2) or (rest == Fraction(1, 2) and m % 2):
        m += 1
    if m * 2 ** max(e, 0) >= 2 ** 128 and e >= 0:
        return sign * float("inf")
    return sign * float(Fraction(m) * Fraction(2) ** e)


def half_away(x):
    q = Fraction(x)
    n = (2 * abs(q) + 1) // 2
    return int(n if q >= 0 else -n)


# ---- reading values

def number(text, bits_wide):
    if not re.fullmatch(r"[0-9]+", text) or int(text) >= 2 ** bits_wide:
        raise Fault("number")
    return int(text)


def word(text):
    if not re.fullmatch(r"[0-9A-Fa-f]{1,8}", text):
        raise Fault("word")
    return int(text, 16)


def real(text):
    if re.fullmatch(r"x[0-9A-Fa-f]{8}", text):
        return from_bits(int(text[1:], 16))
    m = re.fullmatch(r"([+-]?)(inf|infinity|nan)", text, re.I)
    if m:
        x = float("nan") if m[2].lower() == "nan" else float("inf")
        return -x if m[1] == "-" else x
    m = re.fullmatch(r"([+-]?)([0-9]*)(?:\.([0-9]*))?(?:[eE]([+-]?[0-9]+))?", text)
    if not m or not (m[2] or m[3]):
        raise Fault("float")
    digits = int((m[2] or "") + (m[3] or ""))
    ten = int(m[4] or 0) - len(m[3] or "")
    x = 0.0 if digits == 0 else round_fraction(digits * Fraction(10) ** max(-400, min(400, ten)))
    return -x if m[1] == "-" else x


def entries(text, read):
    return [read(part) for part in text.split(",")] if text else []


def parts(text, n):
    got = text.split(":")
    if len(got) != n:
        raise Fault("parts")
    return got


def transform(text):
    return tuple(real(p) for p in parts(text, 6))


def style(text):
    return tuple(word(p) for p in parts(text, 2))


def hexes(text):
    if len(text) % 2 or not re.fullmatch(r"[0-9A-Fa-f]*", text):
        raise Fault("hex")
    return list(bytes.fromhex(text))


# ---- scenes

def product(s, o):
    return (add(mul(s[0], o[0]), mul(s[2], o[1])), add(mul(s[1], o[0]), mul(s[3], o[1])),
            add(mul(s[0], o[2]), mul(s[2], o[3])), add(mul(s[1], o[2]), mul(s[3], o[3])),
            add(add(mul(s[0], o[4]), mul(s[2], o[5])), s[4]),
            add(add(mul(s[1], o[4]), mul(s[3], o[5])), s[5]))


def channel(x):
    return max(0, min(255, half_away(mul(x, 255.0))))


def color_word(r, g, b, a):
    return channel(mul(r, a)) + (channel(mul(g, a)) << 8) + (channel(mul(b, a)) << 16) + (channel(a) << 24)


class Scene:
    def __init__(self, room):
        self.room = {k: min(v, MILLION) for k, v in room.items()}
        self.lists = {k: [] for k in LISTS}
        self.counts = [0, 0, 0, 0]
        self.flags = 0

    def length(self, key):
        return len(self.lists[key])

    def ends(self):
        return [self.length(k) for k in STREAMS]

    def ask(self, finite_ok, range_ok, grows, counts=None):
        if not finite_ok:
            raise Refused("1")
        if not range_ok:
            raise Refused("2")
        if any(self.length(k) + n > self.room[k] for k, n in grows.items() if n):
            raise Refused("3")
        if counts and any(a + b > MILLION for a, b in zip(self.counts, counts)):
            raise Refused("4")

    def put(self, more):
        for key, xs in more.items():
            self.lists[key] += xs

    def lay(self, streams, counts, flags):
        self.ask(all(finite(x) for t in streams["transforms"] for x in t), True,
                 {k: len(v) for k, v in streams.items()}, counts)
        self.put(streams)
        self.counts = [a + b for a, b in zip(self.counts, counts)]
        self.flags = flags

    def gradient(self, p0, p1, stops, alpha, extend):
        values = [x for s in stops for x in s]
        many = len(stops) >= 2
        grows = {"draw_tags": 1, "draw_data": 5, "patches": 1, "color_stops": len(stops)} if many else \
            {"draw_tags": 1, "draw_data": 1}
        self.ask(all(map(finite, p0 + p1 + values + [alpha])),
                 len(stops) <= 16 and all(0 <= x <= 1 for x in values + [alpha]) and extend <= 2, grows)
        if alpha != 1:
            stops = [(o, r, g, b, mul(a, alpha)) for o, r, g, b, a in stops]
        if many:
            start = self.length("color_stops")
            self.put({"patches": [("g", self.length("draw_data"), start, start + len(stops), extend)],
                      "color_stops": [tuple(map(bits, s)) for s in stops], "draw_tags": [0x114],
                      "draw_data": [0] + [bits(x) for x in p0 + p1]})
        else:
            self.put({"draw_tags": [0x44], "draw_data": [color_word(*stops[0][1:]) if stops else 0]})

    def picture(self, ident, size, kinds, sampler_alpha, alpha):
        fmt, alpha_type, quality, x_extend, y_extend = kinds
        self.ask(finite(sampler_alpha) and finite(alpha),
                 all(1 <= s <= 65535 for s in size) and fmt <= 1 and alpha_type <= 1
                 and max(quality, x_extend, y_extend) <= 2 and 0 <= sampler_alpha <= 1 and 0 <= alpha <= 1,
                 {"draw_tags": 1, "draw_data": 3, "patches": 1})
        third = (fmt << 15) + (alpha_type << 14) + (quality << 12) + (x_extend << 10) + (y_extend << 8) \
            + channel(mul(sampler_alpha, alpha))
        self.put({"patches": [("p", self.length("draw_data"), ident, *size)], "draw_tags": [0x28C],
                  "draw_data": [0, size[0] * 65536 + size[1], third]})

    def run(self, font, style_number, size, t, glyph_t, brush_t, glyphs):
        given = [size] + list(t) + list(glyph_t or ()) + list(brush_t or ()) + [v for g in glyphs for v in g[1:]]
        self.ask(all(map(finite, given)), True, {"glyphs": len(glyphs), "glyph_runs": 1, "patches": 1})
        start = self.length("glyphs")
        self.put({"patches": [("r", self.length("glyph_runs"))],
                  "glyph_runs": [(font, style_number, size, start, start + len(glyphs), t, glyph_t, brush_t, self.ends())],
                  "glyphs": glyphs})

    def append(self, o, t):
        self.ask(t is None or all(map(finite, t)), True, {k: o.length(k) for k in LISTS}, o.counts)
        under = (lambda x: x) if t is None else (lambda x: product(t, x))
        words, stops, runs = self.length("draw_data"), self.length("color_stops"), self.length("glyph_runs")
        glyphs, ends = self.length("glyphs"), self.ends()
        moved = {"g": lambda p: ("g", p[1] + words, p[2] + stops, p[3] + stops, p[4]),
                 "r": lambda p: ("r", p[1] + runs), "p": lambda p: ("p", p[1] + words, *p[2:])}
        more = {k: list(o.lists[k]) for k in LISTS}
        more["transforms"] = [under(x) for x in more["transforms"]]
        more["patches"] = [moved[p[0]](p) for p in more["patches"]]
        more["glyph_runs"] = [(r[0], r[1], r[2], r[3] + glyphs, r[4] + glyphs, under(r[5]), r[6], r[7],
                               [a + b for a, b in zip(r[8], ends)]) for r in more["glyph_runs"]]
        self.put(more)
        self.counts = [a + b for a, b in zip(self.counts, o.counts)]
        self.flags = o.flags

    def stream_bytes(self, key):
        xs = self.lists[key]
        if key == "path_tags":
            return bytes(xs)
        if key == "transforms":
            return b"".join(struct.pack("<I", bits(x)) for t in xs for x in t)
        if key in ("styles", "color_stops"):
            return b"".join(struct.pack("<I", w) for t in xs for w in t)
        if key == "glyphs":
            return b"".join(struct.pack("<III", g[0], bits(g[1]), bits(g[2])) for g in xs)
        return b"".join(struct.pack("<I", w) for w in xs)

    def show(self):
        def counted(key):
            return f"{self.length(key)}:{crc(self.stream_bytes(key))}"

        def one(t):
            return "-" if t is None else crc(b"".join(struct.pack("<I", bits(x)) for x in t))
        patches = ",".join("/".join(map(str, p)) for p in self.lists["patches"])
        runs = ",".join("/".join(map(str, [r[0], r[1], f"{bits(r[2]):08x}", r[3], r[4], one(r[5]), one(r[6]), one(r[7]), *r[8]]))
                        for r in self.lists["glyph_runs"])
        c = self.counts
        return " ".join([f"{k}={counted(k)}" for k in STREAMS] +
                        [f"patches={patches}", f"color_stops={counted('color_stops')}", f"glyphs={counted('glyphs')}",
                         f"runs={runs}", f"paths={c[0]}", f"segments={c[1]}", f"clips={c[2]}", f"open_clips={c[3]}",
                         f"flags={self.flags:08x}"])

    def plain(self, room):
        if self.lists["patches"]:
            raise Refused("5")
        opened = self.counts[3]
        tags = self.stream_bytes("path_tags") + b"\x10" * opened
        streams = [tags + bytes(-len(tags) % 1024), self.stream_bytes("path_data"),
                   self.stream_bytes("draw_tags") + struct.pack("<I", 0x21) * opened, self.stream_bytes("draw_data"),
                   self.stream_bytes("transforms"), self.stream_bytes("styles")]
        needed = sum(map(len, streams))
        if needed > min(room, 2 ** 30):
            raise Refused(f"13 needed={needed}")
        paths = self.counts[0] + opened
        bases = [sum(map(len, streams[:i])) // 4 for i in range(6)]
        layout = [paths, paths, self.counts[2] + opened, sum(t // 64 % 16 for t in self.lists["draw_tags"])] + bases
        return b"".join(streams), layout


def crc(data):
    return f"{zlib.crc32(data):08x}"


# ---- jobs

SHAPES = {
    "scene": (1, {k: None for k in LISTS}),
    "lay": (1, {k: None for k in STREAMS + ["paths", "segments", "clips", "open_clips", "flags"]}),
    "gradient": (1, {k: True for k in ["p0", "p1", "stops", "alpha", "extend"]}),
    "picture": (1, {k: True for k in ["id", "size", "format", "alpha_type", "quality", "x_extend", "y_extend",
                                      "sampler_alpha", "alpha"]}),
    "run": (1, {"font": True, "style": True, "size": True, "transform": True, "glyph_transform": None,
                "brush_transform": None, "glyphs": True}),
    "append": (2, {"transform": None}), "show": (1, {}), "plain": (1, {"buffer": True}), "view": (1, {}),
}


class Job:
    def __init__(self):
        self.scenes = {}
        self.page = None

    def scene(self, name):
        if name not in self.scenes:
            raise Fault("no scene")
        return self.scenes[name]

    def command(self, verb, names, f):
        if verb == "scene":
            if names[0] in self.scenes:
                raise Fault("made twice")
            self.scenes[names[0]] = Scene({k: number(f.get(k, "4096"), 64) for k in LISTS})
            return ""
        if verb == "view":
            if names[0] not in STREAMS:
                raise Fault("no stream")
            if self.page is None:
                raise Fault("no page")
            data, layout = self.page
            i = STREAMS.index(names[0])
            end = len(data) if i == 5 else 4 * layout[5 + i]
            part = data[4 * layout[4 + i]:end]
            return f" length={len(part)} bytes={crc(part)}"
        s = self.scene(names[0])
        if verb == "lay":
            streams = {"path_tags": hexes(f.get("path_tags", "")), "transforms": entries(f.get("transforms", ""), transform),
                       "styles": entries(f.get("styles", ""), style)}
            for k in ["path_data", "draw_tags", "draw_data"]:
                streams[k] = entries(f.get(k, ""), word)
            counts = [number(f.get(k, "0"), 32) for k in ["paths", "segments", "clips", "open_clips"]]
            s.lay(streams, counts, word(f.get("flags", "0")))
        elif verb == "gradient":
            s.gradient([real(p) for p in parts(f["p0"], 2)], [real(p) for p in parts(f["p1"], 2)],
                       entries(f["stops"], lambda e: tuple(real(p) for p in parts(e, 5))), real(f["alpha"]),
                       number(f["extend"], 32))
        elif verb == "picture":
            s.picture(number(f["id"], 64), [number(p, 32) for p in parts(f["size"], 2)],
                      [number(f[k], 32) for k in ["format", "alpha_type", "quality", "x_extend", "y_extend"]],
                      real(f["sampler_alpha"]), real(f["alpha"]))
        elif verb == "run":
            s.run(number(f["font"], 32), number(f["style"], 32), real(f["size"]), transform(f["transform"]),
                  transform(f["glyph_transform"]) if "glyph_transform" in f else None,
                  transform(f["brush_transform"]) if "brush_transform" in f else None,
                  entries(f["glyphs"], lambda e: (number(parts(e, 3)[0], 32), real(parts(e, 3)[1]), real(parts(e, 3)[2]))))
        elif verb == "append":
            o = self.scene(names[1])
            if names[0] == names[1]:
                raise Fault("itself")
            s.append(o, transform(f["transform"]) if "transform" in f else None)
        elif verb == "show":
            return " " + s.show()
        elif verb == "plain":
            room = min(number(f["buffer"], 64), 2 ** 30)
            data, layout = s.plain(room)
            self.page = (data, layout)
            rest = zlib.crc32(b"\xA5" * (room - len(data)))
            return f" length={len(data)} layout={','.join(map(str, layout))} page={crc(data)} rest={rest:08x}"
        return ""

    def line(self, n, text):
        words = [w for w in text.split(" ") if w]
        if not words or words[0].startswith("#"):
            return None
        if words[0] not in SHAPES:
            raise Fault("command")
        count, keys = SHAPES[words[0]]
        names, rest, fields = words[1:1 + count], words[1 + count:], {}
        if len(names) < count or not all(re.fullmatch(r"[A-Za-z0-9_-]{1,32}", x) for x in names):
            raise Fault("name")
        for w in rest:
            key, eq, value = w.partition("=")
            if not eq or key not in keys or key in fields:
                raise Fault("field")
            fields[key] = value
        if any(needed and k not in fields for k, needed in keys.items()):
            raise Fault("missing")
        head = f"{n} {' '.join([words[0]] + names)}:"
        try:
            return f"{head} ok{self.command(words[0], names, fields)}"
        except Refused as r:
            return f"{head} refused {r}"


def main():
    data = open(sys.argv[1], "rb").read() if len(sys.argv) > 1 else sys.stdin.buffer.read()
    lines = data.split(b"\n")
    if lines and lines[-1] == b"":
        lines.pop()
    job = Job()
    for n, line in enumerate(lines, 1):
        try:
            text = line[:-1] if line.endswith(b"\r") else line
            out = job.line(n, text.decode("latin-1"))
        except Fault as fault:
            print(f"{n}: error: {fault}", file=sys.stderr)
            return 1
        if out is not None:
            print(out)
    return 0


if __name__ == "__main__":
    sys.exit(main())
