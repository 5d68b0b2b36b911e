"""Writes captures, lawful and damaged, and the answers expected for them, by
the plain reference beside this file.

    crates/capture/data, args, stdout   the captures, their names in order, and
                                        the line expected for each
    crates/damage/data, args, stdout    the lawful ones, and how often each answer
                                        is given over changes of a single byte
"""

import math
import random
from collections import Counter
from pathlib import Path

from reference import capture, pack, refusal, rows, shared_pairs

CRATES = Path(__file__).resolve().parent.parent / "crates"

WORDS = {
    1: "a capture has 10 to 622 bytes",
    2: "the trailer does not fit the layout",
    3: "a corner is beyond reach or out of order",
    4: "a mask is out of order, too wide or has fewer than three corners",
    5: "a flat is not a plane with every other corner on one side",
    6: "a flat is missing",
    7: "a corner lies in fewer than three flats",
    8: "the ridges are not those in which two flats meet",
}


def counts(data):
    """c, f and r of a capture, from its trailer."""
    return tuple(data[-10:-7])


def swapped(items, i, j):
    """A copy of a list with items i and j exchanged."""
    copy = list(items)
    copy[i], copy[j] = copy[j], copy[i]
    return copy


def with_byte(data, position, value):
    """A copy of bytes with one of them replaced."""
    return data[:position] + bytes([value]) + data[position + 1:]


def prism_points():
    """A right prism over a polygon with sixteen corners.  Its sides are four
    short vectors within a quarter turn, and these turned three times."""
    x, y, base = 0, 0, []
    for a, b in ((1, 0), (0, 1), (-1, 0), (0, -1)):         # cosine, sine
        for u, v in ((3, 0), (6, 3), (3, 3), (3, 6)):
            base.append((x, y))
            x, y = x + a * u - b * v, y + b * u + a * v
    assert (x, y) == (0, 0)
    return [(x, y, z) for x, y in base for z in (-7, 7)]


def largest_capture():
    """32 points near a sphere whose hull has all of them as corners and
    nothing but triangles as faces."""
    chance = random.Random(622)
    while True:
        points = []
        while len(points) < 32:
            v = [chance.uniform(-1, 1) for _ in range(3)]
            length = math.sqrt(sum(t * t for t in v))
            if 0.1 < length <= 1:
                points.append(tuple(round(9000 * t / length) for t in v))
        data = capture(points)
        if counts(data) == (32, 60, 90):
            return data


def cases():
    """Each name with its bytes and the answer that it is made for."""
    tetrahedron = capture([(0, 0, 0), (0, 0, 4), (0, 4, 0), (4, 0, 0)])
    t_corners, t_masks, t_ridges = rows(tetrahedron, 4, 4, 6)
    assert len(tetrahedron) == 62 and t_masks == [7, 11, 13, 14]
    assert tetrahedron[-10:] == bytes.fromhex("04 04 06 01 34 00 1C 00 0C 00")

    sides = (0, 4)
    cube = capture([(x, y, z) for x in sides for y in sides for z in sides])
    assert counts(cube) == (8, 6, 12)
    corners, masks, ridges = rows(cube, 8, 6, 12)
    # Corner 4i + 2j + k of the cube is (4i, 4j, 4k).
    assert masks == [0x0F, 0x33, 0x55, 0xAA, 0xCC, 0xF0]

    prism = capture(prism_points())
    assert counts(prism) == (32, 18, 48)

    largest = largest_capture()
    assert len(largest) == 622

    far = 10_000
    reach = capture([(-far, -far, -far), (-far, far, far), (far, -far, far), (far, far, -far)])
    r_corners, r_masks, r_ridges = rows(reach, 4, 4, 6)

    # The cube with one more point, in the middle of the edge from (4, 0, 4)
    # to (4, 4, 4).  That point is in two flats; their three shared corners
    # make no ridge.  Every other rule is kept.
    l_corners = sorted(corners + [(4, 2, 4)])
    l_masks = sorted(sum(1 << k for k, p in enumerate(l_corners) if p[axis] == side)
                     for axis in range(3) for side in sides)
    l_ridges = sorted(shared_pairs(l_masks))

    return [
        ("tetrahedron", tetrahedron, 0),
        ("cube", cube, 0),
        ("prism", prism, 0),
        ("largest", largest, 0),
        ("reach", reach, 0),
        ("empty", b"", 1),
        ("short", tetrahedron[-9:], 1),
        ("long", b"\0" + largest, 1),       # in front, so the trailer stays last
        ("zeros", bytes(62), 2),
        ("ones", b"\xff" * 622, 2),
        ("edition", with_byte(tetrahedron, 55, 2), 2),
        ("distance", with_byte(tetrahedron, 58, 0x18), 2),
        ("beyond", pack([(x, y, far + 1 if i == 1 else z)
                         for i, (x, y, z) in enumerate(r_corners)], r_masks, r_ridges), 3),
        ("disorder", pack(swapped(corners, 2, 3), masks, ridges), 3),
        ("twice", pack(corners[:3] + corners[2:3] + corners[4:], masks, ridges), 3),
        ("mask-order", pack(corners, swapped(masks, 2, 3), ridges), 4),
        ("mask-wide", pack(t_corners, [7, 11, 13, 14 | 1 << 4], t_ridges), 4),
        ("mask-two", pack(t_corners, [3, 11, 13, 14], t_ridges), 4),
        # Corner 4 is listed in the flat x = 0 but is not in its plane.
        ("bent", pack(corners, [0x1F] + masks[1:], ridges), 5),
        # Corners 0, 3, 4, 7 are in the plane y = z, which halves the cube.
        ("inner", pack(corners, sorted(masks + [0x99]), ridges), 5),
        ("missing-flat", pack(corners, masks[:5], sorted(shared_pairs(masks[:5]))), 6),
        ("loose-corner", pack(l_corners, l_masks, l_ridges), 7),
        ("missing-ridge", pack(corners, masks, ridges[:5] + ridges[6:]), 8),
        # Corners 0 and 3 are opposite in the flat x = 0.
        ("extra-ridge", pack(corners, masks, sorted(ridges + [(0, 3)])), 8),
        ("reversed-ridge", pack(corners, masks, ridges[:5] + [ridges[5][::-1]] + ridges[6:]), 8),
        ("two-rules", pack(t_corners, swapped(t_masks, 1, 2), swapped(t_ridges, 1, 2)), 4),
    ]


def answer(data):
    """The answer for a capture, in words."""
    number = refusal(data)
    if number:
        return f"refused {number}: {WORDS[number]}"
    c, f, r = counts(data)
    return (f"accepted: {c} corners, {f} flats, {r} ridges; "
            f"saved again: {len(data)} bytes, the same")


def damage(data):
    """How often each answer is given when one byte is changed, for each
    byte in its lowest bit, in its highest bit and in all bits."""
    tally = Counter(refusal(with_byte(data, i, data[i] ^ change))
                    for i in range(len(data)) for change in (1, 128, 255))
    refused = ", ".join(f"{number}: {tally[number]}" for number in range(1, 9))
    return f"{3 * len(data)} changes: accepted {tally[0]}, refused {refused}"


def write(crate, captures, lines):
    """The files that a program is run on, and what it must print."""
    folder = CRATES / crate
    (folder / "data").mkdir(exist_ok=True)
    for name, data in captures:
        (folder / "data" / name).write_bytes(data)
    names = [line.split(":")[0] for line in lines]
    (folder / "args").write_text("".join(name + "\n" for name in names), encoding="ascii")
    (folder / "stdout").write_text("".join(line + "\n" for line in lines), encoding="ascii")


def main():
    captures, answers, damages = [], [], []
    for stem, data, expected in cases():
        assert refusal(data) == expected, (stem, refusal(data), expected)
        name = f"{stem}.capture"
        captures.append((name, data))
        answers.append(f"{name}: {answer(data)}")
        if not expected:
            damages.append(f"{name}: {damage(data)}")
    answers.append("no-such.capture: cannot be read: No such file or directory (os error 2)")
    write("capture", captures, answers)
    write("damage", captures[:len(damages)], damages)


if __name__ == "__main__":
    main()
