"""A plain reference for captures, the binary form of a convex solid.

A capture is, with nothing between its parts:

    c corner rows   x, y, z as signed 16-bit numbers          6 bytes each
    f flat rows     one unsigned 32-bit mask; bit k stands
                    for corner k                              4 bytes each
    r ridge rows    two corner numbers, the lower first       2 bytes each
    the trailer     c, f, r and the edition as single bytes,
                    then three unsigned 16-bit distances      10 bytes

Every number wider than a byte has its low byte first.  The distances lead
from the trailer back to the first corner row, flat row and ridge row.

refusal(data) tells why bytes are no capture, or 0 when they are one.
capture(points) makes the capture of the convex hull of whole points.

All arithmetic is on whole numbers of any size.  Nothing here is made for
speed: each rule is tried on all the rows that it speaks of.
"""

import struct
from itertools import combinations

SHORTEST, LONGEST = 10, 622     # bytes in a capture
REACH = 10_000                  # greatest size of a coordinate
EDITION = 1


def minus(a, b):
    return a[0] - b[0], a[1] - b[1], a[2] - b[2]


def cross(u, v):
    return (u[1] * v[2] - u[2] * v[1],
            u[2] * v[0] - u[0] * v[2],
            u[0] * v[1] - u[1] * v[0])


def dot(u, v):
    return u[0] * v[0] + u[1] * v[1] + u[2] * v[2]


def rising(rows):
    """Whether each row is greater than the one before it."""
    return all(a < b for a, b in zip(rows, rows[1:]))


def members(mask):
    """The corner numbers whose bits are set in a mask, lowest first."""
    return [k for k in range(32) if mask >> k & 1]


def one_sided(p, n, points):
    """Whether the plane through p across n leaves one of its sides empty."""
    above = below = False
    for point in points:
        height = dot(n, minus(point, p))
        above = above or height > 0
        below = below or height < 0
        if above and below:
            return False
    return True


def shared_pairs(masks):
    """The pairs of corners that are all that some two flats have in common."""
    common = (members(a & b) for a, b in combinations(masks, 2))
    return {tuple(both) for both in common if len(both) == 2}


def rows(data, c, f, r):
    """The corner, flat and ridge rows of bytes that keep rule 2."""
    corners = [struct.unpack_from("<3h", data, 6 * i) for i in range(c)]
    masks = [struct.unpack_from("<I", data, 6 * c + 4 * i)[0] for i in range(f)]
    ridges = [struct.unpack_from("<2B", data, 6 * c + 4 * f + 2 * i) for i in range(r)]
    return corners, masks, ridges


def pack(corners, masks, ridges):
    """The bytes for the given rows with a fitting trailer, lawful or not."""
    c, f, r = len(corners), len(masks), len(ridges)
    return b"".join([struct.pack("<3h", *corner) for corner in corners]
                    + [struct.pack("<I", mask) for mask in masks]
                    + [struct.pack("<2B", *ridge) for ridge in ridges]
                    + [struct.pack("<4B3H", c, f, r, EDITION,
                                   6 * c + 4 * f + 2 * r, 4 * f + 2 * r, 2 * r)])


def keeps_3(corners, masks, ridges):
    """Coordinates lie within reach, and corner rows rise by x, y, z."""
    return (all(-REACH <= x <= REACH for corner in corners for x in corner)
            and rising(corners))


def keeps_4(corners, masks, ridges):
    """Masks rise, name only corners there are, and name three or more."""
    return (rising(masks)
            and all(mask >> len(corners) == 0 for mask in masks)
            and all(len(members(mask)) >= 3 for mask in masks))


def keeps_5(corners, masks, ridges):
    """Each flat is a whole face: the three lowest corners of it span a plane,
    its other corners lie in that plane, and all corners outside the flat, of
    which there is at least one, lie strictly on one and the same side."""
    for mask in masks:
        inside = [corners[k] for k in members(mask)]
        others = [corner for k, corner in enumerate(corners) if not mask >> k & 1]
        p, q, s = inside[:3]
        n = cross(minus(q, p), minus(s, p))
        heights = [dot(n, minus(other, p)) for other in others]
        if (n == (0, 0, 0)
                or any(dot(n, minus(corner, p)) != 0 for corner in inside)
                or not others
                or not (all(h < 0 for h in heights) or all(h > 0 for h in heights))):
            return False
    return True


def keeps_6(corners, masks, ridges):
    """Three corners off one line, with one side of their plane empty, are
    together in some flat."""
    for i, j, k in combinations(range(len(corners)), 3):
        p, q, s = corners[i], corners[j], corners[k]
        n = cross(minus(q, p), minus(s, p))
        three = 1 << i | 1 << j | 1 << k
        if (n != (0, 0, 0) and one_sided(p, n, corners)
                and not any(mask & three == three for mask in masks)):
            return False
    return True


def keeps_7(corners, masks, ridges):
    """Each corner is in three flats or more."""
    return all(sum(mask >> k & 1 for mask in masks) >= 3 for k in range(len(corners)))


def keeps_8(corners, masks, ridges):
    """Ridge rows rise, and they are the pairs of corners that make up all
    that two flats share, each of these and nothing else."""
    return rising(ridges) and set(ridges) == shared_pairs(masks)


def refusal(data):
    """0 for a capture, else the number of the first rule that is broken."""
    # 1: the length is within bounds.
    if not SHORTEST <= len(data) <= LONGEST:
        return 1
    # 2: counts and edition are within bounds, and length and distances are
    # those that follow from the counts.
    c, f, r, edition, *distances = struct.unpack("<4B3H", data[-10:])
    if not (4 <= c <= 32 and 4 <= f <= 60 and 6 <= r <= 90 and edition == EDITION
            and len(data) == 6 * c + 4 * f + 2 * r + 10
            and distances == [6 * c + 4 * f + 2 * r, 4 * f + 2 * r, 2 * r]):
        return 2
    found = rows(data, c, f, r)
    for number, keeps in enumerate((keeps_3, keeps_4, keeps_5,
                                    keeps_6, keeps_7, keeps_8), start=3):
        if not keeps(*found):
            return number
    return 0


def capture(points):
    """The capture of the convex hull of whole points that are not all in one
    plane.  Points that are not corners of the hull are left out."""
    points = sorted(set(map(tuple, points)))
    faces = set()
    for p, q, s in combinations(points, 3):
        n = cross(minus(q, p), minus(s, p))
        if n != (0, 0, 0) and one_sided(p, n, points):
            faces.add(frozenset(x for x in points if dot(n, minus(x, p)) == 0))
    # A corner is in three faces or more, a point along an edge in two, one
    # amid a face in one, one inside in none.
    corners = [p for p in points if sum(p in face for face in faces) >= 3]
    masks = sorted(sum(1 << k for k, corner in enumerate(corners) if corner in face)
                   for face in faces)
    data = pack(corners, masks, sorted(shared_pairs(masks)))
    assert refusal(data) == 0
    return data
