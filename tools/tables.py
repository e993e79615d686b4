#!/usr/bin/env python3
"""Writes the answers that the program of the crate `tables` must print.

    python3 tools/tables.py

writes crates/tables/stdout. The answers are computed here from the geometry in docs/RULES.md, and not
by the library: cells are sets of corner points, built from the root down, and two cells meet where
the corners of their faces are the same points. The six laws are checked of the tables of all cells,
and so is what the rules say of each shape besides.
"""
import os
from functools import lru_cache
from itertools import combinations_with_replacement, product

ROOT = os.path.dirname(os.path.dirname(os.path.abspath(__file__)))
SIDE = 2**18  # the ticks of a root's side
DEEPEST = 18
BITS = 54  # of a finest place, at most
SMALL = 3  # the levels to here are tables of all cells; deeper cells are searched for

# ---------------------------------------------------------------- points of the plan
def side(level):
    """The side of a cell, in ticks."""
    return SIDE >> level

def orientation(a, b, c):
    """Over 0 where a, b, c turn left, 0 where they lie on one straight line."""
    return (b[0] - a[0]) * (c[1] - a[1]) - (b[1] - a[1]) * (c[0] - a[0])

def is_in_box(point, corners):
    """Does the point lie in the bounding rectangle of the corners?"""
    return all(min(c[i] for c in corners) <= point[i] <= max(c[i] for c in corners) for i in (0, 1))

def is_in_triangle(point, corners):
    """Does the point lie in the triangle, which may be a segment or a point?"""
    a, b, c = corners
    turns = [orientation(p, q, point) for p, q in ((a, b), (b, c), (c, a))]
    return is_in_box(point, corners) and not (min(turns) < 0 < max(turns))

@lru_cache(None)
def is_in_hull(point, corners):
    """Does the point lie in the convex hull of the corners?"""
    return is_in_box(point, corners) and any(
        is_in_triangle(point, three) for three in combinations_with_replacement(corners, 3))

def is_within(points, corners):
    """Do all the points lie in the convex hull of the corners?"""
    return all(is_in_hull(point, corners) for point in points)

# ---------------------------------------------------------------- flat shapes
class Flat:
    """A flat shape: the corners of its root, of the children of a cell, and of a cell's faces."""

    def __init__(self, width, root, children, faces, axes):
        """`axes` has for each root face the coordinate that counts along it, or None."""
        self.width, self.root, self.children = width, root, children
        self.faces, self.axes = faces, axes

    @lru_cache(None)
    def cell(self, level, place):
        """The corners of a cell."""
        if level == 0:
            return self.root
        parent, child = divmod(place, 2**self.width)
        return self.children(self.cell(level - 1, parent))[child]

    def face(self, cell, face):
        """The corners of a face of a cell."""
        return tuple(cell[corner] for corner in self.faces[face])

    def find(self, level, is_wanted):
        """The places of the cells of a level that are wanted, and all cells above them too."""
        places = [0] if is_wanted(0, 0) else []
        for below in range(1, level + 1):
            children = [p * 2**self.width + i for p in places for i in range(2**self.width)]
            places = [p for p in children if is_wanted(below, p)]
        return places

    @lru_cache(None)
    def holders(self, level, points):
        """The places of the cells of a level that hold all the points."""
        return self.find(level, lambda below, p: is_within(points, self.cell(below, p)))

    def edge_number(self, level, face, points):
        """The edge number of a cell's face, with these corners, on a root face."""
        axis = self.axes[face]
        return 0 if axis is None else min(point[axis] for point in points) // side(level)

    @lru_cache(None)
    def at_edge(self, level, face, number):
        """The places of the cells that lie at an edge number of a root face."""
        span = self.face(self.root, face)
        def is_wanted(below, place):
            here = self.face(self.cell(below, place), face)
            up = number >> (self.width - 1) * (level - below)
            return is_within(here, span) and self.edge_number(below, face, here) == up
        return self.find(level, is_wanted)

def line_children(cell):
    """The two halves."""
    (x, y), (end, _) = cell
    middle = (x + end) // 2
    return ((x, y), (middle, y)), ((middle, y), (end, y))

def square_at(x, y, length):
    """The corners of a square."""
    return (x, y), (x + length, y), (x, y + length), (x + length, y + length)

def square_children(cell):
    """The four quadrants: child i is to the right where i is odd, and above from 2 on."""
    (x, y), half = cell[0], (cell[1][0] - cell[0][0]) // 2
    return tuple(square_at(x + i % 2 * half, y + i // 2 * half, half) for i in range(4))

def triangle_at(x, y, kind, length):
    """The corners of a triangle of type 0 or 1."""
    middle = (x, y + length) if kind else (x + length, y)
    return (x, y), middle, (x + length, y + length)

TRIANGLE_CHILDREN = (  # the steps of the anchor and the type, by the parent's type
    ((0, 0, 0), (1, 0, 0), (1, 0, 1), (1, 1, 0)),
    ((0, 0, 1), (0, 1, 0), (0, 1, 1), (1, 1, 1)))

def triangle_children(cell):
    """The four halves of its length, by the rules' tables."""
    (x, y), middle, (end, _) = cell
    kind, half = int(middle[0] == x), (end - x) // 2
    return tuple(triangle_at(x + dx * half, y + dy * half, ty, half)
                 for dx, dy, ty in TRIANGLE_CHILDREN[kind])

LINE = Flat(1, ((0, 0), (SIDE, 0)), line_children, ((0,), (1,)), (None, None))
SQUARE = Flat(2, square_at(0, 0, SIDE), square_children,
              ((0, 2), (1, 3), (0, 1), (2, 3)), (1, 1, 0, 0))
TRIANGLE = Flat(2, triangle_at(0, 0, 0, SIDE), triangle_children,
                ((1, 2), (0, 2), (0, 1)), (1, 0, 0))

# ---------------------------------------------------------------- digits
def joined(level, parts):
    """The number each of whose digits joins those of the parts, the first part's lowest.

    A part is a number and the width of its digits."""
    total, shift = 0, 0
    for digit in range(level):
        for number, width in parts:
            total |= (number >> digit * width) % 2**width << shift
            shift += width
    return total

def parted(level, number, widths):
    """The numbers that are joined in the number."""
    parts, shift = [0] * len(widths), 0
    for digit in range(level):
        for i, width in enumerate(widths):
            parts[i] |= (number >> shift) % 2**width << digit * width
            shift += width
    return parts

# ---------------------------------------------------------------- schemes
class Scheme:
    """A flat shape or a product of two, down to a depth.

    A cell or a face is a product of convex hulls, one of each part."""

    def __init__(self, parts, depth):
        self.parts, self.depth = parts, depth
        self.width = sum(part.width for part in parts)
        self.k, self.h = 2**self.width, 2**(self.width - 1)
        self.faces = [(i, f) for i, part in enumerate(parts) for f in range(len(part.faces))]
        self.F = len(self.faces)

    def places(self, level, place):
        """The place of each part of a cell."""
        return parted(level, place, [part.width for part in self.parts])

    def place(self, level, places):
        """The place of the cell that has these parts."""
        return joined(level, [(p, part.width) for p, part in zip(places, self.parts)])

    @lru_cache(None)
    def cell(self, level, place):
        """The hulls of a cell."""
        return tuple(part.cell(level, p) for part, p in zip(self.parts, self.places(level, place)))

    @lru_cache(None)
    def face(self, level, place, face):
        """The hulls of a face of a cell: one part's face, and the other part's cell."""
        which, own = self.faces[face]
        hulls = list(self.cell(level, place))
        hulls[which] = self.parts[which].face(hulls[which], own)
        return tuple(hulls)

    @lru_cache(None)
    def corners(self, level, place, face):
        """The corners of a face of a cell, as a set of points in the space of all parts."""
        return frozenset(product(*self.face(level, place, face)))

    @lru_cache(None)
    def meetings(self, level):
        """For each set of corners, all the places and faces that have it."""
        cells = {}
        for place in range(self.k**level):
            for face in range(self.F):
                cells.setdefault(self.corners(level, place, face), []).append((place, face))
        return cells

    def searched(self, level, hulls, corners):
        """The places and faces that have the corners, found among the cells that hold the hulls."""
        holders = [part.holders(level, hull) for part, hull in zip(self.parts, hulls)]
        near = [self.place(level, places) for places in product(*holders)]
        return sorted((p, f) for p in near for f in range(self.F)
                      if self.corners(level, p, f) == corners)

    def owners(self, level, place, face):
        """The places and faces, one or two, that have the corners of this one."""
        hulls, corners = self.face(level, place, face), self.corners(level, place, face)
        if level > SMALL:
            return self.searched(level, hulls, corners)
        owners = self.meetings(level)[corners]
        assert owners == self.searched(level, hulls, corners)
        return owners

    def lies_on(self, hulls, others):
        """Do all the corners of the one lie on the other?"""
        return all(map(is_within, hulls, others))

    def edge_number(self, level, place, face, root_face):
        """The edge number of a cell's face that lies on a root face."""
        which, own = self.faces[root_face]
        numbers = [(p, part.width) for p, part in zip(self.places(level, place), self.parts)]
        part, hull = self.parts[which], self.face(level, place, face)[which]
        numbers[which] = part.edge_number(level, own, hull), part.width - 1
        return joined(level, numbers)

    @lru_cache(None)
    def across(self, level, place, face):
        """What lies across a face: ('i', place, face) or ('e', root face, edge number)."""
        if not (level <= self.depth and place < self.k**level and face < self.F):
            return None
        others = [owner for owner in self.owners(level, place, face) if owner != (place, face)]
        if others:
            (other,) = others
            return ('i', *other)
        here = self.face(level, place, face)
        (edge,) = [g for g in range(self.F) if self.lies_on(here, self.face(0, 0, g))]
        return 'e', edge, self.edge_number(level, place, face, edge)

    @lru_cache(None)
    def edges(self, level):
        """The place and face at each edge of a small level: the inverse of across."""
        table = {}
        for place in range(self.k**level):
            for face in range(self.F):
                kind, *edge = self.across(level, place, face)
                if kind == 'e':
                    assert tuple(edge) not in table
                    table[tuple(edge)] = place, face
        return table

    def searched_edge(self, level, face, number):
        """The place and face at an edge, found by the place or the edge number of each part."""
        which, own = self.faces[face]
        widths = [part.width - (i == which) for i, part in enumerate(self.parts)]
        places = parted(level, number, widths)
        (places[which],) = self.parts[which].at_edge(level, own, places[which])
        return self.place(level, places), face

    @lru_cache(None)
    def at_edge(self, level, face, number):
        """The place and face at an edge number of a root face."""
        if not (level <= self.depth and face < self.F and number < self.h**level):
            return None
        found = self.searched_edge(level, face, number)
        table = self.edges(level) if level <= SMALL else {(face, number): found}
        assert table[face, number] == found
        assert self.across(level, *found) == ('e', face, number)
        return found

    @lru_cache(None)
    def face_children(self, level, place, face):
        """The children and faces of theirs that lie on a face, rising."""
        here = self.face(level, place, face)
        found = [(i, a) for i in range(self.k) for a in range(self.F)
                 if self.lies_on(self.face(level + 1, place * self.k + i, a), here)]
        assert len(found) == self.h
        return found

    def face_child(self, level, place, face, number):
        """One of them."""
        if not (level < self.depth and place < self.k**level and face < self.F and number < self.h):
            return None
        return self.face_children(level, place, face)[number]

    def sort(self, face):
        """Which part has the face."""
        return self.faces[face][0] if face < self.F else None

    def turned_on(self, face, level, number):
        """An edge number with its part turned about the middle of that part's root face."""
        which, own = self.faces[face]
        part = self.parts[which]
        place, at = self.at_edge(level, face, number)
        span, hull = part.face(part.root, own), self.face(level, place, at)[which]
        turned = [tuple(span[0][i] + span[-1][i] - point[i] for i in (0, 1)) for point in hull]
        widths = [p.width - (i == which) for i, p in enumerate(self.parts)]
        numbers = parted(level, number, widths)
        numbers[which] = part.edge_number(level, own, turned)
        return joined(level, list(zip(numbers, widths)))

    @lru_cache(None)
    def turned(self, sort, level, number):
        """An edge number turned over, the same on every root face of the sort."""
        faces = [f for f in range(self.F) if self.sort(f) == sort]
        if not (faces and level <= self.depth and number < self.h**level):
            return None
        (turned,) = {self.turned_on(face, level, number) for face in faces}
        return turned

def shape(flat):
    """A flat shape as a scheme."""
    return Scheme((flat,), DEEPEST)

def times(a, b):
    """The product of two flat schemes."""
    width = a.width + b.width
    return Scheme(a.parts + b.parts, min(a.depth, b.depth, BITS // width))

def limited(scheme, limit):
    """A depth limit over a scheme."""
    return Scheme(scheme.parts, min(scheme.depth, limit))

# ---------------------------------------------------------------- squares and triangles by coordinates
def corners_at(flat, level, x, y, kind):
    """The corners of a square or a triangle with this anchor and type, or None."""
    if level > DEEPEST or kind > (flat is TRIANGLE):
        return None
    unit = side(level)
    if flat is TRIANGLE:
        return triangle_at(x * unit, y * unit, kind, unit)
    return square_at(x * unit, y * unit, unit)

def place_at(flat, level, x, y, kind):
    """The place of the cell with this anchor and type, or None."""
    corners = corners_at(flat, level, x, y, kind)
    found = flat.holders(level, corners) if corners else []
    return found[0] if found and flat.cell(level, found[0]) == corners else None

def anchor_of(flat, level, place):
    """The anchor and type of a cell, or None."""
    if level > DEEPEST or place >= 4**level:
        return None
    (x, y), second = flat.cell(level, place)[:2]
    return x // side(level), y // side(level), int(second[0] == x)

# ---------------------------------------------------------------- the six laws, of the tables
def check_crossings(scheme, level):
    """Laws 1 and 2: across leads back, and at edge is across turned over."""
    for place in range(scheme.k**level):
        for face in range(scheme.F):
            kind, *there = scheme.across(level, place, face)
            inside = scheme.across(level, *there)[1:] if kind == 'i' else None
            assert (inside or scheme.at_edge(level, *there)) == (place, face)
    assert set(scheme.edges(level)) == set(product(range(scheme.F), range(scheme.h**level)))
    assert level or all(scheme.across(0, 0, f) == ('e', f, 0) for f in range(scheme.F))

def placed(scheme, level, place, face):
    """The places and faces of the face children of a face."""
    return [(place * scheme.k + i, a) for i, a in scheme.face_children(level, place, face)]

def check_children(scheme, level, place):
    """Laws 3 and 5: face children rise, each of one face, and other faces of children meet inside."""
    outer = []
    for face in range(scheme.F):
        children = scheme.face_children(level, place, face)
        rising = [i for i, _ in children]
        assert rising == sorted(set(rising))
        outer += children
    assert len(set(outer)) == len(outer)
    for i, a in set(product(range(scheme.k), range(scheme.F))) - set(outer):
        kind, other, _ = scheme.across(level + 1, place * scheme.k + i, a)
        assert kind == 'i' and other // scheme.k == place and other % scheme.k != i

def check_meeting(scheme, level, place, face):
    """Law 4: across takes the face children of a face to those of the face that it meets."""
    below = [scheme.across(level + 1, *child) for child in placed(scheme, level, place, face)]
    kind, *there = scheme.across(level, place, face)
    if kind == 'i':
        wanted = [('i', *child) for child in placed(scheme, level, *there)]
    else:
        wanted = [('e', there[0], there[1] * scheme.h + j) for j in range(scheme.h)]
    assert sorted(below) == sorted(wanted)

def check_turning(scheme, level):
    """Law 6, and the rule for the turned number of each part."""
    for sort, part in enumerate(scheme.parts):
        widths = [p.width - (i == sort) for i, p in enumerate(scheme.parts)]
        for n in range(scheme.h**level):
            turned = scheme.turned(sort, level, n)
            assert scheme.turned(sort, level, turned) == n
            assert level == 0 or turned // scheme.h == scheme.turned(sort, level - 1, n // scheme.h)
            numbers = parted(level, n, widths)
            numbers[sort] = numbers[sort] if part is LINE else 2**level - 1 - numbers[sort]
            assert parted(level, turned, widths) == numbers

def check_factors(scheme, level, place, face):
    """The rule for face children of a product: the one part's, with every digit of the other."""
    (which, own), low = scheme.faces[face], scheme.parts[0].width
    part = shape(scheme.parts[which])
    children = part.face_children(level, scheme.places(level, place)[which], own)
    start = 0 if which == 0 else len(scheme.parts[0].faces)
    for j, (child, at) in enumerate(scheme.face_children(level, place, face)):
        digits = child % 2**low, child >> low
        inner, other = (j % part.h, j // part.h) if which == 0 else (j >> low, j % 2**low)
        assert (digits[which], at - start) == children[inner]
        assert digits[1 - which] == other or len(scheme.parts) == 1

def check_laws(scheme, levels):
    """All laws, of all cells down to a level, or to the depth."""
    for level in range(min(levels, scheme.depth) + 1):
        check_crossings(scheme, level)
        check_turning(scheme, level)
        if level < min(levels, scheme.depth):
            for place in range(scheme.k**level):
                check_children(scheme, level, place)
                for face in range(scheme.F):
                    check_meeting(scheme, level, place, face)
                    check_factors(scheme, level, place, face)

# ---------------------------------------------------------------- what the rules say of each shape
# The steps of the anchor across a face, by type and face.
TRIANGLE_STEPS = ((1, 0), (0, 0), (0, -1)), ((0, 1), (0, 0), (-1, 0))

def check_square_rules(level):
    """The place has the bits of x and y in turn."""
    for place in range(4**level):
        x, y, _ = anchor_of(SQUARE, level, place)
        assert joined(level, [(x, 1), (y, 1)]) == place

def triangle_across(level, place, face):
    """What lies across a face of a triangle, by its anchor and type."""
    x, y, kind = anchor_of(TRIANGLE, level, place)
    if kind == 0 and (x == 2**level - 1, x == y, y == 0)[face]:
        return 'e', face, (y, x, x)[face]
    dx, dy = TRIANGLE_STEPS[kind][face]
    return 'i', place_at(TRIANGLE, level, x + dx, y + dy, 1 - kind), 2 - face

def check_triangle_rules(level):
    """Across goes by the anchor and the type."""
    scheme = shape(TRIANGLE)
    for place in range(4**level):
        for face in range(3):
            assert scheme.across(level, place, face) == triangle_across(level, place, face)

def check_flat_rules(flat, level):
    """Face children keep the face's number, and children stay in their parent's rectangle."""
    scheme = shape(flat)
    for place in range(scheme.k**level):
        for face in range(scheme.F):
            assert {a for _, a in scheme.face_children(level, place, face)} == {face}
        cell = flat.cell(level, place)
        assert all(is_in_box(point, cell) for child in flat.children(cell) for point in child)

def check_rules():
    """All of it, of the small levels."""
    for level in range(SMALL + 1):
        check_square_rules(level)
        check_triangle_rules(level)
        for flat in (LINE, SQUARE, TRIANGLE):
            check_flat_rules(flat, level)

# ---------------------------------------------------------------- the text
FULL = 1  # the deepest level whose rows are all printed themselves
LONGEST = 300  # bytes of a deeper row that is printed itself
# Coordinates at the ends and in the middle of a root of level 18, and past it.
FAR = (0, 1, 2**17 - 1, 2**17, 2**18 - 1, 2**18, 2**31, 2**32 - 1)
MIXER = 0x9e3779b97f4a7c15  # an odd number whose multiples differ in many bits

def check_sum(text):
    """The 64-bit FNV-1a: for each byte, the sum xor the byte, times the prime, modulo 2^64."""
    total = 0xcbf29ce484222325
    for byte in text.encode():
        total = (total ^ byte) * 0x100000001b3 % 2**64
    return total

def shown(answer):
    """An answer as it is printed."""
    if answer is None:
        return '-'
    if isinstance(answer, int):
        return str(answer)
    kind, numbers = (answer[0], answer[1:]) if isinstance(answer[0], str) else ('', answer)
    return kind + '.'.join(map(str, numbers))

def shown_cell(anchor):
    """The coordinates and type of a cell as they are printed."""
    return '-' if anchor is None else '%d,%d,%d' % anchor

def row(head, level, answers, show=shown):
    """A line: the head and the answers, or the length and the check sum of their text."""
    text = ''.join(' ' + show(answer) for answer in answers)
    if level > FULL and len(text) > LONGEST:
        text = ' %d bytes %016x' % (len(text), check_sum(text))
    return '%s:%s\n' % (head, text)

def every(width, level):
    """All places with digits of a width, and the first number past them."""
    return range(2**(width * level) + 1)

def some(width, level):
    """Some places: each digit and then each repeated, eight mixed ones, and the first past all."""
    digits, past = 2**width, 2**(width * level)
    below = 2**(width * max(level - 1, 0))
    ones = (below - 1) // (digits - 1) if width else 0
    pairs = [first * below + rest * ones for first in range(digits) for rest in range(digits)]
    return pairs + [n * MIXER % past for n in range(1, 9)] + [past]

def head(name, scheme):
    """The sizes of a scheme, and the sorts of its faces."""
    sizes = '== %s: width %d faces %d depth %d\n' % (name, scheme.width, scheme.F, scheme.depth)
    return sizes + row('sorts', 0, [scheme.sort(f) for f in range(scheme.F + 1)])

def questions(scheme, level, choice):
    """The lines of a level: each question at the chosen places and numbers, past each bound too."""
    places, numbers = choice(scheme.width, level), choice(scheme.width - 1, level)
    faces, children = range(scheme.F + 1), range(scheme.h + 1)
    tables = [('across', f, [scheme.across(level, p, f) for p in places]) for f in faces]
    tables += [('at edge', f, [scheme.at_edge(level, f, n) for n in numbers]) for f in faces]
    tables += [('face children', f, [scheme.face_child(level, p, f, j) for p in places for j in children])
               for f in faces]
    tables += [('turned', s, [scheme.turned(s, level, n) for n in numbers]) for s in range(3)]
    return ''.join(row('%s %d %d' % (name, level, of), level, answers) for name, of, answers in tables)

def whole(name, scheme, levels):
    """All answers of a scheme down to a level, and what is far outside, which is nothing."""
    check_laws(scheme, levels)
    lines = [questions(scheme, level, every) for level in range(levels + 1)]
    return head(name, scheme) + ''.join(lines) + row('far', 0, [None] * 26)

def deep(name, scheme):
    """Some answers of a scheme at its two deepest levels, and one past them."""
    levels = range(max(scheme.depth - 1, 0), scheme.depth + 2)
    return head(name, scheme) + ''.join(questions(scheme, level, some) for level in levels)

def outlines(scheme, level, choice):
    """The line of all corners of the chosen cells, four to a cell."""
    (part,) = scheme.parts
    points = []
    for place in choice(scheme.width, level):
        is_there = level <= scheme.depth and place < scheme.k**level
        corners = list(part.cell(level, place)) if is_there else []
        points += corners + [(0, 0)] * (4 - len(corners))
    return row('outlines %d' % level, level, points, lambda point: '%d,%d' % point)

def plan(name, scheme, levels):
    """The sizes of a flat scheme, and its cells on the plan."""
    corners = len(scheme.parts[0].root)
    sizes = corners, corners, scheme.width, scheme.F
    lines = ['== plan of %s: corners %d declared %d width %d faces %d\n' % (name, *sizes)]
    lines += [outlines(scheme, level, every) for level in range(levels + 1)]
    lines += [outlines(scheme, level, some) for level in (scheme.depth, scheme.depth + 1)]
    return ''.join(lines)

def anchors(name, flat):
    """The cells of places and the places of cells, of small levels and of the deepest."""
    lines = ['== cells of %s\n' % name]
    levels = [*range(SMALL + 1), DEEPEST, DEEPEST + 1]
    for level in levels:
        places = every(2, level) if level <= SMALL else some(2, level)
        found = [anchor_of(flat, level, place) for place in places]
        lines.append(row('cells %d' % level, level, found, shown_cell))
        back = [anchor and place_at(flat, level, *anchor) for anchor in found]
        lines.append(row('back %d' % level, level, back))
    for level in levels:
        reach = range(2**level + 1) if level <= SMALL else FAR
        for kind in range(3):
            found = [place_at(flat, level, x, y, kind) for y in reach for x in reach]
            lines.append(row('places %d %d' % (level, kind), level, found))
    return ''.join(lines)

# ---------------------------------------------------------------- the file
def flats():
    """The flat shapes."""
    text = ''
    for name, flat in (('line', LINE), ('square', SQUARE), ('triangle', TRIANGLE)):
        scheme = shape(flat)
        text += whole(name, scheme, 3) + deep(name, scheme) + plan(name, scheme, 3)
        text += '' if flat is LINE else anchors(name, flat)
    return text

def products():
    """Products of two flat shapes."""
    line, square, triangle = shape(LINE), shape(SQUARE), shape(TRIANGLE)
    text = ''
    for name, scheme, levels in (
            ('prism', times(triangle, line), 3), ('hexahedron', times(square, line), 3),
            ('line by line', times(line, line), 2), ('line by square', times(line, square), 2),
            ('square by square', times(square, square), 2),
            ('triangle by triangle', times(triangle, triangle), 2)):
        text += whole(name, scheme, levels) + deep(name, scheme)
    return text

def flat_limits():
    """Depth limits over flat shapes, with a level past each."""
    text = ''
    for name, scheme, levels in (
            ('line to 0', limited(shape(LINE), 0), 1),
            ('square to 1', limited(shape(SQUARE), 1), 2),
            ('triangle to 2', limited(shape(TRIANGLE), 2), 3)):
        text += whole(name, scheme, levels) + plan(name, scheme, levels)
    return text + deep('line to 30', limited(shape(LINE), 30))

def product_limits():
    """A depth limit over a product, and products of limited shapes, with a level past each."""
    line, square, triangle = shape(LINE), shape(SQUARE), shape(TRIANGLE)
    text = ''
    for name, scheme, levels in (
            ('prism to 1', limited(times(triangle, line), 1), 2),
            ('square to 2 by line to 1', times(limited(square, 2), limited(line, 1)), 2),
            ('line to 0 by triangle', times(limited(line, 0), triangle), 1)):
        text += whole(name, scheme, levels)
    return text + deep('square by triangle to 7', times(square, limited(triangle, 7)))

if __name__ == '__main__':
    check_rules()
    with open(os.path.join(ROOT, 'crates/tables/stdout'), 'w') as answers:
        answers.write(flats() + products() + flat_limits() + product_limits())
