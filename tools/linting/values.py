"""Depths and lengths of values."""


def depth_of(value):
    """The least depth of a value, and whether it has no other: below an empty list there may be any."""
    if not isinstance(value, list):
        return 0, True
    if not any(isinstance(it, list) for it in value):
        return 1, bool(value)
    found = {depth_of(it) for it in value}
    exact = [depth for depth, is_exact in found if is_exact]
    return 1 + max(depth for depth, _ in found), bool(exact)


def has_depth(value, depth):
    least, is_exact = depth_of(value)
    return least == depth if is_exact else least <= depth


# A shape says how long the lists of a value are, down to some level: a number for the lists of the last level, lists of shapes above
# it, None where nothing is known.

MOST_COUNTED = 200_000


def shape_of(value, levels):
    """The shape of a value down to so many levels."""
    if levels == 0 or not isinstance(value, list):
        return None
    if levels == 1:
        return len(value)
    return [shape_of(it, levels - 1) for it in value]


def top(shape, has, levels):
    """A shape that has so many levels, cut down to fewer."""
    if levels == 0 or shape is None:
        return None
    if has == levels:
        return shape
    if isinstance(shape, int):
        return shape if levels == 1 else [None] * shape
    return len(shape) if levels == 1 else [top(it, has - 1, levels - 1) for it in shape]


def below(outer, levels, inner, more):
    """The shape in which each element of one is of another."""
    if levels == 0:
        return inner
    if more == 0 or outer is None:
        return outer
    if isinstance(outer, int):
        return [inner] * outer
    return [below(it, levels - 1, inner, more) for it in outer]


def together(one, other):
    """The shape of two in a dot: places that both have."""
    if one is None or other is None:
        return None
    if isinstance(one, int) and isinstance(other, int):
        return min(one, other)
    if isinstance(one, int) or isinstance(other, int):
        return None
    return [together(a, b) for a, b in zip(one, other)]


def parting(one, other, place=()):
    """Where two shapes are first of different lengths: the place and the two lengths; None where that isn't known."""
    if one is None or other is None:
        return None
    lengths = [it if isinstance(it, int) else len(it) for it in (one, other)]
    if lengths[0] != lengths[1]:
        return place, *lengths
    if isinstance(one, int) or isinstance(other, int):
        return None
    for index, (a, b) in enumerate(zip(one, other)):
        found = parting(a, b, (*place, index))
        if found:
            return found
    return None
