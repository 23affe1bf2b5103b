"""Documents as a plain list of them by key, to which an index over folders is held."""
import random

LOW, HIGH = -(1 << 31), (1 << 31) - 1


def drawn(count, seed, most=3, wide=40):
    draw = random.Random(seed)
    return [[(draw.randint(-wide, wide), draw.randint(-wide, wide)) for _ in range(draw.randint(1, most))]
            for _ in range(count)]


def nearest_of(documents, k, at):
    found = sorted((min((x - at[0]) ** 2 + (y - at[1]) ** 2 for x, y in points), key)
                   for key, points in documents.items())
    return [(key, distance) for distance, key in found[:k]]


def box_of(documents, low, high):
    return sorted(key for key, points in documents.items()
                  if any(low[0] <= x <= high[0] and low[1] <= y <= high[1] for x, y in points))
