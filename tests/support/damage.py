"""Images that nobody meant: whole ones with bytes changed, cut, doubled, from a seed."""

from __future__ import annotations

import random
import struct
from collections.abc import Callable

Damage = Callable[[random.Random, bytearray], bytearray]

HEADER = 64
ROW_BYTES = (40, 24, 24, 16, 32, 32, 8, 16, 24, 8, 4, 4, 16, 1)

# Numbers that tend to lie on a border.
BORDERS = (0, 1, 2, 3, 4, 5, 127, 128, 255, 256, 4096, 65535, 65536, 2**31 - 1, 2**31, 2**32 - 1)


def place_in(dice: random.Random, image: bytearray) -> int:
    """A place behind the header, where there is one."""
    low = HEADER if len(image) > HEADER else 0
    return dice.randrange(low, len(image))


def change_bytes(dice: random.Random, image: bytearray) -> bytearray:
    """A few bytes become others."""
    for _ in range(dice.randint(1, 4)):
        image[place_in(dice, image)] = dice.randrange(256)
    return image


def flip_bits(dice: random.Random, image: bytearray) -> bytearray:
    """A few bits are turned."""
    for _ in range(dice.randint(1, 3)):
        image[place_in(dice, image)] ^= 1 << dice.randrange(8)
    return image


def change_number(dice: random.Random, image: bytearray) -> bytearray:
    """A number of four bytes becomes one near a border, or near itself."""
    place = (place_in(dice, image) & ~3) % max(len(image) - 3, 1)
    (old,) = struct.unpack_from("<I", image, place)
    new = dice.choice([*BORDERS, old + 1, old - 1, old * 2, old + dice.randint(-9, 9)])
    struct.pack_into("<I", image, place, new % 2**32)
    return image


def change_header(dice: random.Random, image: bytearray) -> bytearray:
    """A count of rows becomes another."""
    place = dice.randrange(4, HEADER, 4)
    (old,) = struct.unpack_from("<I", image, place)
    new = dice.choice([*BORDERS, old + 1, old - 1])
    struct.pack_into("<I", image, place, new % 2**32)
    return image


def set_length(image: bytearray) -> bytearray:
    """The image says its own length."""
    if len(image) >= 8:
        struct.pack_into("<I", image, 4, len(image))
    return image


def cut(dice: random.Random, image: bytearray) -> bytearray:
    """The end is missing; half of the time the length is that of what is left."""
    del image[dice.randrange(len(image)) :]
    return set_length(image) if dice.random() < 0.5 else image


def sections(image: bytearray) -> list[tuple[int, int]]:
    """Where each section begins and ends, as the header has it."""
    counts = struct.unpack_from("<14I", image, 8)
    found = []
    place = HEADER
    for count, size in zip(counts, ROW_BYTES, strict=True):
        found.append((place, place + count * size))
        place += count * size
    return found


def with_rows(dice: random.Random, image: bytearray, keep: int) -> bytearray:
    """A row of some section is doubled (`keep` 2) or taken out (0), with counts and length."""
    number = dice.choice([k for k, (low, high) in enumerate(sections(image)) if low < high])
    low, high = sections(image)[number]
    size = ROW_BYTES[number]
    row = low + dice.randrange((high - low) // size) * size
    image[row : row + size] = image[row : row + size] * keep
    (count,) = struct.unpack_from("<I", image, 8 + 4 * number)
    struct.pack_into("<I", image, 8 + 4 * number, count + keep - 1)
    return set_length(image)


def double_row(dice: random.Random, image: bytearray) -> bytearray:
    """A row stands twice."""
    return with_rows(dice, image, 2)


def drop_row(dice: random.Random, image: bytearray) -> bytearray:
    """A row is missing."""
    return with_rows(dice, image, 0)


def swap_rows(dice: random.Random, image: bytearray) -> bytearray:
    """Two rows of a section change places."""
    number = dice.choice(
        [k for k, (low, high) in enumerate(sections(image)) if high - low >= 2 * ROW_BYTES[k]]
    )
    low, high = sections(image)[number]
    size = ROW_BYTES[number]
    one, two = dice.sample(range((high - low) // size), 2)
    first, second = low + one * size, low + two * size
    kept = image[first : first + size]
    image[first : first + size] = image[second : second + size]
    image[second : second + size] = kept
    return image


def change_code(dice: random.Random, image: bytearray) -> bytearray:
    """An instruction becomes another, or gets another field."""
    low, high = sections(image)[12]
    row = low + dice.randrange((high - low) // 16) * 16
    which = dice.randrange(4)
    if which == 0:
        image[row] = dice.randrange(0x24)
    elif which == 1:
        image[row + 1] = dice.randrange(6)
    elif which == 2:
        struct.pack_into("<I", image, row + 4, dice.randrange((high - low) // 16 + 2))
    else:
        struct.pack_into("<Q", image, row + 8, dice.choice([0, 1, 2, 2**31, 2**63, 2**64 - 1]))
    return image


def double_piece(dice: random.Random, image: bytearray) -> bytearray:
    """A stretch of bytes stands twice."""
    low, high = sorted(dice.choices(range(len(image) + 1), k=2))
    high = min(high, low + 4096)
    image[low:low] = image[low:high]
    return set_length(image)


def double_all(_dice: random.Random, image: bytearray) -> bytearray:
    """The image stands twice, or its tail."""
    return image + image


DAMAGES: tuple[Damage, ...] = (
    change_bytes,
    flip_bits,
    change_number,
    change_header,
    cut,
    double_row,
    drop_row,
    swap_rows,
    change_code,
    double_piece,
    double_all,
)


def damaged(seed: int, bases: list[bytes]) -> tuple[str, bytes]:
    """The image of a seed, and what was done to it."""
    dice = random.Random(f"image {seed}")
    damage = DAMAGES[seed % len(DAMAGES)]
    image = damage(dice, bytearray(dice.choice(bases)))
    return damage.__name__, bytes(image)
