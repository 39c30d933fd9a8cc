"""The opcodes that a rule may have: sizes, sources, result, and what each means over whole numbers (docs/SEMANTICS.md, "Opcodes").

Nothing here knows of circuits or rules.
"""
from collections import namedtuple

SIZES = (1, 8, 16, 32, 64)
WHOLE = SIZES[1:]

# The sizes of what is unsized; the size of each source and of the result, None for the unsized ones; whether the two sources may be swapped; the value
# before it is taken modulo 2 to the result's bits, from the unsized size and the sources as unsigned numbers.
Row = namedtuple("Row", "sizes sources result swaps value")


def signed(x, w):
    """The signed reading of a word of w bits."""
    return x - (1 << w) if x >> (w - 1) else x


def towards_zero(x, y):
    return 0 if y == 0 else abs(x) // abs(y) * (1 if (x < 0) == (y < 0) else -1)


def by_signs(value):
    """A value of the two signed readings alone."""
    return lambda w, x, y: value(signed(x, w), signed(y, w))


def by_numbers(value):
    """A value of the two unsigned readings alone."""
    return lambda w, x, y: value(x, y)


def held(value, least, most):
    return max(least, min(most, value))


def held_signed(value, w):
    return held(value, -(1 << (w - 1)), (1 << (w - 1)) - 1)


def turned(w, x, k):
    return (x << k) | (x >> (w - k))


def lowest(x):
    """The place of the lowest 1, or -1."""
    return (x & -x).bit_length() - 1


def inserted(m, i, base):
    return base if m == 0 else (i << lowest(m)) & m | base & ~m


def field(x, o, n):
    return 0 if n % 32 == 0 else (x >> o % 32) % (1 << n % 32)


def signed_field(x, o, n):
    o, n = o % 32, n % 32
    if n == 0:
        return 0
    if o + n < 32:
        return signed((x >> o) % (1 << n), n)
    return signed(x, 32) >> o


def piece(x, y, n):
    """Piece y of n bits, counted from 0, of a number that may be below 0; past 64 bits nothing changes any more."""
    return (x >> min(n * y, 64)) % (1 << n)


OPCODES = {}


def row(names, sizes, shape, value, swaps=False):
    """Opcodes with one row; a shape is written as `U 32, U`."""
    sources, _, result = shape.partition(", ")
    read = lambda text: None if text == "U" else int(text)
    for name in names.split():
        OPCODES[name] = Row(sizes, tuple(map(read, sources.split())), read(result), swaps, value)


TWO, ONE, SHIFT, COMPARE = "U U, U", "U, U", "U 32, U", "U U, 1"

row("iadd", WHOLE, TWO, lambda w, x, y: x + y, True)
row("isub", WHOLE, TWO, lambda w, x, y: x - y)
row("imul", WHOLE, TWO, lambda w, x, y: x * y, True)
row("ineg", WHOLE, ONE, lambda w, x: -x)
row("iabs", WHOLE, ONE, lambda w, x: abs(signed(x, w)))
row("idiv", WHOLE, TWO, by_signs(towards_zero))
row("udiv", WHOLE, TWO, by_numbers(lambda x, y: x // y if y else 0))
row("irem", WHOLE, TWO, by_signs(lambda x, y: x - y * towards_zero(x, y) if y else 0))
row("imod", WHOLE, TWO, by_signs(lambda x, y: x % y if y else 0))
row("umod", WHOLE, TWO, by_numbers(lambda x, y: x % y if y else 0))
row("ishl", WHOLE, SHIFT, lambda w, x, y: x << y % w)
row("ishr", WHOLE, SHIFT, lambda w, x, y: signed(x, w) >> y % w)
row("ushr", WHOLE, SHIFT, lambda w, x, y: x >> y % w)
row("urol", WHOLE, SHIFT, lambda w, x, y: turned(w, x, y % w))
row("uror", WHOLE, SHIFT, lambda w, x, y: turned(w, x, -y % w))
row("inot", SIZES, ONE, lambda w, x: ~x)
row("iand", SIZES, TWO, lambda w, x, y: x & y, True)
row("ior", SIZES, TWO, lambda w, x, y: x | y, True)
row("ixor", SIZES, TWO, lambda w, x, y: x ^ y, True)
row("ilt", WHOLE, COMPARE, by_signs(lambda x, y: int(x < y)))
row("ige", WHOLE, COMPARE, by_signs(lambda x, y: int(x >= y)))
row("ult", WHOLE, COMPARE, by_numbers(lambda x, y: int(x < y)))
row("uge", WHOLE, COMPARE, by_numbers(lambda x, y: int(x >= y)))
row("ieq", SIZES, COMPARE, by_numbers(lambda x, y: int(x == y)), True)
row("ine", SIZES, COMPARE, by_numbers(lambda x, y: int(x != y)), True)
row("bcsel", SIZES, "1 U U, U", lambda w, b, x, y: x if b else y)
row("imin", WHOLE, TWO, by_signs(min), True)
row("imax", WHOLE, TWO, by_signs(max), True)
row("umin", WHOLE, TWO, by_numbers(min), True)
row("umax", WHOLE, TWO, by_numbers(max), True)
row("uadd_carry", WHOLE, TWO, lambda w, x, y: x + y >> w, True)
row("usub_borrow", WHOLE, TWO, by_numbers(lambda x, y: int(x < y)))
row("iadd_sat", WHOLE, TWO, lambda w, x, y: held_signed(signed(x, w) + signed(y, w), w), True)
row("isub_sat", WHOLE, TWO, lambda w, x, y: held_signed(signed(x, w) - signed(y, w), w))
row("uadd_sat", WHOLE, TWO, lambda w, x, y: min(x + y, (1 << w) - 1), True)
row("usub_sat", WHOLE, TWO, by_numbers(lambda x, y: max(x - y, 0)))
row("uhadd", WHOLE, TWO, by_numbers(lambda x, y: x + y >> 1), True)
row("ihadd", WHOLE, TWO, by_signs(lambda x, y: x + y >> 1), True)
row("urhadd", WHOLE, TWO, by_numbers(lambda x, y: x + y + 1 >> 1), True)
row("irhadd", WHOLE, TWO, by_signs(lambda x, y: x + y + 1 >> 1), True)
row("uabs_isub", WHOLE, TWO, by_signs(lambda x, y: abs(x - y)))
row("uabs_usub", WHOLE, TWO, by_numbers(lambda x, y: abs(x - y)))
row("imul_high", WHOLE, TWO, lambda w, x, y: signed(x, w) * signed(y, w) >> w, True)
row("umul_high", WHOLE, TWO, lambda w, x, y: x * y >> w, True)
row("imul_2x32_64", (), "32 32, 64", lambda w, x, y: signed(x, 32) * signed(y, 32), True)
row("umul_2x32_64", (), "32 32, 64", lambda w, x, y: x * y, True)
row("bit_count", WHOLE, "U, 32", lambda w, x: bin(x).count("1"))
row("ufind_msb", WHOLE, "U, 32", lambda w, x: x.bit_length() - 1)
row("find_lsb", WHOLE, "U, 32", lambda w, x: lowest(x))
row("ifind_msb", (), "32, 32", lambda w, x: (x ^ -(x >> 31) % (1 << 32)).bit_length() - 1)
row("bitfield_reverse", (), "32, 32", lambda w, x: int(f"{x:032b}"[::-1], 2))
row("bfm", (), "32 32, 32", lambda w, x, y: (1 << x % 32) - 1 << y % 32)
row("bfi", (), "32 32 32, 32", lambda w, m, i, base: inserted(m, i, base))
row("ubfe", (), "32 32 32, 32", lambda w, x, o, n: field(x, o, n))
row("ibfe", (), "32 32 32, 32", lambda w, x, o, n: signed_field(x, o, n))
row("bitfield_select", WHOLE, "U U U, U", lambda w, m, a, b: m & a | ~m & b)
for _bits in WHOLE:
    row(f"i2i{_bits}", WHOLE, f"U, {_bits}", lambda w, x: signed(x, w))
    row(f"u2u{_bits}", WHOLE, f"U, {_bits}", lambda w, x: x)
    row(f"b2i{_bits}", (), f"1, {_bits}", lambda w, x: x)
row("pack_64_2x32_split", (), "32 32, 64", lambda w, x, y: x + (y << 32))
row("unpack_64_2x32_split_x", (), "64, 32", lambda w, x: x)
row("unpack_64_2x32_split_y", (), "64, 32", lambda w, x: x >> 32)
row("pack_32_2x16_split", (), "16 16, 32", lambda w, x, y: x + (y << 16))
row("unpack_32_2x16_split_x", (), "32, 16", lambda w, x: x)
row("unpack_32_2x16_split_y", (), "32, 16", lambda w, x: x >> 16)
row("extract_u8", WHOLE, TWO, lambda w, x, y: piece(x, y, 8))
row("extract_u16", WHOLE, TWO, lambda w, x, y: piece(x, y, 16))
row("extract_i8", WHOLE, TWO, lambda w, x, y: signed(piece(signed(x, w), y, 8), 8))
row("extract_i16", WHOLE, TWO, lambda w, x, y: signed(piece(signed(x, w), y, 16), 16))

# Opcodes that no rule may have, with the number of their sources.
LEFT_OUT = {"mov": 1, "vec2": 2, "vec3": 3, "vec4": 4}
LEFT_OUT.update({f"{name}{count}": 2 for name in ("ball_iequal", "bany_inequal") for count in (2, 3, 4)})


def size_of_unsized(opcode, sources, result):
    """The one size of the unsized sources and result, or None where all are fixed."""
    its = OPCODES[opcode]
    for want, size in zip(its.sources + (its.result,), tuple(sources) + (result,)):
        if want is None:
            return size
    return None


def meaning(opcode, unsized, result, words):
    """The word that an opcode makes of words: at this unsized size, with this size of the result."""
    return OPCODES[opcode].value(unsized, *words) % (1 << result)


CONDITIONS = {
    "is_pos_power_of_two": lambda w, x: 0 < x < 1 << (w - 1) and x & (x - 1) == 0,
    "is_neg_power_of_two": lambda w, x: x >> (w - 1) == 1 and -signed(x, w) & (-signed(x, w) - 1) == 0,
    "is_unsigned_multiple_of_4": lambda w, x: x % 4 == 0,
    "is_upper_half_zero": lambda w, x: w > 1 and x >> w // 2 == 0,
    "is_lower_half_zero": lambda w, x: w > 1 and x % (1 << w // 2) == 0,
    # What is asked of the value and not of the word counts as met where it is judged whether a rule holds.
    "is_not_const": lambda w, x: True,
    "is_used_once": lambda w, x: True,
}
