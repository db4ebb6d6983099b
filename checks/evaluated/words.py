"""The words of the kit's library that definitions are made of, each by its sentence on the page (believed/library.py).

A value with a form is a tuple of the form's name and what it has; a list is a list, a record a dictionary, a truth
value a bool. A function that is passed takes one argument, and answers a function where there are more.
"""

NONE, ZERO = ("None",), 0


def some(value):
    return ("Some", value)


def at_most(xs, at):
    return some(xs[at]) if at < len(xs) else NONE


def first_place(test, xs):
    return next((at for at, x in enumerate(xs) if test(x)), len(xs))


def split(test, xs):
    parts = [[]]
    for x in xs:
        if test(x):
            parts.append([])
        else:
            parts[-1].append(x)
    return parts


def folded(f, value, xs):
    for x in xs:
        value = f(value)(x)
    return value


def signed(width, n):
    return n - 2 ** width if n >= 2 ** (width - 1) else n


def quotient(a, b):
    """Rounded towards 0."""
    return abs(a) // abs(b) * (1 if (a < 0) == (b < 0) else -1)


def number_of(digits, base):
    value = 0
    for digit in digits:
        value = value * base + digit
    return value


def hex_pairs(word):
    """Hex digits in pairs; a word that is none has an error, of which nobody asks more."""
    text = bytes(word).decode("latin-1")
    return ("Err", ("Digit",)) if len(text) % 2 or any(c not in "0123456789abcdefABCDEF" for c in text) \
        else ("Ok", list(bytes.fromhex(text)))


WORDS = {
    "true": True, "false": False, "zero": ZERO, "w32": 32, "w64": 64, "[]": [], "None": NONE,
    "suc": lambda n: n + 1, "pos": lambda n: n, "not": lambda a: not a, "codes": lambda text: text,
    "Some": some, "Ok": lambda value: ("Ok", value), "Err": lambda value: ("Err", value),
    "nat_lt": lambda a, b: a < b, "nat_le": lambda a, b: a <= b,
    "min": lambda a, b: min(a, b), "max": lambda a, b: max(a, b),
    "int_lt": lambda a, b: a < b, "int_div": quotient, "int_rem": lambda a, b: a - b * quotient(a, b),
    "int_shr": lambda a, by: a >> by, "cast_signed": signed, "cast_unsigned": lambda width, z: z % 2 ** width,
    "bit_and": lambda a, b: a & b, "bit_or": lambda a, b: a | b, "bit_xor": lambda a, b: a ^ b,
    "to_le_bytes": lambda width, n: list(n.to_bytes(width // 8, "little")),
    "from_be_bytes": lambda width, xs: number_of(xs, 256),
    "digits_value": lambda base, xs: number_of([x - 48 for x in xs], base),
    "decimal": lambda n: list(str(n).encode()),
    "length": lambda xs: len(xs), "sum": lambda xs: sum(xs), "map": lambda f, xs: [f(x) for x in xs],
    "filter": lambda test, xs: [x for x in xs if test(x)],
    "filter_map": lambda f, xs: [y[1] for y in map(f, xs) if y != NONE],
    "flat_map": lambda f, xs: [y for x in xs for y in f(x)],
    "fold": folded, "sum_by": lambda f, xs: sum(f(x) for x in xs), "replicate": lambda n, x: [x] * n,
    "range_with_len": lambda first, n: list(range(first, first + n)),
    "enumerate_from": lambda first, xs: [(first + at, x) for at, x in enumerate(xs)],
    "take": lambda n, xs: xs[:n], "drop": lambda n, xs: xs[n:], "remove": lambda xs, at: xs[:at] + xs[at + 1:],
    "slice_range": lambda xs, start, end: xs[start:end], "slice_split": split, "slice_get": at_most,
    "slice_index": lambda xs, at: xs[at] if at < len(xs) else 0,
    "slice_index_or": lambda xs, at, other: xs[at] if at < len(xs) else other,
    "slice_set": lambda xs, at, x: xs[:at] + [x] + xs[at + 1:] if at < len(xs) else xs,
    "find": lambda test, xs: at_most(xs, first_place(test, xs)),
    "position": lambda test, xs: some(first_place(test, xs)) if any(map(test, xs)) else NONE,
    "position_or_len": first_place,
    "list_all": lambda test, xs: all(map(test, xs)), "list_any": lambda test, xs: any(map(test, xs)),
    "is_some": lambda a: a != NONE, "is_none": lambda a: a == NONE,
    "unwrap_or": lambda a, other: other if a == NONE else a[1],
    "option_map": lambda f, a: a if a == NONE else some(f(a[1])),
    "option_map_or": lambda f, a, other: other if a == NONE else f(a[1]),
    "option_and_then": lambda f, a: a if a == NONE else f(a[1]),
    "option_or": lambda a, b: b if a == NONE else a, "option_to_list": lambda a: list(a[1:]),
    "result_ok": lambda r: some(r[1]) if r[0] == "Ok" else NONE,
    "result_err": lambda r: some(r[1]) if r[0] == "Err" else NONE,
    "result_unwrap_or": lambda r, other: r[1] if r[0] == "Ok" else other,
    "result_map_both": lambda f, g, r: (r[0], (f if r[0] == "Ok" else g)(r[1])),
    "string_bytes": lambda text: text, "bytes_eq": lambda a, b: a == b,
    "all_ascii_digits": lambda xs: all(48 <= x <= 57 for x in xs),
    "is_hex_digit": lambda x: 48 <= x <= 57 or 65 <= x <= 70 or 97 <= x <= 102, "decode_of": hex_pairs,
}
