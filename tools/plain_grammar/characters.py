"""Sets of characters as sorted lists of ranges, and their notation in sets and literals."""
import re
import unicodedata
from bisect import bisect_left, bisect_right
from functools import cache

LAST = 0x10FFFF
ALL = [(0, LAST)]
SURROGATES = (0xD800, 0xDFFF)
ESCAPES = {"n": 10, "r": 13, "t": 9, "b": 8, "f": 12, "\\": 92, "'": 39}
PRINTED = {10: "\\n", 13: "\\r", 9: "\\t", 8: "\\b", 12: "\\f", 92: "\\\\"}
PIECE = re.compile(r"\\u\{([0-9A-Fa-f]{1,6})\}|\\u([0-9A-Fa-f]{4})|\\([pP])\{([^}\n]*)\}|\\(.)|(.)", re.S)
CATEGORIES = {
    "letter": "L", "uppercase_letter": "Lu", "lowercase_letter": "Ll", "titlecase_letter": "Lt", "modifier_letter": "Lm",
    "other_letter": "Lo", "cased_letter": "LC", "mark": "M", "nonspacing_mark": "Mn", "spacing_mark": "Mc", "enclosing_mark": "Me",
    "number": "N", "decimal_number": "Nd", "digit": "Nd", "letter_number": "Nl", "other_number": "No", "punctuation": "P", "punct": "P",
    "connector_punctuation": "Pc", "dash_punctuation": "Pd", "open_punctuation": "Ps", "close_punctuation": "Pe",
    "initial_punctuation": "Pi", "final_punctuation": "Pf", "other_punctuation": "Po", "symbol": "S", "math_symbol": "Sm",
    "currency_symbol": "Sc", "modifier_symbol": "Sk", "other_symbol": "So", "separator": "Z", "space_separator": "Zs",
    "line_separator": "Zl", "paragraph_separator": "Zp", "other": "C", "control": "Cc", "cntrl": "Cc", "format": "Cf", "surrogate": "Cs",
    "private_use": "Co", "unassigned": "Cn",
}
PREDICATES = {
    "alphabetic": lambda c: c.isalpha() or unicodedata.category(c) == "Nl",
    "alpha": lambda c: c.isalpha() or unicodedata.category(c) == "Nl",
    "lowercase": str.islower,
    "uppercase": str.isupper,
    "white_space": lambda c: c.isspace() and not "\x1c" <= c <= "\x1f",
    "whitespace": lambda c: c.isspace() and not "\x1c" <= c <= "\x1f",
    "space": lambda c: c.isspace() and not "\x1c" <= c <= "\x1f",
    "xid_start": lambda c: c.isidentifier() and c != "_",
    "id_start": lambda c: c.isidentifier() and c != "_",
    "xid_continue": lambda c: ("a" + c).isidentifier(),
    "id_continue": lambda c: ("a" + c).isidentifier(),
    "ascii": lambda c: c < "\x80",
    "any": lambda c: True,
    "assigned": lambda c: unicodedata.category(c) != "Cn",
}


class NoCharacters(Exception):
    """A set or literal that names no characters, or a property that isn't known."""


def normal(ranges):
    """Sorted ranges without overlaps."""
    merged = []
    for first, last in sorted(ranges):
        if merged and first <= merged[-1][1] + 1:
            merged[-1] = (merged[-1][0], max(last, merged[-1][1]))
        elif first <= last:
            merged.append((first, last))
    return merged


def union(one, other):
    return normal([*one, *other])


def complement(ranges):
    made = []
    start = 0
    for first, last in ranges:
        if start < first:
            made.append((start, first - 1))
        start = last + 1
    return [*made, (start, LAST)] if start <= LAST else made


def without(one, other):
    return complement(union(complement(one), other))


def common(one, other):
    return complement(union(complement(one), complement(other)))


def matching(holds):
    """The ranges of all characters of which this holds."""
    made = []
    for code in range(LAST + 1):
        if holds(chr(code)):
            if made and made[-1][1] == code - 1:
                made[-1] = (made[-1][0], code)
            else:
                made.append((code, code))
    return made


@cache
def property_ranges(name):
    """The characters of a property, by Python's tables of Unicode."""
    plain = name.strip().lower().replace("-", "_").replace(" ", "_")
    for prefix in ("general_category=", "gc="):
        plain = plain.removeprefix(prefix)
    return matching(property_test(plain, name))


def property_test(plain, name):
    if plain in PREDICATES:
        return PREDICATES[plain]
    category = CATEGORIES.get(plain, plain.capitalize())
    if category in ("LC", "Lc", "L&"):
        return lambda c: unicodedata.category(c) in ("Lu", "Ll", "Lt")
    if category not in CATEGORIES.values():
        raise NoCharacters(f"the property {name} isn't known")
    return lambda c: unicodedata.category(c).startswith(category)


def pieces(text, escapes):
    """The characters of the inside of a set or literal: each its number or ranges, whether it is an escape, and
    whether Perses takes it so; these escapes are taken besides those of all texts."""
    for found in PIECE.finditer(text):
        braced, four, sign, name, escape, plain = found.groups()
        if braced or four:
            yield code_point(braced or four), True, True
        elif sign:
            ranges = property_ranges(name)
            yield (ranges if sign == "p" else complement(ranges)), True, False
        elif escape:
            yield ESCAPES.get(escape, ord(escape)), True, escape in ESCAPES or escape in escapes
        else:
            yield ord(plain), False, True


def code_point(digits):
    code = int(digits, 16)
    if code > LAST:
        raise NoCharacters(f"{digits} is no character")
    return code


def set_ranges(text):
    """The ranges of a set with its brackets, and whether Perses reads this set so too."""
    parts = list(pieces(text[1:-1], "]-"))
    ranges = []
    known = bool(parts)
    at = 0
    after_range = False
    while at < len(parts):
        value, escaped, taken = parts[at]
        known = known and taken
        if is_range(parts, at):
            last = parts[at + 2][0]
            known = known and parts[at + 2][2]
            if last < value:
                raise NoCharacters(f"the range in {text[:40]} is the wrong way round")
            ranges.append((value, last))
            at += 3
            after_range = True
            continue
        if value == 45 and not escaped and 0 < at < len(parts) - 1:
            known = False
        ranges += value if isinstance(value, list) else [(value, value)]
        at += 1
        after_range = False
    if not ranges:
        raise NoCharacters("a set without characters")
    return normal(ranges), known


def is_range(parts, at):
    """Whether a character, a `-` that isn't escaped, and another character are here."""
    if at + 2 >= len(parts):
        return False
    first, sign, last = parts[at : at + 3]
    return isinstance(first[0], int) and sign[:2] == (45, False) and isinstance(last[0], int)


def literal_codes(text):
    """The characters of a literal with its quotes, and whether Perses reads this literal so too."""
    codes = []
    known = True
    for value, _, taken in pieces(text[1:-1], ""):
        if isinstance(value, list):
            raise NoCharacters("a literal has no properties")
        known = known and taken and not SURROGATES[0] <= value <= SURROGATES[1]
        codes.append(value)
    if not codes:
        raise NoCharacters("a literal without characters")
    return with_pairs(codes), known


def with_pairs(codes):
    """Each pair of surrogates as the character that it stands for."""
    text = "".join(map(chr, codes)).encode("utf-16", "surrogatepass").decode("utf-16", "surrogatepass")
    return [ord(character) for character in text]


def printed_code(code, quoted):
    if code in PRINTED:
        return PRINTED[code]
    if chr(code) in quoted:
        return "\\" + chr(code)
    if 32 <= code < 127:
        return chr(code)
    return f"\\u{code:04X}" if code <= 0xFFFF else f"\\u{{{code:X}}}"


def printed_set(ranges):
    made = []
    for first, last in ranges:
        made.append(printed_code(first, "]-"))
        if last > first:
            made.append(("-" if last > first + 1 else "") + printed_code(last, "]-"))
    return "[" + "".join(made) + "]"


def printed_literal(codes):
    return "'" + "".join(printed_code(code, "'") for code in codes) + "'"


def other_cases(code):
    """The character in its other cases, where these are single characters."""
    character = chr(code)
    return {ord(other) for other in (character.lower(), character.upper()) if len(other) == 1} - {code}


@cache
def cased():
    """All characters that have another case, in order."""
    return [code for code in range(0x20000) if other_cases(code)]


def in_any_case(ranges):
    """The ranges with all characters of them in their other case."""
    made = list(ranges)
    for first, last in ranges:
        for code in cased()[bisect_left(cased(), first) : bisect_right(cased(), last)]:
            made += [(other, other) for other in other_cases(code)]
    return normal(made)


def unicode_version():
    return unicodedata.unidata_version
