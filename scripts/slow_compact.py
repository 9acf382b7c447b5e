"""A plain and slow reader and compacter of class files, for expected values.

`compact(bytes)` gives the class without the constants that nothing names, or raises `Fault` where the
bytes are no class. `sites(bytes)` gives the places where numbers of constants stand, or raises `NoSites`
with the reason. Both take the release behind the bytes, which is 21 without it. It follows the tables of
the Java Virtual Machine Specification, chapters 4 and 6, and shares nothing with the program.
"""


class Fault(Exception):
    """The bytes are no class."""


class NoSites(Exception):
    """A part isn't known, or a number is that of no constant."""


# How many bytes follow a tag (a Utf8 has its own length), its rank, and where it names others.
SIZES = {3: 4, 4: 4, 5: 8, 6: 8, 12: 4, 15: 3, 17: 4, 18: 4}
SIZES |= {**dict.fromkeys([7, 8, 16, 19, 20], 2), **dict.fromkeys([9, 10, 11], 4)}
RANKS = {**dict.fromkeys([1, 3, 4, 5, 6], 0), **dict.fromkeys([7, 8, 12, 16, 19, 20], 1)}
RANKS |= {**dict.fromkeys([9, 10, 11, 17, 18], 2), 15: 3}
NAMES = {**dict.fromkeys([7, 8, 16, 19, 20], [0]), **dict.fromkeys([9, 10, 11, 12], [0, 2])}
NAMES |= {15: [1], 17: [2], 18: [2]}

# What parts consist of: `.` a byte; `s` a site; `o` a site where 0 means none; `b` a site of one byte;
# `1(..)` and `2(..)` a count of one or two bytes and so many of what is in the brackets; `F` a frame;
# `T` a type; `*` any bytes; `C` a Code; `W` what stands behind `wide`; `t` and `l` the two switches.
ANY = {"Deprecated": "*", "Synthetic": "*"}
VARIABLES = "2(....ss..)"
ATTRIBUTES = {
    "class": {
        "Signature": "s", "SourceFile": "s", "NestHost": "s", "NestMembers": "2(s)", "EnclosingMethod": "so",
        "InnerClasses": "2(soo..)", "BootstrapMethods": "2(s2(s))", "SourceDebugExtension": "*", **ANY,
    },
    "field": {"ConstantValue": "s", "Signature": "s", **ANY},
    "method": {"Code": "C", "Signature": "s", "Exceptions": "2(s)", "MethodParameters": "1(o..)", **ANY},
    "Code": {
        "LineNumberTable": "*", "LocalVariableTable": VARIABLES, "LocalVariableTypeTable": VARIABLES,
        "StackMapTable": "2(F)",
    },
}
TYPES = {**{t: "" for t in range(7)}, 7: "s", 8: ".."}
FRAMES = {
    **{t: "" for t in range(64)}, **{t: "T" for t in range(64, 128)}, 247: "..T",
    **{t: ".." for t in range(248, 252)}, 252: "..T", 253: "..TT", 254: "..TTT", 255: "..2(T)2(T)",
}
INSTRUCTIONS = {
    **{op: "" for op in range(202)}, 18: "b",
    **{op: "s" for op in [19, 20, *range(178, 185), 187, 189, 192, 193]}, 185: "s..", 186: "s..", 197: "s.",
    **{op: "." for op in [16, *range(21, 26), *range(54, 59), 169, 188]},
    **{op: ".." for op in [17, 132, *range(153, 169), 198, 199]}, 200: "....", 201: "....",
    170: "t", 171: "l", 196: "W",
}
WIDE = {**{op: ".." for op in [*range(21, 26), *range(54, 59), 169]}, 132: "...."}


class Reader:
    """Bytes from a place on. What doesn't fit raises what `missing` gives for its place."""

    def __init__(self, data, at, end, missing):
        self.data, self.at, self.end, self.missing = data, at, end, missing

    def take(self, size, place=None):
        if size > self.end - self.at:
            raise self.missing(self.at if place is None else place)
        self.at += size
        return self.data[self.at - size : self.at]

    def number(self, size, place=None):
        return int.from_bytes(self.take(size, place), "big")

    def signed(self):
        return int.from_bytes(self.take(4), "big", signed=True)

    def inner(self, size, missing=None):
        place = self.at
        self.take(size)
        return Reader(self.data, place, self.at, missing or self.missing)


def read_pool(r):
    """The constants by their numbers: tag, place of the body, body. None for 0 and for a hole."""
    place = r.at
    count = r.number(2)
    if count == 0:
        raise Fault(f"Index {place}")
    pool = [None]
    while len(pool) < count:
        place = r.at
        tag = r.number(1)
        if tag != 1 and tag not in SIZES:
            raise Fault(f"Tag {place}")
        if tag in (5, 6) and len(pool) + 2 > count:
            raise Fault(f"Index {place}")
        size = r.number(2, place + 1) if tag == 1 else SIZES[tag]
        at = r.at
        pool.append((tag, at, r.take(size, place + 1)))
        if tag in (5, 6):
            pool.append(None)
    return pool


def read_attributes(r, pool, where):
    found = []
    for _ in range(r.number(2)):
        place = r.at
        name = r.number(2)
        if not (0 < name < len(pool) and pool[name] and pool[name][0] == 1):
            raise Fault(f"Index {place}")
        length_at = r.at
        body = r.inner(r.number(4))
        text = pool[name][2].decode("latin-1")
        if (where, text) == ("method", "Code"):
            body = read_code(body, pool, length_at)
        found.append((place, text, body))
    return found


def read_code(body, pool, length_at):
    def wrong(_place):
        return Fault(f"CodeLength {length_at}")

    r = Reader(body.data, body.at, body.end, wrong)
    r.take(4)
    code = r.inner(r.number(4))
    count = r.number(2)
    handlers = r.inner(8 * count)
    attributes = read_attributes(r, pool, "Code")
    if r.at != r.end:
        raise wrong(r.at)
    return code, count, handlers, attributes


def read(data, release):
    """The pool, where it ends, the sites outside of attributes, and the attributes by their place."""
    r = Reader(data, 0, len(data), lambda place: Fault(f"Short {place}"))
    if r.take(4) != b"\xca\xfe\xba\xbe":
        raise Fault("Magic")
    r.take(2)
    major = r.number(2)
    if not 45 <= major <= 44 + release:
        raise Fault(f"Version {major}")
    pool = read_pool(r)
    pool_end = r.at
    r.take(2)
    plain = [(r.at, 2, False), (r.at + 2, 2, True)]
    r.number(2), r.number(2)
    for _ in range(r.number(2)):
        plain.append((r.at, 2, False))
        r.number(2)
    held = []
    for where in ("field", "method"):
        for _ in range(r.number(2)):
            r.number(2)
            plain += [(r.at, 2, False), (r.at + 2, 2, False)]
            r.number(2), r.number(2)
            held += [(where, a) for a in read_attributes(r, pool, where)]
    held += [("class", a) for a in read_attributes(r, pool, "class")]
    if r.at != r.end:
        raise Fault(f"Rest {r.at}")
    return pool, pool_end, plain, held


def one_of(table, r, found, start, what):
    number = r.number(1)
    if number not in table:
        raise NoSites(f"{number} is no {what}")
    walk(table[number], r, found, start)


def walk_switch(kind, r, start):
    r.take(-(r.at - start) % 4)
    r.take(4)
    low = r.signed()
    if kind == "l":
        rows, size = low, 8
    else:
        rows, size = r.signed() - low + 1, 4
    if rows < (1 if kind == "t" else 0):
        raise NoSites("a switch of a negative number of cases")
    r.take(size * rows)


def walk(form, r, found, start=0):
    """Walks over what a form says, and notes each site: its place, its size, whether 0 means none."""
    at = 0
    while at < len(form):
        sign = form[at]
        at += 1
        if sign in "12":
            depth, end = 1, at + 1
            while depth:
                depth += {"(": 1, ")": -1}.get(form[end], 0)
                end += 1
            for _ in range(r.number(int(sign))):
                walk(form[at + 1 : end - 1], r, found, start)
            at = end
        elif sign in "sob":
            found.append((r.at, 1 if sign == "b" else 2, sign == "o"))
            r.take(found[-1][1])
        elif sign == ".":
            r.take(1)
        elif sign == "*":
            r.take(r.end - r.at)
        elif sign in "tl":
            walk_switch(sign, r, start)
        else:
            tables = {"F": (FRAMES, "frame"), "T": (TYPES, "type"), "W": (WIDE, "wide instruction")}
            one_of(tables[sign][0], r, found, start, tables[sign][1])


def whole(form, body, found):
    r = Reader(body.data, body.at, body.end, lambda place: NoSites("a body that ends too soon"))
    if form == "instructions":
        while r.at < r.end:
            one_of(INSTRUCTIONS, r, found, body.at, "instruction")
    else:
        walk(form, r, found)
    if r.at != r.end:
        raise NoSites("a body with bytes left")


def walk_attribute(where, attribute, found):
    place, name, body = attribute
    if name not in ATTRIBUTES[where]:
        raise NoSites(f"{name} in a {where}")
    found.append((place, 2, False))
    if ATTRIBUTES[where][name] != "C":
        whole(ATTRIBUTES[where][name], body, found)
        return
    code, count, handlers, attributes = body
    whole("instructions", code, found)
    whole("......o" * count, handlers, found)
    for inner in attributes:
        walk_attribute("Code", inner, found)


def named_by(constant):
    tag, _, body = constant
    return [number_at(body, at, 2) for at in NAMES.get(tag, [])]


def number_at(data, place, size):
    return int.from_bytes(data[place : place + size], "big")


def is_constant(pool, number):
    return number < len(pool) and pool[number] is not None


def sites(data, release=21):
    """The sites, rising: place, size, whether 0 means none."""
    pool, _, plain, held = read(data, release)
    found = list(plain)
    for where, attribute in held:
        walk_attribute(where, attribute, found)
    for place, size, optional in found:
        number = number_at(data, place, size)
        if not (is_constant(pool, number) or number == 0 and optional):
            raise NoSites(f"{number} at a site")
    for constant in pool:
        for number in named_by(constant) if constant else []:
            if not is_constant(pool, number) or RANKS[pool[number][0]] >= RANKS[constant[0]]:
                raise NoSites(f"a constant of the tag {constant[0]} that names {number}")
    return sorted(found)


def live(data, pool, found):
    """The numbers of the constants that a site names, or another constant that is named."""
    reached = set()
    left = [number_at(data, place, size) for place, size, _ in found]
    while left:
        number = left.pop()
        if number and number not in reached:
            reached.add(number)
            left += named_by(pool[number])
    return reached


def renumbered(data, found, new):
    """The bytes, each site with the new number."""
    text = bytearray(data)
    for place, size, _ in found:
        text[place : place + size] = new[number_at(data, place, size)].to_bytes(size, "big")
    return bytes(text)


def compact(data, release=21):
    """The class without the constants that nothing names, the others numbered anew in their order."""
    pool, pool_end, _, _ = read(data, release)
    try:
        found = sites(data, release)
    except NoSites:
        return data
    kept = live(data, pool, found)
    new, numbers = {0: 0}, 1
    for number in sorted(kept):
        new[number] = numbers
        numbers += 2 if pool[number][0] in (5, 6) else 1
    text = data[:8] + numbers.to_bytes(2, "big")
    for number in sorted(kept):
        tag, _, body = pool[number]
        body = renumbered(body, [(at, 2, False) for at in NAMES.get(tag, [])], new)
        text += bytes([tag]) + (len(body).to_bytes(2, "big") if tag == 1 else b"") + body
    return text + renumbered(data, found, new)[pool_end:]
