"""Rows for the verbs of crates/jm_class_cases: classes as bytes, and the answers that are wanted, as the Java Virtual
Machine Specification, chapter 4, and the rules of this project give them.
"""

# No constant, member or attribute.
SMALLEST = bytes.fromhex(
    "CAFEBABE0000003400010000000000000000000000000000"
)
# One Long, which takes two numbers.
LONG = bytes.fromhex(
    "CAFEBABE0000003400030501020304050607080000000000000000000000000000"
)
# One text, of one byte.
TEXT = bytes.fromhex(
    "CAFEBABE000000340002010001610000000000000000000000000000"
)
# A class of one method with a Code, which has a line number table, and with a source file.
GENERATED = bytes.fromhex(
    "CAFEBABE0000003D000D01000D6D3030302F70302F43303030300700010100106A6176612F6C616E672F4F626A656374"
    "0700030100017601000328294A010004436F646501000F4C696E654E756D6265725461626C6501000A536F7572636546"
    "696C6501000A43303030302E6A6176610514057B7EF767814F0021000200040000000000010009000500060001000700"
    "00001C000200000000000414000BAD000000010008000000060001000000010001000900000002000A"
)
# The same class without the line number table and the source file.
STRIPPED = bytes.fromhex(
    "CAFEBABE0000003D000D01000D6D3030302F70302F43303030300700010100106A6176612F6C616E672F4F626A656374"
    "0700030100017601000328294A010004436F646501000F4C696E654E756D6265725461626C6501000A536F7572636546"
    "696C6501000A43303030302E6A6176610514057B7EF767814F0021000200040000000000010009000500060001000700"
    "000010000200000000000414000BAD000000000000"
)
# Debug information in each place, and attributes of its names in other places.
WITH_DEBUG = bytes.fromhex(
    "CAFEBABE0000003D000B010004436F646501000F4C696E654E756D6265725461626C6501000A536F7572636546696C65"
    "01000D537461636B4D61705461626C650100124C6F63616C5661726961626C655461626C650100164C6F63616C566172"
    "6961626C65547970655461626C65010014536F757263654465627567457874656E73696F6E0501020304050607080100"
    "0000210000000000020007000800010021000A000A0003000300000002000A0002000000010700010000000000030021"
    "000A000A00000021000A000A00020001000000380001000200000001B100010001020304050607000500020000000201"
    "02000400000001090005000000000006000000010300030000000105000200000001060021000A000A00020001000000"
    "0C000100020000000000000000000100000013000100020000000100000000010002000000000004000300000002000A"
    "000A0000000104000700000001FF00020000000108"
)
# The same class without it.
WITHOUT_DEBUG = bytes.fromhex(
    "CAFEBABE0000003D000B010004436F646501000F4C696E654E756D6265725461626C6501000A536F7572636546696C65"
    "01000D537461636B4D61705461626C650100124C6F63616C5661726961626C655461626C650100164C6F63616C566172"
    "6961626C65547970655461626C65010014536F757263654465627567457874656E73696F6E0501020304050607080100"
    "0000210000000000020007000800010021000A000A0003000300000002000A0002000000010700010000000000030021"
    "000A000A00000021000A000A00020001000000230001000200000001B100010001020304050607000200040000000109"
    "00030000000105000200000001060021000A000A000200010000000C00010002000000000000000000010000000D0001"
    "00020000000100000000000002000A000000010400020000000108"
)
# A class with a source file.
WITH_SOURCE = bytes.fromhex(
    "CAFEBABE00000034000201000A536F7572636546696C6500000000000000000000000000010001000000020001"
)
# The same class without it.
WITHOUT_SOURCE = bytes.fromhex(
    "CAFEBABE00000034000201000A536F7572636546696C650000000000000000000000000000"
)
# A module `a` that requires nothing.
ALONE = bytes.fromhex(
    "CAFEBABE00000035000601000B6D6F64756C652D696E666F0700010100064D6F64756C65010001611300048000000200"
    "00000000000000000100030000001000050000000000000000000000000000"
)
# A module `a` that requires `b` and `java.base`, which is mandated.
TWO = bytes.fromhex(
    "CAFEBABE00000035000A01000B6D6F64756C652D696E666F0700010100064D6F64756C65010001611300040100016213"
    "00060100096A6176612E62617365130008800000020000000000000000000100030000001C0005000000000002000700"
    "0000000009800000000000000000000000"
)


def changed(text, *stretches):
    """The bytes with others in place of those from a first place up to and without a second one, the last first."""
    for start, end, put in stretches:
        text = text[:start] + bytes(put) + text[end:]
    return text


# A class, a stretch of it, what is put in its place, and the fault that comes of it.
CLASS_FAULTS = [
    ("another first byte", SMALLEST, (0, 1, [0]), "Magic"),
    ("three bytes", SMALLEST, (3, 24, []), "Short 0"),
    ("the last byte missing", SMALLEST, (23, 24, []), "Short 22"),
    ("a byte behind the class", SMALLEST, (24, 24, [0]), "Rest 24"),
    ("major 44", SMALLEST, (7, 8, [44]), "Version 44"),
    ("major 66", SMALLEST, (7, 8, [66]), "Version 66"),
    ("an end behind the count of constants", SMALLEST, (8, 24, [255, 255]), "Short 10"),
    ("a count of constants of 0", SMALLEST, (9, 10, [0]), "Index 8"),
    ("an end behind a count of constants of 0", SMALLEST, (8, 24, [0, 0]), "Index 8"),
    ("a constant of the tag 0", SMALLEST, (9, 10, [2]), "Tag 10"),
    *[(f"a constant of the tag {tag}", LONG, (10, 11, [tag]), "Tag 10") for tag in (2, 13, 14, 21, 255)],
    ("a Long where there is one number", LONG, (9, 10, [2]), "Index 10"),
    ("an interface in place of a count", SMALLEST, (17, 18, [1]), "Short 24"),
    ("a field that ends in its name", SMALLEST, (19, 20, [1]), "Short 24"),
    ("more fields than there are bytes", SMALLEST, (18, 20, [255, 255]), "Short 24"),
    ("an attribute that isn't there", SMALLEST, (23, 24, [1]), "Short 24"),
    ("an attribute of no name, longer than any file", SMALLEST, (23, 24, [1, 0, 1, 255, 255, 255, 255]), "Index 24"),
    ("an attribute longer than any file", TEXT, (26, 28, [0, 1, 0, 1, 255, 255, 255, 255]), "Short 34"),
    ("a generated class, another first byte", GENERATED, (0, 1, [0]), "Magic"),
    ("a generated class, major 44", GENERATED, (7, 8, [44]), "Version 44"),
    ("a Long without its second number", GENERATED, (9, 10, [12]), "Index 112"),
    ("an attribute of a method named past the pool", GENERATED, (142, 143, [13]), "Index 141"),
    ("a Code that is longer than the file", GENERATED, (143, 144, [1]), "Short 147"),
    ("a Code longer than any file", GENERATED, (143, 147, [255, 255, 255, 255]), "Short 147"),
    ("a Code whose length is too small by 1", GENERATED, (146, 147, [27]), "CodeLength 143"),
    ("a Code whose length is too great by 1", GENERATED, (146, 147, [29]), "CodeLength 143"),
    # The length and the bytes agree, so that a reader that trusts the length finds the next part.
    ("a Code one byte longer than its parts", GENERATED, (146, 175, [29, *GENERATED[147:175], 0]), "CodeLength 143"),
    ("a Code of no attribute, one byte longer than its parts", STRIPPED, (146, 163, [17, *STRIPPED[147:163], 0]),
     "CodeLength 143"),
    ("instructions whose length is too great by 1", GENERATED, (154, 155, [5]), "Index 164"),
    ("an attribute of a Code named by a Long", GENERATED, (164, 165, [11]), "Index 163"),
    ("an attribute behind a count of 0", GENERATED, (176, 177, [0]), "Rest 177"),
    ("an attribute of the class named by the number 0", GENERATED, (178, 179, [0]), "Index 177"),
]

GENERATED_TEXTS = (
    'text 1 "m000/p0/C0000"; text 3 "java/lang/Object"; text 5 "v"; text 6 "()J"; text 7 "Code"; '
    'text 8 "LineNumberTable"; text 9 "SourceFile"; text 10 "C0000.java"'
)
DEBUG_TEXTS = (
    'text 1 "Code"; text 2 "LineNumberTable"; text 3 "SourceFile"; text 4 "StackMapTable"; '
    'text 5 "LocalVariableTable"; text 6 "LocalVariableTypeTable"; text 7 "SourceDebugExtension"; text 10 ""'
)

# Classes, what is left of them without their debug information, and their parts.
CLASSES = [
    ("the smallest", SMALLEST, SMALLEST, "constants 0, interfaces 0, fields 0, methods 0, attributes 0"),
    ("of one Long", LONG, LONG, "constants 2, interfaces 0, fields 0, methods 0, attributes 0"),
    ("a generated one", GENERATED, STRIPPED,
     "constants 12, interfaces 0, fields 0, methods 1, attributes 1; method with 1 attributes; "
     "code 14000BAD with 1 attributes; " + GENERATED_TEXTS),
    ("a generated one, stripped", STRIPPED, STRIPPED,
     "constants 12, interfaces 0, fields 0, methods 1, attributes 0; method with 1 attributes; "
     "code 14000BAD with 0 attributes; " + GENERATED_TEXTS),
    ("with debug information", WITH_DEBUG, WITHOUT_DEBUG,
     "constants 10, interfaces 2, fields 1, methods 3, attributes 4; field with 3 attributes; "
     "method with 0 attributes; method with 2 attributes; code B1 with 5 attributes; "
     "method with 2 attributes; code  with 0 attributes; code 00 with 1 attributes; " + DEBUG_TEXTS),
    ("without debug information", WITHOUT_DEBUG, WITHOUT_DEBUG,
     "constants 10, interfaces 2, fields 1, methods 3, attributes 2; field with 3 attributes; "
     "method with 0 attributes; method with 2 attributes; code B1 with 2 attributes; "
     "method with 2 attributes; code  with 0 attributes; code 00 with 0 attributes; " + DEBUG_TEXTS),
    ("with a source file", WITH_SOURCE, WITHOUT_SOURCE,
     'constants 1, interfaces 0, fields 0, methods 0, attributes 1; text 1 "SourceFile"'),
    ("without a source file", WITHOUT_SOURCE, WITHOUT_SOURCE,
     'constants 1, interfaces 0, fields 0, methods 0, attributes 0; text 1 "SourceFile"'),
]

# The name of the attribute that tells a main class, with its length, and the attribute; constant 2 is a class.
MAIN, TWO_ATTRIBUTES = (11, 24, b"\0\x0fModuleMainClass"), (55, 57, b"\0\2")

# Modules, and what they say or their fault.
MODULES = [
    ("the module", ALONE, "a"),
    ("another flag", changed(ALONE, (43, 44, b"\0")), "Info NotModule"),
    ("version 52", changed(ALONE, (7, 8, b"\x34")), "Info OldVersion 52"),
    ("an attribute of another name", changed(ALONE, (30, 31, b"\x6e")), "Info NoModule"),
    ("a name that is no module", changed(ALONE, (64, 65, b"\4")), "Info Index 0"),
    ("a version that is no text", changed(ALONE, (68, 69, b"\5")), "Info Index 4"),
    ("a provided service that isn't there", changed(ALONE, (78, 79, b"\1")), "Info Short 16"),
    ("a name that isn't legal", changed(ALONE, (39, 40, b"\x2c")), "Info Name 0"),
    ("two attributes", changed(ALONE, (79, 79, b"\0\3\0\0\0\0"), TWO_ATTRIBUTES), "Info TwoModule"),
    ("two bytes too many", changed(ALONE, (79, 79, b"\0\0"), (62, 63, b"\x12")), "Info Rest 16"),
    ("a main class that is none",
     changed(ALONE, (79, 79, b"\0\1\0\0\0\2\0\3"), TWO_ATTRIBUTES, MAIN), "Info Main"),
    ("a main class",
     changed(ALONE, (79, 79, b"\0\1\0\0\0\2\0\2"), TWO_ATTRIBUTES, MAIN), "a; main ModuleMainClass"),
    ("a module that requires two", TWO, "a b java.base!"),
    ("a class cut to 23 bytes", SMALLEST[:23], "Class Short 22"),
]

# A class `a`, and the same class with a Long that nothing names.
WITHOUT_DEAD = bytes.fromhex("CAFEBABE000000340003010001610700010000000200000000000000000000")
WITH_DEAD = changed(WITHOUT_DEAD, (17, 17, LONG[10:19]), (9, 10, b"\5"))

# How many bytes stand behind the tag of a constant, but for a Utf8.
BODIES = {3: 4, 4: 4, 5: 8, 6: 8, 7: 2, 8: 2, 9: 4, 10: 4, 11: 4, 12: 4, 15: 3, 16: 2, 17: 4, 18: 4, 19: 2, 20: 2}


def number(text, place, size=2):
    return int.from_bytes(text[place:place + size], "big")


def behind_attributes(text, place):
    count, place = number(text, place), place + 2
    for _ in range(count):
        place += 6 + number(text, place + 2, 4)
    return place


def packaged(text, packages):
    """The class with an attribute ModulePackages more, whose constants stand behind all others."""
    slots, place, pool_end = number(text, 8), 10, None
    taken = 1
    while taken < slots:
        tag = text[place]
        place += 3 + number(text, place + 1) if tag == 1 else 1 + BODIES[tag]
        taken += 2 if tag in (5, 6) else 1
    pool_end = place
    place += 8 + 2 * number(text, place + 6)
    for _ in range(2):
        count, place = number(text, place), place + 2
        for _ in range(count):
            place = behind_attributes(text, place + 6)
    utf8s = [b"ModulePackages", *(name.encode() for name in packages)]
    added = [b"\1" + len(name).to_bytes(2, "big") + name for name in utf8s]
    constants, listed = added[0], len(packages).to_bytes(2, "big")
    for at, utf8 in enumerate(added[1:]):
        its = slots + 1 + 2 * at
        constants += utf8 + b"\x14" + its.to_bytes(2, "big")
        listed += (its + 1).to_bytes(2, "big")
    attribute = slots.to_bytes(2, "big") + len(listed).to_bytes(4, "big") + listed
    return (text[:8] + (slots + 1 + 2 * len(packages)).to_bytes(2, "big") + text[10:pool_end] + constants
            + text[pool_end:place] + (number(text, place) + 1).to_bytes(2, "big") + text[place + 2:] + attribute)


# Classes, the packages of a list, and whether the class takes it; or its fault.
PACKAGES = [
    ("a module without a package", ALONE, [], True),
    ("a module with one package", ALONE, ["p"], True),
    ("a module with two", ALONE, ["p", "p/q"], True),
    ("a module that requires two", TWO, ["a/b/c", "b"], True),
    ("a module with a main class", changed(ALONE, (79, 79, b"\0\1\0\0\0\2\0\2"), TWO_ATTRIBUTES, MAIN), ["p"], True),
    ("a module with a Long", changed(ALONE, (43, 43, LONG[10:19]), (9, 10, b"\x08")), ["p"], True),
    ("the flag of a module and no attribute", changed(SMALLEST, (6, 8, b"\0\x35"), (10, 11, b"\x80")), ["p"], True),
    ("the same of major 52", changed(SMALLEST, (10, 11, b"\x80")), ["p"], False),
    ("a module of major 52", changed(ALONE, (6, 8, b"\0\x34")), ["p"], False),
    ("a list that is there", packaged(ALONE, ["q"]), ["p"], False),
    ("an empty list that is there", packaged(ALONE, []), ["p"], False),
    ("two lists that are there", packaged(packaged(ALONE, ["q"]), ["r"]), [], False),
    ("a class that is no module", SMALLEST, ["p"], False),
    ("a generated class", GENERATED, ["m000/p0"], False),
    ("a class cut to 23 bytes", SMALLEST[:23], ["p"], "Short 22"),
    ("another first byte", changed(SMALLEST, (0, 1, [0])), [], "Magic"),
]


def packages_rows():
    rows = []
    for name, text, packages, takes in PACKAGES:
        made = packaged(text, packages).hex().upper() if takes is True else "same" if takes is False else takes
        rows.append(("packages=" + ",".join(packages), name, text, made))
    return rows


def with_major(text, major):
    return changed(text, (6, 8, major.to_bytes(2, "big")))


# For each verb a class, and what comes of it where it is of the release, with its major version.
OF_A_RELEASE = [
    ("compact", WITH_DEAD, lambda major: with_major(WITHOUT_DEAD, major).hex().upper()),
    ("read", SMALLEST, lambda major: "written as it was, 24 bytes: "
     "constants 0, interfaces 0, fields 0, methods 0, attributes 0"),
    ("strip", WITH_SOURCE, lambda major: with_major(WITHOUT_SOURCE, major).hex().upper()),
    ("describe", ALONE, lambda major: "a" if major >= 53 else f"Info OldVersion {major}"),
    ("packages=p", ALONE, lambda major: with_major(packaged(ALONE, ["p"]), major).hex().upper()
     if major >= 53 else "same"),
]
# The major versions around the least one and the greatest ones of releases 21 and 25.
MAJORS = (44, 45, 65, 66, 69, 70)
# A stretch of a class with a fault besides its version, whether that stands in front, and the fault.
OTHER_FAULTS = [
    ("seven bytes", (7, 24, []), True, "Short 6"),
    ("another first byte", (0, 1, [0]), True, "Magic"),
    ("a constant of the tag 0", (9, 10, [2]), False, "Tag 10"),
    ("a count of constants of 0", (9, 10, [0]), False, "Index 8"),
    ("a byte behind the class", (24, 24, [0]), False, "Rest 24"),
]


def release_rows():
    """Release, verb, name, class and answer."""
    rows = []
    for verb, text, answer in OF_A_RELEASE:
        fault_of = (lambda fault: f"Class {fault}") if verb == "describe" else (lambda fault: fault)
        for release in (21, 25):
            for major in MAJORS:
                told = answer(major) if 45 <= major <= 44 + release else fault_of(f"Version {major}")
                rows.append((release, verb, f"major {major}", with_major(text, major), told))
            for name, stretch, in_front, fault in OTHER_FAULTS:
                told = fault if in_front or release == 25 else "Version 66"
                bad = changed(with_major(SMALLEST, 66), stretch)
                rows.append((release, verb, f"major 66, {name}", bad, fault_of(told)))
    return rows


def class_rows():
    """Verb, name, class and answer."""
    rows = []
    for name, text, stretch, fault in CLASS_FAULTS:
        rows += [(verb, name, changed(text, stretch), fault) for verb in ("read", "strip")]
    for name, text, left, parts in CLASSES:
        rows.append(("read", name, text, f"written as it was, {len(text)} bytes: {parts}"))
        rows.append(("strip", name, text, "same" if left == text else left.hex().upper()))
    rows += [("describe", name, text, told) for name, text, told in MODULES]
    return sorted(rows, key=lambda row: ["read", "strip", "describe"].index(row[0])) + packages_rows()
