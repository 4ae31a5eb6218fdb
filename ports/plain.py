#!/usr/bin/env python3
"""ports/plain.py 64|32|32be <MODULE.ll >PLAIN.ll: the text of the kit's module for x86-64, for a machine with pointers of so many bits.

What names x86-64 goes, and what older compilers do not know: a remark on parameters, and a word for a pointer's address.

The kit's code reads and writes memory at places that it has reckoned itself, with eight bytes for a pointer, and so on every machine alike. Three
things in it hang on the machine, and are said here so that they do not:

- It loads and returns small records whole, as `{ i8, ptr }`, whose places are the compiler's. With pointers of 32 bits those after the first can fall
  elsewhere. Such a record gets its gaps written out.
- It stores an enum's tag as a number of 16, 32 or 64 bits with `align 1` (nothing else is stored so), and reads one byte of it, the lowest, where it
  begins. Where the highest byte comes first (be), that byte alone is stored: of a number below 256, or of one that was widened from a byte. What else
  is stored so is not known, nor a place of a tag of which more than a byte is read, by the name that it is stored by.
- An array that is a constant stands in memory as bytes, each number's lowest byte first, and whole numbers are read of it. Where the highest byte
  comes first (be), each number is turned, but for a constant of one byte, which has no order. How wide they are is seen from what is done with the
  constant's address: nothing but reading numbers of one width, at multiples of it, which have to fill the constant. A constant in memory that is more
  than bytes, as with a pointer in it, is not known.

It stops at what it does not know."""
import re
import sys

KIND = sys.argv[1] if len(sys.argv) == 2 else ""
if KIND not in ("64", "32", "32be"):
    sys.exit(__doc__)
POINTER = 8 if KIND == "64" else 4
STRUCT = re.compile(r"\{ ((?:i\d+|ptr)(?:, (?:i\d+|ptr))*) \}")
SIZES = {"i1": 1, "i8": 1, "i16": 2, "i32": 4, "i64": 8}


def stop(why):
    sys.exit(f"ports/plain.py: {why}")


def size(field, pointer):
    if field != "ptr" and field not in SIZES:
        stop(f"a record has a field {field}")
    return pointer if field == "ptr" else SIZES[field]


def places(fields, pointer):
    """Where the fields stand, and what the record takes."""
    at, found, most = 0, [], 1
    for field in fields:
        n = size(field, pointer)
        at = -(-at // n) * n
        found.append(at)
        at, most = at + n, max(most, n)
    return found, -(-at // most) * most


def spelled(fields):
    """The record as it stands on x86-64, and the new number of each field, or None where it stands so on this machine."""
    on_x86, whole = places(fields, 8)
    if (on_x86, whole) == places(fields, POINTER):
        return None
    parts, numbers, at = [], [], 0
    for field, place in zip(fields, on_x86):
        if place > at:
            parts.append(f"[{place - at} x i8]")
        numbers.append(len(parts))
        parts.append(field)
        at = place + size(field, POINTER)
    if whole > at:
        parts.append(f"[{whole - at} x i8]")
    return f"<{{ {', '.join(parts)} }}>", numbers


def records(line):
    found = [it for it in STRUCT.finditer(line) if spelled(it[1].split(", "))]
    if not found:
        return line
    value = re.search(r" = (extractvalue|insertvalue) (\{ [^{}]* \}) (.*), (\d+)$", line)
    if value and len(found) == 1:
        new, numbers = spelled(STRUCT.fullmatch(value[2])[1].split(", "))
        return f"{line[:value.start()]} = {value[1]} {new} {value[3]}, {numbers[int(value[4])]}"
    if not re.search(r" = load | = call |^define |^declare |^ *ret ", line) or re.search(r"\} \{|getelementptr", line):
        stop(f"a record stands in a line of another kind: {line}")
    return STRUCT.sub(lambda it: (spelled(it[1].split(", ")) or [it[0]])[0], line)


WIDE_UNALIGNED = re.compile(r" *store (?:i16|i32|i64) .*, align 1\b")
TAG = re.compile(r"( *)store (i16|i32|i64) (%\w+|\d+), (ptr %\w+), align 1")
WIDENED = re.compile(r" *(%\w+) = zext i8 %\w+ to (?:i16|i32|i64)")
WIDE_READ = re.compile(r" *%\w+ = load (?:i16|i32|i64), ptr (%\w+), align \d+.*")
# The numbers of the function at hand that were widened from a byte.
widened = set()
fresh = 0


def meet_tags(body):
    """Of a tag's place the function reads one byte, wherever in it that stands."""
    cut = {it[4].removeprefix("ptr ") for line in body if (it := TAG.fullmatch(line))}
    for line in body:
        if (it := WIDE_READ.fullmatch(line)) and it[1] in cut:
            stop(f"more than a byte of a tag's place is read: {line}")


def tags(line):
    """The one byte that a tag has in the place of the tag."""
    global fresh
    if line.startswith("define "):
        widened.clear()
    elif it := WIDENED.fullmatch(line):
        widened.add(it[1])
    if not WIDE_UNALIGNED.match(line):
        return line
    it = TAG.fullmatch(line)
    if not it or (it[3] not in widened if it[3].startswith("%") else int(it[3]) > 255):
        stop(f"a number of several bytes is stored at any place, and is not seen to be a tag: {line}")
    if not it[3].startswith("%"):
        return f"{it[1]}store i8 {it[3]}, {it[4]}, align 1"
    fresh += 1
    return f"{it[1]}%tag.{fresh} = trunc {it[2]} {it[3]} to i8\n{it[1]}store i8 %tag.{fresh}, {it[4]}, align 1"


CONSTANT = re.compile(
    r'(@[\w.]+) = (private unnamed_addr constant \[(\d+) x i8\]) (zeroinitializer|c"(?:[^"\\]|\\[0-9A-F]{2})*"), align (\d+)')
NAME = re.compile(r'[%@](?:[\w.]+|"[^"]*")')
PLACE = re.compile(r" *(%\w+) = alloca ptr, align 8")
ADDRESS_KEPT = re.compile(r" *store ptr ([%@][\w.]+), ptr (%\w+), align 8")
ADDRESS_TAKEN = re.compile(r" *(%\w+) = load ptr, ptr (%\w+), align 8(?:, ![a-z]+ !\d+)*")
ADDRESS_MOVED = re.compile(r" *(%\w+) = getelementptr (?:inbounds )?(?:nuw )?i8, ptr ([%@][\w.]+), i64 (?:%\w+|\d+)")
NUMBER_READ = re.compile(r" *%\w+ = load (i8|i16|i32|i64), ptr ([%@][\w.]+), align (\d+)(?:, ![a-z]+ !\d+)*")


def bodies(lines):
    """The lines of each function. No constant is named between them."""
    body = None
    for line in lines:
        if line.startswith("define "):
            body = []
        elif line == "}":
            yield body
            body = None
        elif body is not None:
            body.append(line)
        elif not CONSTANT.fullmatch(line) and any(name in widths for name in NAME.findall(line)):
            stop(f"a constant is named outside of a function: {line}")


def meet_reads(body):
    """Adds to widths what the function reads of each constant. A constant's address goes through places of the function that hold one pointer each.
    into: the constants that a pointer may point into, or that the pointer in a place may."""
    into = {name: {name} for name in widths}
    places = {it[1] for line in body if (it := PLACE.fullmatch(line))}
    before = None
    while before != (before := sum(map(len, into.values()))):
        for line in body:
            if PLACE.fullmatch(line) or not any(name in into for name in NAME.findall(line)):
                continue
            known, passed = False, None
            if it := ADDRESS_KEPT.fullmatch(line):
                known, passed = it[1] not in places and it[2] in places, (it[1], it[2])
            elif it := ADDRESS_TAKEN.fullmatch(line):
                known, passed = it[2] in places, (it[2], it[1])
            elif it := ADDRESS_MOVED.fullmatch(line):
                known, passed = it[2] not in places, (it[2], it[1])
            elif it := NUMBER_READ.fullmatch(line):
                known = it[2] not in places and int(it[3]) == SIZES[it[1]]
                for name in into[it[2]]:
                    widths[name].add(SIZES[it[1]])
            if not known:
                stop(f"a constant's address is used in another way: {line}")
            if passed:
                into.setdefault(passed[1], set()).update(into.get(passed[0], ()))


def highest_first(line):
    """The constant with the highest byte of each number first."""
    it = CONSTANT.fullmatch(line)
    if not it or it[4] == "zeroinitializer" or it[1] not in widths:
        return line
    if len(widths[it[1]]) != 1:
        stop(f"numbers of {len(widths[it[1]])} widths are read of a constant: {line}")
    width, = widths[it[1]]
    spelled_bytes = re.findall(r"\\[0-9A-F]{2}|.", it[4][2:-1])
    if int(it[3]) != len(spelled_bytes) or len(spelled_bytes) % width or int(it[5]) % width:
        stop(f"a constant is not filled by numbers of {width} bytes: {line}")
    turned = "".join("".join(spelled_bytes[at : at + width][::-1]) for at in range(0, len(spelled_bytes), width))
    return f'{it[1]} = {it[2]} c"{turned}", align {it[5]}'


lines = sys.stdin.read().splitlines()
widths = {}
if KIND != "64":
    for line in lines:
        if line.startswith("@"):
            it = CONSTANT.fullmatch(line)
            if not it:
                stop(f"something else than bytes stands in memory: {line}")
            if int(it[3]) > 1:
                widths[it[1]] = set()
if KIND == "32be":
    for body in bodies(lines):
        meet_reads(body)
        meet_tags(body)

for line in lines:
    if line.startswith(("target datalayout", "target triple")):
        continue
    line = re.sub(r' ?"target-(cpu|features)"="[^"]*"', "", line)
    line = line.replace(" captures(none)", "").replace(" = ptrtoaddr ", " = ptrtoint ")
    if "x86" in line:
        stop(f"it names x86: {line}")
    if KIND != "64":
        line = records(line)
    if KIND == "32be":
        line = tags(highest_first(line))
    print(line)
