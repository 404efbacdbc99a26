#!/usr/bin/env python3
"""Makes what the program `test_lower` is run on, and what it must write: crates/test_lower/stdin and stdout.

The answers come from a model of its own, written from the rules of the card image, of data objects and of the data of SEARCH
RECORD, UPDATE BINARY, READ BINARY B1 and FMM (docs/RULES.md). Where bytes are not well formed the rules say nothing, and the model follows
docs/DECISIONS.md: numbers past the end read as 0, a part is cut at the end, a walk goes by the count, and what cannot be
written changes nothing. An append and an activation are lists of single byte stores, of which a case makes the first, or all.

usage: python3 tests/lower/cases.py [--count]     (the same cases each time; --count says how many of each kind there are)
"""
import os
import random
import sys

RANDOM = random.Random(9303)
HUGE = 2**64 - 1
ALL = 4096     # stores: more than any record here has

# ---- the card image --------------------------------------------------------------------------------------------------------------

TRAVEL, VISA, BIOMETRICS = 1, 2, 3

# kind, application, id, short id, longest record, most records
FILES = [
    (0x0101, TRAVEL, 0x0101, 0x01, 391, 254),
    (0x0102, TRAVEL, 0x0102, 0x02, 391, 254),
    (0x011A, TRAVEL, 0x011A, 0x1A, 929, 254),
    (0x0203, VISA, 0x0103, 0x03, 512, 254),
    (0x021A, VISA, 0x011A, 0x1A, 929, 254),
    (0x031A, BIOMETRICS, 0x011A, 0x1A, 929, 64),
]
NEEDED = {TRAVEL: {0x0101, 0x0102, 0x011A}, VISA: {0x0203, 0x021A}, BIOMETRICS: {0x031A}}
NUMBERED = range(0x0401, 0x0441)


def little(data, at, n):
    return int.from_bytes(data[at : at + n], "little")


def sections(image):
    """The whole sections from the start on, as (place of the body, kind, body), and where they end."""
    found, at = [], 0
    while len(image) - at >= 6:
        n = little(image, at, 4)
        if n > len(image) - at - 6:
            break
        found.append((at + 6, little(image, at + 4, 2), image[at + 6 : at + 6 + n]))
        at += 6 + n
    return found, at


def first_of(image, kind):
    for place, k, body in sections(image)[0]:
        if k == kind:
            return place, body
    return None


def is_present(image, application):
    kinds = {k for _, k, _ in sections(image)[0]}
    return application in NEEDED and NEEDED[application] <= kinds


def records_ok(body, longest, most):
    if len(body) < 2 or little(body, 0, 2) > most:
        return False
    at = 2
    for _ in range(little(body, 0, 2)):
        n = little(body, at, 2)
        if at + 2 > len(body) or not 1 <= n <= longest or at + 2 + n > len(body):
            return False
        at += 2 + n
    return True


def biometrics_ok(body):
    room = len(body) - 5
    return 0 <= room <= 131072 and body[0] in (0, 1) and little(body, 1, 4) <= room


def body_ok(kind, body):
    for k, _, _, _, longest, most in FILES:
        if k == kind:
            return records_ok(body, longest, most)
    return kind in NUMBERED and biometrics_ok(body)


def image_ok(image):
    found, end = sections(image)
    kinds = [k for _, k, _ in found]
    travel, visa = NEEDED[TRAVEL] & set(kinds), NEEDED[VISA] & set(kinds)
    return (
        len(image) <= 262144
        and end == len(image)
        and all(a < b for a, b in zip(kinds, kinds[1:]))
        and all(body_ok(k, body) for _, k, body in found)
        and travel in (set(), NEEDED[TRAVEL])
        and visa in (set(), NEEDED[VISA])
        and (0x031A in kinds or not any(k in NUMBERED for k in kinds))
    )


def record_places(body):
    """Where each record's length stands, by the count, and last where the free room begins."""
    places = [2]
    for _ in range(little(body, 0, 2)):
        places.append(places[-1] + 2 + little(body, places[-1], 2))
    return places


def record_of(body, n):
    places = record_places(body)
    if not 1 <= n < len(places):
        return b""
    at = places[n - 1]
    return body[at + 2 : at + 2 + little(body, at, 2)]


def fits(body, n):
    return record_places(body)[-1] + 2 + n <= len(body)


def append_stores(body, record):
    """What an append stores, a byte at a time in order, as (place, byte): behind the last record its length, the low byte first, and its bytes;
    then the count's high byte, and last its low byte. Nothing where the body cannot take the record."""
    count, used = little(body, 0, 2), record_places(body)[-1]
    if not fits(body, len(record)) or len(record) > 65535 or count >= 65535:
        return []
    run = len(record).to_bytes(2, "little") + record
    low, high = (count + 1).to_bytes(2, "little")
    return [(used + i, byte) for i, byte in enumerate(run)] + [(1, high), (0, low)]


def activate_stores(body):
    """The same of an activation: the state alone."""
    return [(0, 1)] if biometrics_ok(body) else []


def stores_in(image, kind, stores_of):
    """What is stored in an image: the stores of the body of a kind, at their places in the image. Nothing where it is not there."""
    found = first_of(image, kind)
    return [(found[0] + place, byte) for place, byte in stores_of(found[1])] if found else []


def made(data, stores, k):
    """The bytes after the first k stores, or all where there are no more."""
    after = bytearray(data)
    for place, byte in stores[:k]:
        after[place] = byte
    return bytes(after)


def updated(body, offset, data):
    """The biometrics body with data written from offset on, or None where it cannot be."""
    if not biometrics_ok(body):
        return None
    w, end = little(body, 1, 4), offset + len(data)
    if offset > w or end > len(body) - 5:
        return None
    room = body[5:]
    return body[:1] + max(w, end).to_bytes(4, "little") + room[:offset] + data + room[end:]


def in_image(image, kind, change):
    """The image with the body of a kind changed, or None where it is not there or cannot be."""
    found = first_of(image, kind)
    new = change(found[1]) if found else None
    return None if new is None else image[: found[0]] + new + image[found[0] + len(new) :]


# ---- data objects ----------------------------------------------------------------------------------------------------------------


class Refused(Exception):
    pass


class NoTag(Refused):
    pass


class NoLength(Refused):
    pass


def length_field(data, at, end):
    """The value behind the length field at `at`, as (from, to)."""
    def byte(i):
        if i >= end:
            raise NoLength
        return data[i]

    lead = byte(at)
    if lead <= 0x7F:
        start, n = at + 1, lead
    elif lead == 0x81 and byte(at + 1) >= 0x80:
        start, n = at + 2, byte(at + 1)
    elif lead == 0x82 and byte(at + 1) * 256 + byte(at + 2) >= 0x100:
        start, n = at + 3, byte(at + 1) * 256 + byte(at + 2)
    else:
        raise NoLength
    if start + n > end:
        raise NoLength
    return start, start + n


def object_at(data, at, end, tag):
    """The value of the object with this tag at `at`, as (from, to)."""
    t = bytes.fromhex(tag)
    if data[at : min(end, at + len(t))] != t:
        raise NoTag
    return length_field(data, at + len(t), end)


def in_order(data, span, *tags):
    """The values of exactly these objects, one behind the other."""
    values, at = [], span[0]
    for tag in tags:
        values.append(object_at(data, at, span[1], tag))
        at = values[-1][1]
    if at != span[1]:
        raise Refused
    return values


def sized(span, least, most):
    if not least <= span[1] - span[0] <= most:
        raise Refused
    return span


def big(data, span):
    return int.from_bytes(data[span[0] : span[1]], "big")


def place(span):
    return f"{span[0]} {span[1] - span[0]}"


def search_of(data):
    (whole,) = in_order(data, (0, len(data)), "7F76")
    file, how, what = in_order(data, whole, "51", "A1", "A3")
    mode, window = in_order(data, how, "80", "B0")
    offset, number = in_order(data, window, "02", "02")
    (text,) = in_order(data, what, "B1")
    (string,) = in_order(data, text, "81")
    sized(file, 1, 2)
    if data[mode[0] : mode[1]] not in (b"\x00", b"\x30"):
        raise Refused
    sized(offset, 1, 2)
    sized(number, 1, 2)
    sized(string, 1, len(data))
    one = int(data[mode[0]] == 0x30)
    return f"{place(file)} {one} {big(data, offset)} {big(data, number)} {place(string)}"


def update_of(data):
    offset, written = in_order(data, (0, len(data)), "54", "53")
    return f"{big(data, sized(offset, 1, 3))} {place(written)}"


def offset_of(data):
    (offset,) = in_order(data, (0, len(data)), "54")
    return str(big(data, sized(offset, 1, 3)))


def reference_of(data):
    (file,) = in_order(data, (0, len(data)), "51")
    return place(sized(file, 1, 2))


def nested(data, tags):
    """Refuses what is not objects of these tags, each inside the one before, or lies deeper than four; the last has at most 9 bytes."""
    span = (0, len(data))
    for depth, tag in enumerate(tags, 1):
        if depth > 4:
            raise Refused
        (span,) = in_order(data, span, tag)
    sized(span, 0, 9)
    return "1"


def window_of(record, offset, number):
    rest = record[offset:]
    return rest if number == 0 else rest[:number]


def fewest(n):
    k = 1
    while n >= 256**k:
        k += 1
    return k


def length_bytes(n):
    if n <= 0x7F:
        return bytes([n])
    return bytes([0x81, n]) if n <= 0xFF else bytes([0x82]) + n.to_bytes(2, "big")


def longest_within(limit, most):
    """The greatest number of bytes, `most` or fewer, whose object with a tag of one byte has at most `limit`; 0 where none has. (Above
    the limit no number need be tried.)"""
    return max(n for n in range(min(most, limit) + 1) if n == 0 or 1 + len(length_bytes(n)) + n <= limit)


def head_bytes(tag, n):
    """The tag and the length of an object, or None where there is no form for them."""
    if tag > 0xFFFF or n > 0xFFFF:
        return None
    return tag.to_bytes(fewest(tag), "big") + length_bytes(n)


def stored(out, at, run):
    """The place behind what is stored, and the bytes afterwards: all of a run is stored, or nothing."""
    if run is None or at + len(run) > len(out):
        return at, out
    return at + len(run), out[:at] + run + out[at + len(run) :]


# ---- the cases ----------------------------------------------------------------------------------------------------------------

CASES, LINES, KINDS = [], [], {}


def counted(n):
    """A number behind the byte that says how many bytes it has."""
    k = 0 if n == 0 else fewest(n)
    return bytes([k]) + n.to_bytes(k, "little")


def case(op, line, x=0, y=0, a=b"", b=b""):
    kept = a.rstrip(b"\0")
    numbers = (x, y, len(kept), len(a) - len(kept), len(b))
    CASES.append(bytes([op]) + b"".join(counted(n) for n in numbers) + kept + b)
    LINES.append(line)
    kind = line.split()[0]
    KINDS[kind] = KINDS.get(kind, 0) + 1


def shown(data):
    return data.hex() or "-"


def flag(yes):
    return str(int(bool(yes)))


def changed(op, name, old, new, x=0, y=0, b=b""):
    case(op, f"{name} {flag(new is not None)} {shown(old if new is None else new)}", x, y, old, b)


def stores_case(op, name, old, stores, k, x=0, y=0, b=b""):
    case(op, f"{name} {len(stores)} {shown(made(old, stores, k))}", x, y, old, b)


def image_case(image):
    case(10, f"image.well_formed {flag(image_ok(image))}", a=image)


def find_case(image, kind):
    found = first_of(image, kind)
    where = f"{found[0]} {len(found[1])} 1 {shown(found[1])}" if found else "none 0 -"
    case(11, f"image.find {where}", kind, a=image)


def present_case(image):
    case(12, "image.present " + " ".join(flag(is_present(image, k)) for k in range(5)), a=image)


def image_append_case(image, kind, record, k=ALL):
    stores = stores_in(image, kind, lambda body: append_stores(body, record))
    stores_case(13, "image.append", image, stores, k, kind, k, record)


def image_update_case(image, kind, offset, data):
    new = in_image(image, kind, lambda b: updated(b, offset, data))
    changed(14, "image.update", image, new, kind, offset, data)


def image_activate_case(image, kind, k=ALL, data=b""):
    stores_case(15, "image.activate", image, stores_in(image, kind, activate_stores), k, kind, k, data)


def used_case(body):
    case(20, f"body.used {little(body, 0, 2)} {record_places(body)[-1]}", a=body)


def fits_case(body, n):
    case(21, f"body.fits {flag(fits(body, n))}", n, a=body)


def record_case(body, n):
    case(22, f"body.record {shown(record_of(body, n))}", n, a=body)


def records_case(body, longest, most):
    case(23, f"body.well_formed {flag(records_ok(body, longest, most))}", longest, most, body)


def append_case(body, record, k=ALL):
    stores_case(24, "body.append", body, append_stores(body, record), k, k, b=record)


def biometrics_case(body):
    state, w, room = little(body, 0, 1), little(body, 1, 4), max(len(body) - 5, 0)
    case(30, f"biometrics.read {state} {w} {room} {shown(body[5 : 5 + w])} {flag(biometrics_ok(body))}", a=body)


def update_case(body, offset, data):
    changed(31, "biometrics.update", body, updated(body, offset, data), offset, b=data)


def activate_case(body, k=ALL, data=b""):
    stores_case(32, "biometrics.activate", body, activate_stores(body), k, k, b=data)


def look_case(op, name, x, y, test):
    found = [row for row in FILES if test(row)]
    case(op, f"rules.{name} " + (" ".join(str(v) for v in found[0]) if found else "none"), x, y)


def kind_case(kind, body):
    case(44, f"rules.kind_ok {flag(body_ok(kind, body))}", kind, a=body)


def read_by(read, data):
    try:
        return read(data)
    except Refused:
        return "refused"


def head_by(read):
    try:
        start, end = read()
        return f"{start} {end - start}"
    except NoTag:
        return "no tag"
    except NoLength:
        return "no length"


def length_case(data):
    case(50, "head.length " + head_by(lambda: length_field(data, 0, len(data))), a=data)


def header_case(data, tag):
    name = tag.to_bytes(fewest(tag), "big").hex()
    case(51, "head.header " + head_by(lambda: object_at(data, 0, len(data), name)), tag, a=data)


def number_case(data):
    case(52, f"number {int.from_bytes(data, 'big')}", a=data)


def search_case(data):
    case(53, "search " + read_by(search_of, data), a=data)


def update_data_case(data):
    case(54, "update " + read_by(update_of, data), a=data)


def offset_case(data):
    case(58, "offset " + read_by(offset_of, data), a=data)


def reference_case(data):
    case(55, "reference " + read_by(reference_of, data), a=data)


def nested_case(data):
    four, five = ["A2", "A3", "A4", "81"], ["A1", "A2", "A3", "A4", "81"]
    for op, name, tags in ((56, "depth.four", four), (57, "depth.five", five)):
        case(op, f"{name} " + read_by(lambda d: nested(d, tags), data).replace("refused", "0"), a=data)


def window_case(record, offset, number):
    case(60, f"window {shown(window_of(record, offset, number))}", offset, number, record)


def occurs_case(data, text):
    case(61, f"occurs {flag(text in data)}", a=data, b=text)


def matches_case(record, offset, number, text):
    case(62, f"matches {flag(text in window_of(record, offset, number))}", offset, number, record, text)


def fewest_case(n):
    case(70, f"fewest {fewest(n)}", n)


def within_case(limit, most):
    case(73, f"longest_within {longest_within(limit, most)}", limit, most)


def written_case(op, name, out, at, tag, n, run):
    behind, after = stored(out, at, run)
    case(op, f"{name} {behind} {shown(after)}", at, tag, out, n.to_bytes(fewest(n), "big"))


def put_head_case(out, at, tag, n):
    written_case(71, "put_head", out, at, tag, n, head_bytes(tag, n))


def put_number_case(out, at, tag, n):
    run = bytes([tag, fewest(n)]) + n.to_bytes(fewest(n), "big")
    written_case(72, "put_number", out, at, tag, n, run)


# ---- images and bodies to make cases of --------------------------------------------------------------------------------------


def some_bytes(n):
    return bytes(RANDOM.randrange(256) for _ in range(n))


def body_of(records, free=0, count=None):
    n = len(records) if count is None else count
    runs = b"".join(len(r).to_bytes(2, "little") + r for r in records)
    return n.to_bytes(2, "little") + runs + some_bytes(free)


def biometrics_of(state, w, room):
    return bytes([state]) + w.to_bytes(4, "little") + room


def section(kind, body):
    return len(body).to_bytes(4, "little") + kind.to_bytes(2, "little") + body


def image_of(files):
    return b"".join(section(kind, files[kind]) for kind in sorted(files))


def small_body():
    return body_of([some_bytes(RANDOM.randint(1, 4)) for _ in range(RANDOM.randint(0, 2))], RANDOM.choice((0, 0, 3, 8)))


def small_biometrics():
    room = some_bytes(RANDOM.randint(0, 8))
    return biometrics_of(RANDOM.randint(0, 1), RANDOM.randint(0, len(room)), room)


def files_of(applications, numbered=()):
    files = {kind: small_body() for a in applications for kind in NEEDED[a]}
    files.update({kind: small_biometrics() for kind in numbered})
    return files


def random_files():
    applications = [a for a in NEEDED if RANDOM.random() < 0.5]
    few = RANDOM.sample(list(NUMBERED), RANDOM.randint(0, 2)) if BIOMETRICS in applications else ()
    return files_of(applications, few)


def damage_bytes(data):
    """One thing wrong with some bytes."""
    way, at = RANDOM.randrange(6), RANDOM.randrange(len(data) + 1)
    if way == 0 and at < len(data):
        return data[:at] + bytes([data[at] ^ (1 << RANDOM.randrange(8))]) + data[at + 1 :]
    if way == 1 and at < len(data):
        return data[:at] + bytes([RANDOM.randrange(4)]) + data[at + 1 :]
    if way == 2:
        return data[:at]
    if way == 3:
        return data[:at] + data[at + 1 :]
    if way == 4:
        return data[:at] + some_bytes(1) + data[at:]
    return data + some_bytes(RANDOM.randint(1, 7))


def damage_image(files):
    """One thing wrong with an image, its sections or their bodies."""
    parts = [(kind, files[kind]) for kind in sorted(files)]
    way, i = RANDOM.randrange(7), RANDOM.randrange(len(parts)) if parts else 0
    if parts and way == 0:
        del parts[i]
    elif parts and way == 1:
        parts.insert(i, parts[i])
    elif parts and way == 2:
        j = RANDOM.randrange(len(parts))
        parts[i], parts[j] = parts[j], parts[i]
    elif parts and way == 3:
        parts[i] = (parts[i][0] + RANDOM.choice((-1, 1, 256)), parts[i][1])
    elif parts and way == 4:
        parts[i] = (parts[i][0], damage_bytes(parts[i][1]))
    image = b"".join(section(k, b) for k, b in parts)
    return damage_bytes(image) if way >= 5 else image


ASKED = [row[0] for row in FILES] + [0, 0x0103, 0x0400, 0x0401, 0x0440, 0x0441, 0xFFFF, 0x10101, HUGE]


# ---- the cases of the card image -------------------------------------------------------------------------------------------------


def whole_images():
    everything = files_of(NEEDED, (0x0401, 0x0405, 0x0440))
    image = image_of(everything)
    for kind in ASKED + [0x0405]:
        find_case(image, kind)
        find_case(b"", kind)
    for some in ([], [1], [2], [3], [1, 2], [1, 3], [2, 3], [1, 2, 3]):
        for numbered in ([], [0x0401], [0x0440], [0x0401, 0x0402, 0x0440]):
            image = image_of(files_of(some, numbered))
            image_case(image)
            present_case(image)
    image_case(image_of({**files_of([BIOMETRICS]), **{k: b"\x00" * 5 for k in NUMBERED}}))
    for row in FILES:
        alone = section(row[0], small_body())
        image_case(alone)
        present_case(alone)


def large_images():
    """Images of 262,144 bytes and of one more, as the free room of their last file makes them; rooms of 131,072 bytes and of one more, and of
    32,768 and of one more, which was too many once."""
    for last in (0x021A, 0x031A):
        files = files_of([TRAVEL, VISA] if last == 0x021A else NEEDED)
        for size in (262143, 262144, 262145, 262144 + 6):
            image = image_of(files)
            image_case(image_of({**files, last: files[last] + bytes(size - len(image))}))
    image = image_of(files_of([TRAVEL, VISA]))
    image_case(image + bytes(262144 - len(image)))
    for room in (32768, 32769, 65535, 65536, 131071, 131072, 131073):
        for w in (0, 1, room - 1, room, room + 1):
            body = biometrics_of(RANDOM.randint(0, 1), w, bytes(room))
            kind_case(0x0440, body)
            image_case(image_of({0x031A: b"\x00\x00", 0x0401: body}))
    for n in (0, 1, 65534, 65535):
        for room in (2 * n + 3, 2 * n + 4, 2 * n + 5):
            body = n.to_bytes(2, "little") + bytes(room - 2)
            used_case(body)
            fits_case(body, 0)
            fits_case(body, 1)
            record_case(body, n)
            records_case(body, 391, 65535)


def torn_images():
    files = files_of(NEEDED, (0x0404,))
    image = image_of(files)
    for cut in list(range(1, 14)) + [len(files[0x0404]) + k for k in range(1, 7)]:
        image_case(image[:-cut])
        find_case(image[:-cut], 0x0404)
        find_case(image[:-cut], 0x031A)
    for more in (b"\x00", b"\xff", b"\x00" * 5, b"\x00" * 6, b"\x00\x00\x00\x00\x41\x04"):
        image_case(image + more)
        image_case(more)
    for kind in sorted(files):
        long = dict(files)
        for by in (-1, 1):
            wrong = b""
            for k in sorted(files):
                n = len(files[k]) + (by if k == kind else 0)
                wrong += n.to_bytes(4, "little") + section(k, files[k])[4:]
            image_case(wrong)
            present_case(wrong)
        long[kind] = files[kind] + b"\x00"
        image_case(image_of(long))
        short = dict(files)
        short[kind] = files[kind][:-1]
        image_case(image_of(short))
    for n in (2**16, 2**24, 2**32 - 1, 2**32 - 6, 2**31):
        image_case(n.to_bytes(4, "little") + b"\x01\x01" + bytes(20))
        find_case(n.to_bytes(4, "little") + b"\x01\x01" + bytes(20), 0x0101)


def wrong_kinds():
    for kind in (0, 1, 0x0100, 0x0103, 0x0119, 0x011B, 0x0201, 0x0202, 0x0204, 0x0301, 0x031B, 0x0400, 0x0441, 0x0501, 0x1A01, 0xFFFF):
        for body in (b"\x00\x00", b"\x00" * 5):
            image_case(image_of({**files_of(NEEDED), kind: body}))
            kind_case(kind, body)
    files = files_of(NEEDED, (0x0401, 0x0402))
    ordered = [section(k, files[k]) for k in sorted(files)]
    for i in range(len(ordered)):
        image_case(b"".join(ordered[: i + 1] + ordered[i:]))
        if i:
            other = ordered[: i - 1] + [ordered[i], ordered[i - 1]] + ordered[i + 1 :]
            image_case(b"".join(other))
            present_case(b"".join(other))
    for image in (section(0x0101, b""), section(0x0102, b"\x01") + section(0x0101, b""), section(0x0102, b"") + section(0x0101, b"\x01")):
        image_case(image)
        for kind in (0x0101, 0x0102):
            find_case(image, kind)
        image_append_case(image, 0x0101, b"")
        image_activate_case(image, 0x0101)
    twice = section(0x0101, body_of([b"one"])) + section(0x0101, body_of([b"two"]))
    find_case(twice, 0x0101)
    for record in (b"", b"r"):
        image_append_case(section(0x0101, body_of([b"one"], 3)) + section(0x0101, body_of([b"two"], 3)), 0x0101, record)


def lone_files():
    """Each set of the files of travel, of visa and of biometrics, beside the whole of another application or nothing."""
    for application, other in ((TRAVEL, [VISA]), (VISA, [TRAVEL, BIOMETRICS]), (BIOMETRICS, [TRAVEL])):
        kinds = sorted(NEEDED[application]) + ([0x0401, 0x0440] if application == BIOMETRICS else [])
        for mask in range(1 << len(kinds)):
            own = {k: b"\x00" * 5 for i, k in enumerate(kinds) if mask >> i & 1}
            for beside in ({}, files_of(other)):
                image_case(image_of({**beside, **own}))
                present_case(image_of({**beside, **own}))


def damaged_records():
    for kind, application, _, _, longest, most in FILES:
        bodies = [b"", b"\x00", b"\x00\x00", b"\x00\x00\xff", b"\x01\x00", b"\x01\x00\x01", b"\x01\x00\x01\x00", b"\x01\x00\x01\x00\x41"]
        bodies += [b"\x01\x00\x00\x00", b"\x01\x00\x00\x00\x00", b"\x02\x00\x01\x00\x41\x00\x00", b"\x00\x01" + bytes(9)]
        bodies += [body_of([some_bytes(n)]) for n in (longest - 1, longest, longest + 1)]
        bodies += [body_of([b"a", some_bytes(longest + 1), b"b"]), body_of([some_bytes(longest)])[:-1]]
        two = [b"a", b"bcd"]
        bodies += [body_of(two)[:-1], body_of(two, 0, 3), body_of(two, 1, 3), body_of(two, 4, 1)]
        for body in bodies:
            kind_case(kind, body)
            if len(body) < 40:
                records_case(body, longest, most)
                image_case(image_of({**{k: b"\0\0" for k in NEEDED[application]}, kind: body}))
        large = [body_of([some_bytes(n)]) for n in (longest, longest + 1)] + [body_of([b"a"] * n) for n in (most, most + 1)]
        for body in large + [body_of([b"a"] * most, 5, most + 1)]:
            image_case(image_of({**{k: b"\0\0" for k in NEEDED[application]}, kind: body}))


def damaged_biometrics():
    bodies = [b"", b"\x00", b"\x01" + bytes(3), bytes(4), bytes(5), b"\x01" + bytes(4), b"\x02" + bytes(4), b"\xff" + bytes(9)]
    for room in (0, 1, 7, 255, 256):
        for w in (0, room - 1, room, room + 1, room + 256, room + 2**16, room + 2**24):
            if w >= 0:
                bodies.append(biometrics_of(RANDOM.randint(0, 1), w, some_bytes(room)))
    bodies += [b"\x02" + bytes(4) + b"abc", b"\x80" + bytes(4) + b"abc", biometrics_of(1, 2**32 - 1, b"abc")]
    for body in bodies:
        biometrics_case(body)
        for kind in (0x0401, 0x0440):
            kind_case(kind, body)
        image_case(image_of({0x031A: b"\0\0", 0x0410: body}))
        activate_case(body)
        if len(body) < 20:
            for offset in (0, 1, little(body, 1, 4), little(body, 1, 4) + 1, HUGE):
                for data in (b"", b"Z", b"xyz"):
                    update_case(body, offset, data)


def appends():
    """Appends that fit exactly, by a byte not, at the most records, and where there is no file."""
    for kind, application, _, _, longest, most in FILES:
        for records in ([], [b"first"], [b"a", b"bc", b"def"]):
            for n in (1, 2, 5):
                for spare in (0, 1, 4):
                    body = body_of(records, 2 + n - 1 + spare)
                    append_case(body, some_bytes(n))
                    fits_case(body, n)
                    fits_case(body, n + spare)
                    if n == 2:
                        image = image_of({**{k: b"\0\0" for k in NEEDED[application]}, kind: body})
                        image_append_case(image, kind, some_bytes(n))
        full = body_of([b"a"] * most, 6)
        append_case(full, b"b")
        image_append_case(image_of({**files_of(NEEDED), kind: body_of([b"a"] * (most - 1), 3)}), kind, b"b")
    for longest in (391, 512, 929):
        append_case(body_of([], longest + 2), some_bytes(longest))
        append_case(body_of([], longest + 1), some_bytes(longest))
        append_case(body_of([], longest + 3), some_bytes(longest + 1))
    for kind in (0x0101, 0x0203, 0x0401, 0, 0xFFFF, HUGE):
        image_append_case(image_of({**files_of([BIOMETRICS])}), kind, b"new")
        image_append_case(b"", kind, b"new")
        image_update_case(image_of({**files_of([VISA])}), kind, 0, b"")
        image_activate_case(image_of({**files_of([BIOMETRICS])}), kind)
    for body in (body_of([b"a"], 8), body_of([], 4), body_of([b"abc"], 0)):
        append_case(body, b"")
    odd = [b"\1", b"\1\0\xff\xff" + bytes(4), b"\xff\xff" + bytes(30), b"\3\0" + bytes(12)]
    for body in [bytes(n) for n in range(6) if n != 1] + odd:
        for record in (b"", b"r", b"two"):
            append_case(body, record)
        used_case(body)
        for n in (0, 1, 2, 3, 4, 65535, 65536, HUGE):
            record_case(body, n)
            fits_case(body, n)
    long = body_of([b"a"] * 255, 4)
    used_case(long)
    append_case(long, b"b")
    for n in (1, 254, 255, 256):
        record_case(long, n)
    long = body_of([some_bytes(300), some_bytes(256), some_bytes(255)], 300)
    for n in range(5):
        record_case(long, n)
    append_case(long, some_bytes(298))
    append_case(long, some_bytes(299))


# stores: more than any record has, and where a number of 32 bits or a signed one would not do
BEYOND = (2**32, 2**63, HUGE)


def cuts():
    """Records and activations of which only the first stores are made: at each store, at none, at all, beyond; and where nothing can be taken."""
    for records in ([], [b"first"], [b"a", b"bc", b"def"]):
        for n in (1, 2, 5):
            body = body_of(records, 2 + n + RANDOM.choice((0, 1, 9)))
            record = some_bytes(n)
            for k in (*range(n + 6), *BEYOND):
                append_case(body, record, k)
            short = body_of(records, 2 + n - 1)
            for k in (0, 1, n + 4, HUGE):
                append_case(short, record, k)
    # a length of two bytes that differ; a count whose high byte changes, in a body of records that have no bytes, and of some that have one
    for n in (256, 300):
        body, record = body_of([b"a"], 3) + bytes(n), some_bytes(n)
        for k in (0, 1, 2, 3, n // 2, n + 1, n + 2, n + 3, n + 4, n + 5, 2**32 + 1):
            append_case(body, record, k)
    for count in (254, 255, 256, 510, 511, 512, 767):
        body, record = count.to_bytes(2, "little") + bytes(2 * count + 8), b"new"
        for k in (*range(len(record) + 6), BEYOND[count % 3]):
            append_case(body, record, k)
    body = body_of([b"a"] * 255, 3)
    for k in (3, 4, 5):
        append_case(body, b"b", k)


def cuts_in_images():
    files = {kind: body_of([b"1"], 5) for kind in (row[0] for row in FILES)}
    files.update({0x0401: biometrics_of(0, 2, b"iris"), 0x0440: biometrics_of(1, 0, b"")})
    image = image_of(files)
    for kind in files:
        for k in range(9):
            if kind in (0x0101, 0x021A) or k in (0, 4, 6, 7):
                image_append_case(image, kind, b"2nd", k)
        for k in (0, 1):
            image_activate_case(image, kind, k)
        image_append_case(image, kind, b"long", 3)
    for k in BEYOND:
        image_append_case(image, 0x0203, b"2nd", k)
        image_activate_case(image, 0x0401, k, b"data")
        for kind in (0, 0x0402, HUGE):
            image_append_case(image, kind, b"r", k)
            image_activate_case(image, kind, k)
    for k in (0, 1, 3, 5, HUGE):
        image_append_case(section(0x0101, body_of([b"one"], 3)) + section(0x0101, body_of([b"two"], 3)), 0x0101, b"r", k)


def cut_activations():
    for state in (0, 1, 2, 0xFF):
        for room in (0, 3):
            for w in (0, room, room + 1):
                for k in (0, 1, 2, *BEYOND):
                    activate_case(biometrics_of(state, w, b"abc"[:room]), k, b"data"[: k % 5])
    for body in (b"", b"\0", bytes(4)):
        for k in (0, 1, HUGE):
            activate_case(body, k)


def behind_cuts():
    """What lies in the free room from a cut: the records are those before it, and the next append takes that room."""
    for records in ([], [b"first", b"2nd"]):
        record, next_one = b"lost", b"next"
        body = body_of(records, 14)
        stores = append_stores(body, record)
        for k in range(len(stores) + 1):
            left = made(body, stores, k)
            used_case(left)
            record_case(left, len(records) + 1)
            append_case(left, next_one)
            after = made(left, append_stores(left, next_one), ALL)
            for n in (1, len(records), len(records) + 1, len(records) + 2):
                record_case(after, n)
            records_case(after, 5, 4)


def random_cuts():
    for n in range(240):
        body = small_body() if n % 3 else damage_bytes(small_body())
        record = some_bytes(RANDOM.randint(0, 5))
        append_case(body + some_bytes(RANDOM.randint(0, 9)), record, RANDOM.randint(0, len(record) + 5))
    for n in range(60):
        files = random_files()
        kind = RANDOM.choice(list(files) or [0x0101])
        image = image_of(files) if n % 2 else damage_image(files)
        image_append_case(image, kind, some_bytes(RANDOM.randint(1, 4)), RANDOM.randint(0, 9))


def rules():
    for kind in ASKED + list(range(0x00FF, 0x0105)) + list(range(0x0119, 0x011C)) + [0x0203, 0x0204, 0x0301, 0x0319, 0x031B]:
        look_case(40, "kind", kind, 0, lambda r: r[0] == kind)
    for application in (0, 1, 2, 3, 4, HUGE):
        for value in (0, 0x0101, 0x0102, 0x0103, 0x011A, 0x0203, 0x021A, 0x0201, 0x2F01, HUGE):
            look_case(41, "id", application, value, lambda r: r[1:3] == (application, value))
        for value in (0, 1, 2, 3, 4, 0x1A, 0x1E, HUGE):
            look_case(42, "short", application, value, lambda r: (r[1], r[3]) == (application, value))
    for i in list(range(8)) + [HUGE]:
        look_case(43, "row", i, 0, lambda r: i < 6 and r == FILES[i])


def random_images():
    for n in range(450):
        files = random_files()
        image = image_of(files) if n % 4 == 0 else damage_image(files)
        image_case(image)
    for n in range(200):
        files = random_files()
        kinds = (list(files) or [0x0101]) + [RANDOM.choice(ASKED)]
        image = image_of(files) if n % 2 else damage_image(files)
        find_case(image, RANDOM.choice(kinds))
        present_case(image)
    for n in range(200):
        files = files_of([RANDOM.choice((1, 2, 3))])
        kind = RANDOM.choice(list(files))
        image = image_of(files) if n % 2 else damage_image(files)
        image_append_case(image, kind, some_bytes(RANDOM.randint(1, 8)))
    for n in range(200):
        files = files_of([BIOMETRICS], RANDOM.sample(list(NUMBERED), 2))
        kind = max(files) if n % 3 else RANDOM.choice(list(files))
        image = image_of(files) if n % 2 else damage_image(files)
        w = little(files[kind], 1, 4)
        image_update_case(image, kind, RANDOM.choice((w, RANDOM.randint(0, 9))), some_bytes(RANDOM.randint(0, 5)))
        if n % 2:
            image_activate_case(damage_image(files) if n % 4 == 1 else image_of(files), kind)


def random_bodies():
    for n in range(240):
        body = small_body() if n % 3 == 0 else damage_bytes(small_body())
        used_case(body)
        record_case(body, RANDOM.randint(0, 3))
        fits_case(body, RANDOM.randint(0, 9))
        append_case(body, some_bytes(RANDOM.randint(1, 7)))
        records_case(body, RANDOM.randint(1, 4), RANDOM.randint(0, 3))
    for n in range(200):
        body = small_biometrics() if n % 3 == 0 else damage_bytes(small_biometrics())
        biometrics_case(body)
        update_case(body, RANDOM.randint(0, 8), some_bytes(RANDOM.randint(0, 6)))
        if n % 2:
            activate_case(body)


# ---- the cases of data objects ---------------------------------------------------------------------------------------------------


def length_in(form, n):
    """The length n in a form, the right one or not."""
    if form == 0:
        return length_bytes(n)
    return bytes([0x80 + form]) + (n.to_bytes(form, "big") if form < 5 and n < 256**form else b"")


def written(node, forms=None, path=()):
    """The bytes of an object, with another form of the length at some of its paths."""
    tag, value = node
    if isinstance(value, list):
        value = b"".join(written(v, forms, path + (i,)) for i, v in enumerate(value))
    form = (forms or {}).get(path, 0)
    return bytes.fromhex(tag) + length_in(form, len(value)) + value


def paths_of(node, path=()):
    inner = node[1] if isinstance(node[1], list) else []
    return [path] + [p for i, v in enumerate(inner) for p in paths_of(v, path + (i,))]


def at_path(node, path):
    return node if not path else at_path(node[1][path[0]], path[1:])


def with_path(node, path, new):
    """The object with the list of objects `new` in the place of the one at a path."""
    tag, inner = node
    i = path[0]
    if len(path) == 1:
        return (tag, inner[:i] + new + inner[i + 1 :])
    return (tag, inner[:i] + [with_path(inner[i], path[1:], new)] + inner[i + 1 :])


def search_tree(file=b"\x01", mode=b"\x00", offset=b"\x03", number=b"\x03", text=b"FRA"):
    window = ("B0", [("02", offset), ("02", number)])
    return ("7F76", [("51", file), ("A1", [("80", mode), window]), ("A3", [("B1", [("81", text)])])])


def lengths():
    fields = ["00", "01", "7F", "80", "80FF", "81", "8100", "817F", "8180", "8181", "81FF", "82", "8201", "820000", "82007F", "8200FF"]
    fields += ["820100", "820101", "8201FF", "82FFFF", "83000001", "83000100", "83010000", "8400000001", "8400000100", "8500", "FF", "FF01"]
    length_case(b"")
    header_case(b"", 0x51)
    header_case(b"", 0x7F76)
    for field in fields:
        head = bytes.fromhex(field)
        length_case(head)
        for n in (1, 0x7E, 0x7F, 0x80, 0xFE, 0xFF, 0x100, 0x101):
            if n < 3 or head[0] != 0x00:
                length_case(head + bytes(n))
        for tag in (b"\x51", b"\x7f\x76"):
            header_case(tag + head, int.from_bytes(tag, "big"))
            header_case(tag + head + bytes(255), int.from_bytes(tag, "big"))
            header_case(tag + head + bytes(256), int.from_bytes(tag, "big"))
    for data in (b"\x51\x01\x00", b"\x7f\x76\x01\x00", b"\x7f", b"\x7f\x76", b"\x76\x7f\x00", b"\x00\x00", b"\x00\x51\x00"):
        for tag in (0, 0x51, 0x52, 0x7F, 0x76, 0xFF, 0x7F76, 0x7F78, 0x767F, 0xFFFF, 0x100, 0x151):
            header_case(data, tag)
    for n in range(200):
        length_case(bytes([RANDOM.choice((0, 1, 2, 5, 0x7F, 0x80, 0x81, 0x82, 0x83))]) + some_bytes(RANDOM.randint(0, 8)))
        number_case(some_bytes(n % 9))


def searches():
    plain = search_tree()
    search_case(written(plain))
    search_case(bytes.fromhex("7F7619510101A10B800100B006020103020103A307B1058103465241"))
    for mode in ["00", "30", "01", "10", "2F", "31", "80", "FF", "", "0000", "0030", "3000"]:
        search_case(written(search_tree(mode=bytes.fromhex(mode))))
    sizes = [b"", b"\x00", b"\x05", b"\xff", b"\x00\x00", b"\x01\x02", b"\xff\xff", b"\x00\x00\x01", b"\x01\x02\x03\x04"]
    for v in sizes:
        for key in ("file", "offset", "number"):
            search_case(written(search_tree(**{key: v})))
    for n in [0, 1, 2] + list(range(84, 130)) + list(range(212, 260)) + [300, 980]:
        if n < 3 or n % 3 == 0 or n in (86, 91, 98, 127, 128, 214, 219, 226, 255, 256):
            search_case(written(search_tree(text=bytes([n % 251]) * n)))
    for path in paths_of(plain):
        for form in (1, 2, 3, 4):
            search_case(written(plain, {path: form}))
            search_case(written(search_tree(text=b"t" * 128), {path: form}))
        if path:
            node = at_path(plain, path)
            extra = ("80", b"\x00")
            for new in ([], [node, node], [extra, node], [node, extra], [("C0", b"")], [("52", b"\x00")], [("53", []), node]):
                search_case(written(with_path(plain, path, new)))
    base = written(plain)
    for way in ([0, 2, 1], [1, 0, 2], [2, 1, 0], [1, 2, 0], [2, 0, 1]):
        search_case(written((plain[0], [plain[1][i] for i in way])))
    mode, window = plain[1][1][1]
    search_case(written(with_path(plain, (1,), [("A1", [window, mode])])))
    for i in range(len(base)):
        search_case(base[:i])
        for by in (1, 0xFF, 0x80):
            search_case(base[:i] + bytes([(base[i] + by) % 256]) + base[i + 1 :])
    for more in (b"\x00", b"\xff", b"\x51\x01\x01", base):
        search_case(base + more)
    search_case(b"\x00" + base)
    for _ in range(300):
        file, offset, number = (some_bytes(RANDOM.choice((1, 1, 2, 2, 3))) for _ in range(3))
        data = written(search_tree(file, RANDOM.choice((b"\0", b"\x30")), offset, number, some_bytes(RANDOM.randint(1, 12))))
        for _ in range(RANDOM.randint(0, 2)):
            data = damage_bytes(data)
        search_case(data)


def updates():
    plain = bytes.fromhex("5401005302AABB")
    trees = [[("54", b"\x00"), ("53", b"\xaa\xbb")], [("54", b"\x01\x02"), ("53", b"")], [("54", b"\x00"), ("53", b"q" * 128)],
             [("54", b"\xff\xff"), ("53", b"q" * 256)], [("54", b"\x7f"), ("53", b"q" * 127)], [("54", b"\x80"), ("53", b"q" * 255)]]
    for tree in trees:
        for first in (0, 1, 2, 3, 4):
            for second in (0, 1, 2, 3, 4):
                update_data_case(written(tree[0], {(): first}) + written(tree[1], {(): second}))
    offset, data = (written(t) for t in trees[0])
    for more in (b"", b"\x00", b"\xc0\x00", offset, data):
        for parts in ((offset, data), (data, offset), (offset,), (data,), (), (offset, data, data), (offset, offset, data)):
            update_data_case(b"".join(parts) + more)
            update_data_case(more + b"".join(parts))
    for v in OFFSETS:
        update_data_case(written(("54", v)) + data)
    update_data_case(offset + written(("C0", b"\xaa\xbb")))
    for i in range(len(plain)):
        update_data_case(plain[:i])
        for by in (1, 0xFF, 0x80):
            update_data_case(plain[:i] + bytes([(plain[i] + by) % 256]) + plain[i + 1 :])
    for _ in range(250):
        made = written(("54", some_bytes(RANDOM.choice((1, 2, 3))))) + written(("53", some_bytes(RANDOM.randint(0, 9))))
        for _ in range(RANDOM.randint(0, 2)):
            made = damage_bytes(made)
        update_data_case(made)


# of none to five bytes, with leading zeros, at the borders of one, two and three bytes
OFFSETS = [b"", b"\x00", b"\xff", b"\x00\x00", b"\x12\x34", b"\x7f\xff", b"\xff\xff", b"\x00\x00\x00", b"\x00\x00\x07", b"\x01\x02\x03", b"\x01\x00\x00",
           b"\x01\xff\xff", b"\x02\x00\x00", b"\xff\xff\xff", bytes(4), b"\x00\x01\x00\x00", b"\x01\x00\x00\x00", bytes(5)]


def offsets():
    """The data of READ BINARY B1: `54` alone."""
    for v in OFFSETS:
        for form in (0, 1, 2, 3, 4):
            offset_case(written(("54", v), {(): form}))
        for more in (b"\x00", b"\x54\x01\x08", b"\x53\x00", b"\xc0\x00"):
            offset_case(written(("54", v)) + more)
            offset_case(more + written(("54", v)))
    for tag in ("53", "55", "D4", "5400", "7F76", "02"):
        offset_case(written((tag, b"\x01\x01")))
    for data in (b"", b"\x54", b"\x54\x01", b"\x54\x02\x01", b"\x54\x03\x01\x02", b"\x54\x80\x01", b"\x54\x80\x01\x00\x00"):
        offset_case(data)
    for _ in range(250):
        offset_case(damage_bytes(written(("54", some_bytes(RANDOM.randint(1, 3))))))


def references():
    for v in (b"", b"\x08", b"\x01\x01", b"\x00", b"\xff\xff", b"\x01\x02\x03"):
        for form in (0, 1, 2, 3, 4):
            reference_case(written(("51", v), {(): form}))
        for more in (b"\x00", b"\x51\x01\x08", b"\xc0\x00"):
            reference_case(written(("51", v)) + more)
            reference_case(more + written(("51", v)))
    for tag in ("50", "52", "D1", "5100", "7F76"):
        reference_case(written((tag, b"\x01\x01")))
    for data in (b"", b"\x51", b"\x51\x01", b"\x51\x02\x01", b"\x51\x80\x01", b"\x51\x80\x01\x00\x00"):
        reference_case(data)
    for _ in range(250):
        reference_case(damage_bytes(written(("51", some_bytes(RANDOM.randint(1, 2))))))


def depths():
    for value in (b"", b"v", b"nine byte", b"ten bytes."):
        data = written(("81", value))
        for tag in ("A4", "A3", "A2", "A1", "A0"):
            nested_case(data)
            nested_case(data + b"\0")
            data = written((tag, data))
            nested_case(data[:-1])
        nested_case(data)
    for _ in range(60):
        data = written(("A3", [("A4", [("81", some_bytes(RANDOM.randint(0, 9)))])]))
        for tag in ("A2", "A1"):
            data = written((tag, data))
            nested_case(damage_bytes(data) if RANDOM.random() < 0.6 else data)


def windows():
    record = b"5F4403FRA|tail"
    for offset in (0, 1, 6, 7, 12, 13, 14, 15, 100, 65535, HUGE):
        for number in (0, 1, 3, 4, 7, 8, 13, 14, 15, 65535, HUGE, HUGE - 5):
            window_case(record, offset, number)
            matches_case(record, offset, number, b"FRA")
    for offset in range(5, 8):
        for number in range(1, 7):
            matches_case(b"......FRA......", offset, number, b"FRA")
            matches_case(b"......FRA", offset, number, b"FRA")
            matches_case(b"FRA......", offset - 5, number, b"FRA")
    for text in (b"", b"F", b"l", b"5", record, record + b"x", record[1:], record[:-1], b"R" * 40):
        occurs_case(record, text)
        occurs_case(b"", text)
        occurs_case(text, record)
        for offset, number in ((0, 0), (0, 14), (0, 13), (1, 0), (14, 0), (15, 0)):
            matches_case(record, offset, number, text)
    for n in (1, 2, 3, 10, 40):
        for m in range(1, 6):
            occurs_case(b"a" * n + b"b", b"a" * m + b"b")
            occurs_case(b"a" * n, b"a" * m + b"b")
            occurs_case((b"a" * n + b"b") * 3 + b"c", b"a" * m + b"bc")
            occurs_case((b"a" * m + b"b") * 4, (b"a" * m + b"b") * 3 + b"a")
            occurs_case(b"ab" * n + b"a", b"ab" * m)
            occurs_case(b"aab" * n, b"aab" * m + b"aac")
    occurs_case(b"a" * 900, b"a" * 500 + b"b")
    occurs_case(b"a" * 900 + b"b", b"a" * 500 + b"b")


def long_strings():
    """Strings over 1,024 bytes: there, there but for a byte, and of repeats."""
    for n in (1023, 1024, 1025):
        text = b"a" * (n - 1) + b"b"
        occurs_case(b"a" * 1300 + b"b", text)
        occurs_case(b"a" * 1300, text)
        occurs_case(b"a" * 700 + b"b" + text + b"a", text)
    text = some_bytes(1400)
    occurs_case(text + text, text)
    occurs_case(text[:-1] + text, text)
    occurs_case(text[:1200] + text[:1300] + b"x", text)
    period = (b"ab" * 40 + b"c") * 15
    occurs_case(period * 2, period)
    occurs_case(period[1:] + period[:-1], period)
    occurs_case(period[:1030] + period, period)
    matches_case(b"x" + text + b"x", 1, 1400, text)
    matches_case(b"x" + text + b"x", 1, 1399, text)
    matches_case(b"x" + text + b"x", 2, 0, text)


def random_windows():
    def letters(n):
        return bytes(RANDOM.choice(b"ab") for _ in range(n))

    for _ in range(300):
        record = letters(RANDOM.randint(0, 20))
        offset, number = RANDOM.randint(0, len(record) + 2), RANDOM.randint(0, len(record) + 2)
        matches_case(record, offset, number, letters(RANDOM.randint(1, 5)))
    for _ in range(100):
        record = letters(RANDOM.randint(0, 16))
        window_case(record, RANDOM.randint(0, len(record) + 2), RANDOM.randint(0, len(record) + 2))
    for _ in range(300):
        data = letters(RANDOM.randint(0, 60))
        at, n = RANDOM.randint(0, len(data)), RANDOM.randint(1, 14)
        text = data[at : at + n] or b"b"
        if RANDOM.random() < 0.6:
            i = RANDOM.randrange(len(text))
            text = text[:i] + letters(1) + text[i + 1 :] + letters(RANDOM.randint(0, 2))
        occurs_case(data, text)


def writing():
    borders = {v for k in range(1, 9) for v in (256**k - 1, 256**k, 256**k + 1, 2 ** (8 * k - 1)) if v <= HUGE}
    for n in sorted(borders | {0, 1, 34, 127, 128}):
        fewest_case(n)
        for at, room in ((0, 12), (2, 10), (0, fewest(n) + 2), (0, fewest(n) + 1), (3, fewest(n) + 4)):
            put_number_case(b"." * room, at, 0x81, n)
    for n in (0, 1, 0x7F, 0x80, 0x81, 0xFF, 0x100, 0x101, 0xFFFF, 0x10000, 2**32, HUGE):
        for tag in (0, 1, 0x51, 0x82, 0xFF, 0x100, 0x7F76, 0x7F78, 0xFFFF, 0x10000, HUGE):
            put_head_case(b"." * 6, 1, tag, n)
        for room in range(7):
            put_head_case(b"." * room, 0, 0x7F76, n)
            put_head_case(b"." * room, 1, 0x51, n)
    for limit in [*range(7), *range(125, 136), *range(252, 265), 1024, 2047, 2048, 2049, 65534, 65535]:
        for most in (0, 1, 2, 126, 127, 128, 129, 254, 255, 256, 257, 2043, 2044, 2045, 131072, HUGE):
            within_case(limit, most)
    for at in (0, 3, 4, 5, 6, 7, 2**32, HUGE - 1, HUGE):
        put_head_case(b"......", at, 0x51, 5)
        put_number_case(b"......", at, 0x02, 5)
    for _ in range(250):
        n = RANDOM.getrandbits(RANDOM.randint(1, 64))
        fewest_case(n)
        put_number_case(some_bytes(RANDOM.randint(0, 12)), RANDOM.randint(0, 6), RANDOM.randrange(256), n)
        length = RANDOM.getrandbits(RANDOM.randint(1, 17))
        put_head_case(some_bytes(RANDOM.randint(0, 8)), RANDOM.randint(0, 5), RANDOM.getrandbits(RANDOM.choice((8, 16))), length)


GROUPS = (
    [whole_images, large_images, torn_images, wrong_kinds, lone_files, damaged_records, damaged_biometrics, appends, rules]
    + [random_images, random_bodies]
    + [lengths, searches, updates, offsets, references, depths, windows, long_strings, random_windows, writing]
    + [cuts, cuts_in_images, cut_activations, behind_cuts, random_cuts]
)


def main():
    for group in GROUPS:
        group()
    LINES.append("a torn or unknown case")
    stdin = b"".join(CASES) + CASES[0][:-1]
    assert len(stdin) <= 524288, "more than the program has room for"
    crate = os.path.join(os.path.dirname(os.path.abspath(__file__)), "..", "..", "crates", "test_lower")
    with open(os.path.join(crate, "stdin"), "wb") as f:
        f.write(stdin)
    with open(os.path.join(crate, "stdout"), "w") as f:
        f.write("\n".join(LINES) + "\n")
    if "--count" in sys.argv:
        for kind in sorted(KINDS):
            print(f"{kind}: {KINDS[kind]}")
        print(f"{len(CASES)} cases, {len(stdin)} bytes")


main()
