#!/usr/bin/env python3
"""Makes what the program `test_chain` is run on, and what it must write: crates/test_chain/stdin and stdout.

The cases are commands whose data comes in links (ISO's command chaining). Each case says its answer and, where the session moves, where to; both
follow the rules of the command that the links make up (docs/RULES.md). What a chain is, which is kept here beside the card, follows from two rules:
the bytes of a link that is answered 9000 stand behind those before it, and everything else that is answered ends the chain. Nothing is taken from
the program.

usage: python3 tests/chain/cases.py [--count]     (the same cases each time; --count says how many calls there are)
"""
import os
import sys

stdin, stdout = bytearray(), []


# ---- the card image --------------------------------------------------------------------------------------------------------------

def section(kind, body):
    return len(body).to_bytes(4, "little") + kind.to_bytes(2, "little") + body


def records(size, *kept):
    """A record body of `size` bytes: the count, each record behind its length, then free room."""
    body = len(kept).to_bytes(2, "little") + b"".join(len(r).to_bytes(2, "little") + r for r in kept)
    return body + bytes(size - len(body))


def biometrics(state, written, room):
    return bytes([state]) + len(written).to_bytes(4, "little") + written + bytes(room - len(written))


def image(files):
    return b"".join(section(kind, body) for kind, body in sorted(files.items()))


USA, FRA = bytes.fromhex("5F4403555341"), bytes.fromhex("5F4403465241")


def full_card():
    """Travel with two records and room for a long certificate; a biometrics file that takes 1,015 bytes, and one that is Activated."""
    return {0x0101: records(40, USA, FRA), 0x0102: records(40), 0x011A: records(1000), 0x031A: records(40),
            0x0401: biometrics(0, b"", 1015), 0x0402: biometrics(1, b"\xAA\xBB", 2)}


def small_card():
    return {0x0101: records(40), 0x0102: records(2), 0x011A: records(2)}


# ---- the session: rights, application, place, chain --------------------------------------------------------------------------------

ALL = bytes([0x07, 0x0F, 0x0F]) + bytes([0xFF] * 17)
READ_ONLY = bytes([0x07, 0x01, 0x01]) + bytes(17)          # records of travel and visa may be read, and nothing else
CLEARED = {ALL: ALL[:3] + b"\x03" + ALL[4:], READ_ONLY: READ_ONLY}    # two of the eight bits for biometrics certificates mean nothing
SESSION = 1054
MASTER, TRAVEL, BIOMETRICS = 0, 1, 3


class State:
    """What the card and the session are: its files; rights, application, file and record; the chain's INS, P1, P2 and bytes."""
    files, rights, application, file, record, header, joined = {}, b"", MASTER, 0, 0, b"", b""


now = State()


def chain_bytes(header, joined):
    return len(joined).to_bytes(2, "little") + (header or bytes(3)) + joined


def session():
    place = 2 if now.record else 1 if now.file else 0
    head = now.rights + bytes([now.application, place]) + now.file.to_bytes(2, "little") + bytes([now.record])
    return (head + chain_bytes(now.header, now.joined)).ljust(SESSION, b"\0")


def drop():
    now.header, now.joined = b"", b""


def stand(application, file=0, record=0):
    now.application, now.file, now.record = application, file, record


# ---- cases -----------------------------------------------------------------------------------------------------------------------

def short(n):
    return n.to_bytes(2, "little")


def card(files, certificate=ALL):
    whole = image(files)
    stdin.extend(b"\x01" + certificate * 3 + len(whole).to_bytes(4, "little") + whole)
    stdout.append("0")                      # opening looks at the rights only, and these are 60 bytes
    now.files, now.rights = files, CLEARED[certificate]
    stand(MASTER)
    drop()


def put(command, response=2050):
    c = bytes.fromhex(command)
    stdin.extend(b"\x02" + short(response) + short(len(c)) + c)


def call(command, status, data="", at=None):
    """A command that is no link, or a link that is not taken: its answer, and where the session stands then. The chain ends."""
    put(command)
    if at:
        stand(*at)
    drop()
    stdout.append("0 " + (data + status).lower() + " " + session()[:30].hex())


def link(header, data, extended=False):
    """A link but the last, which is taken. CLA 90 goes with FMM, 10 with all others."""
    put(("90" if header.startswith("5E") else "10") + header + lc(data, extended) + data.hex())
    now.header, now.joined = bytes.fromhex(header), now.joined + data
    stdout.append("0 9000 " + session()[:30].hex())


def last(header, data, status, answer="", le="", at=None):
    """The last link."""
    call(("80" if header.startswith("5E") else "00") + header + (lc(data) + data.hex() if data else "") + le, status, answer, at)


def lc(data, extended=False):
    return f"00{len(data):04X}" if extended or len(data) > 255 else f"{len(data):02X}"


def refused(command, number, response=2050, lent=None):
    """A refused command changes nothing. `lent` is what the session buffer has, where that is no session."""
    put(command, response)
    seen = session() if lent is None else lent
    stdout.append(f"{number} - " + (seen[:30].hex() or "-"))


def cut(command, stores, made, refusal=0, lent=None):
    """A cut: `made` is how many stores the whole command has. The session stays, and its chain."""
    c = bytes.fromhex(command)
    stdin.extend(b"\x03" + short(stores) + short(len(c)) + c)
    seen = session() if lent is None else lent
    stdout.append(f"{refusal} {made} " + (seen[:30].hex() or "-"))


def give(lent):
    """Lends these bytes as the session. Zeros at the end need not be sent."""
    given = lent.rstrip(b"\0")
    stdin.extend(b"\x04" + short(len(lent)) + short(len(given)) + given)


def look_card():
    stdin.extend(b"\x05")
    stdout.append("image " + image(now.files).hex())


def look_session(lent=None):
    stdin.extend(b"\x06")
    stdout.append("session " + ((session() if lent is None else lent).hex() or "-"))


# ---- commands --------------------------------------------------------------------------------------------------------------------

TRAVEL_AID, BIOMETRICS_AID = bytes.fromhex("A0000002472001"), bytes.fromhex("A0000002472003")
INFO = bytes.fromhex("47038601E07F66080202040002020802")     # E0: command chaining, and extended lengths
FOREIGN = "00B2010C000000"                                   # READ RECORD, which needs no data
APPEND_ENTRY, APPEND_EXIT, APPEND_CERTIFICATE, SEARCH = "E20008", "E20010", "E200D0", "A200F8"


def object_of(tag, value):
    n = len(value)
    length = bytes([n]) if n < 128 else bytes([0x81, n]) if n < 256 else bytes([0x82]) + n.to_bytes(2, "big")
    return tag.to_bytes(2 if tag > 0xFF else 1, "big") + length + value


def search(string, file=b"\x08"):
    """What a search for a string anywhere in each record asks."""
    window = object_of(0xA1, bytes.fromhex("800100") + object_of(0xB0, bytes.fromhex("020100020100")))
    return object_of(0x7F76, object_of(0x51, file) + window + object_of(0xA3, object_of(0xB1, object_of(0x81, string))))


def found(*numbers, file=b"\x08"):
    return object_of(0x7F76, object_of(0x51, file) + b"".join(bytes([2, 1, n]) for n in numbers)).hex()


def update(content, offset=bytes(3)):
    return object_of(0x54, offset) + object_of(0x53, content)


def select(aid, application):
    call("00A4040C07" + aid.hex(), "9000", at=(application,))


def pieces(data, *sizes):
    """Data cut into pieces of these sizes, and what is left."""
    cut_off = []
    for n in sizes:
        cut_off.append(data[:n])
        data = data[n:]
    return [*cut_off, data]


# ---- what a chain makes ----------------------------------------------------------------------------------------------------------

CERTIFICATE = bytes((11 * i + i // 256) % 256 for i in range(900))


def long_certificate():
    """900 bytes in four links; in two, with extended lengths; whole. The record is the same, and the session."""
    for sizes in ((228, 228, 228), (300, 100, 255), (899,), (1,), ()):
        card(full_card())
        select(TRAVEL_AID, TRAVEL)
        *links, end = pieces(CERTIFICATE, *sizes)
        for part in links:
            link(APPEND_CERTIFICATE, part)
            look_session()
        if links:
            look_card()                                        # nothing is stored before the last link
        now.files[0x011A] = records(1000, CERTIFICATE)
        last(APPEND_CERTIFICATE, end, "9000", at=(TRAVEL, 0x011A, 1))
        look_card()
        look_session()
        call("00B201D4000000", "9000", CERTIFICATE.hex())


def every_cutting():
    """A record of six bytes, cut in each of the 32 ways, and its last link with or without the rest of the data."""
    for cuts in range(32):
        for empty in (False, True):
            card(small_card())
            select(TRAVEL_AID, TRAVEL)
            parts = [USA[:1]]
            for i in range(1, 6):
                if cuts >> i - 1 & 1:
                    parts.append(b"")
                parts[-1] += USA[i:i + 1]
            for part in parts if empty else parts[:-1]:
                link(APPEND_ENTRY, part)
            now.files[0x0101] = records(40, USA)
            last(APPEND_ENTRY, b"" if empty else parts[-1], "9000", at=(TRAVEL, 0x0101, 1))
            look_card()


def linked_searches():
    """A search in two links, cut at every place, and one whose last link is Le alone; its own Le counts."""
    card(full_card())
    select(TRAVEL_AID, TRAVEL)
    asked = search(b"FRA")
    for n in range(1, len(asked) + 1):
        link(SEARCH, asked[:n])
        last(SEARCH, asked[n:], "9000", found(2), le="00", at=(TRAVEL, 0x0101, 2))
    for le, status in (("", "6700"), ("0000", "6700"), ("01", "6700"), ("000000", "9000")):
        link(SEARCH, asked)
        last(SEARCH, b"", status, found(2) if status == "9000" else "", le=le)
    look_card()
    look_session()


def other_commands():
    """SELECT, FMM and READ BINARY B1 in links are answered. B0, READ RECORD and ACTIVATE have no data, so their chains end in 6700."""
    card(full_card())
    for n in range(1, 8):
        link("A4040C", TRAVEL_AID[:n])
        last("A4040C", TRAVEL_AID[n:], "9000", at=(TRAVEL,))
    asked = object_of(0x51, b"\x01\x01")
    for n in range(1, 5):
        link("5E0107", asked[:n])
        last("5E0107", asked[n:], "9000", "7F7809810122820100830102", le="00", at=(TRAVEL, 0x0101))
    link("5E0007", b"\x51")
    last("5E0007", b"", "6700", le="00")
    call("00A4000C023F00", "9000", at=(MASTER,))
    link("B12F01", b"\x54\x01")
    last("B12F01", b"\x00", "9000", object_of(0x53, INFO).hex(), le="00", at=(MASTER, 0x2F01))
    link("B10000", b"\x54")
    last("B10000", b"\x01\x04", "9000", "5301E0", le="03")
    link("B12F01", b"\x54\x01\x0E")
    last("B12F01", b"", "9000", "53020802", le="00")
    for header, data, le in (("B08100", b"", "00"), ("B00000", b"", "00"), ("B08100", b"\x01", "00"), ("B20104", b"", "000000"), ("440000", b"", ""),
                             ("440000", b"\x01", "")):
        link(header, b"\xAA")
        last(header, data, "6700", le=le)
    call("00B0810000", "9000", INFO.hex())
    look_card()
    look_session()


def joins():
    """1,024 bytes are taken, however they are cut, and 1,025 are not: at a link before the last, and at the last."""
    card(full_card())
    select(BIOMETRICS_AID, BIOMETRICS)
    for fill, sizes in enumerate(((1,), (1023,), (512,), (255, 255, 255, 255), (1024,), (1023, 1))):
        content = bytes([fill + 1]) * 1015
        asked = update(content)
        assert len(asked) == 1024
        *links, end = pieces(asked, *sizes)
        for part in links:
            link("D70201", part)
        look_session()
        now.files[0x0401] = biometrics(0, content, 1015)
        last("D70201", end, "9000", at=(BIOMETRICS, 0x0201))
        look_card()
    for sizes, end in (((1024,), 1), ((1,), 1024), ((255, 255, 255, 255), 5), ((1024,), 1024), ((600,), 425)):
        for cla in ("00", "10"):
            for n in sizes:
                link("D70201", bytes(n))
            call(cla + "D70201" + lc(bytes(end)) + bytes(end).hex(), "6700")
            look_session()
    link("D70201", bytes(1024), extended=True)                  # a lone link may have all of it, and no more
    call("10D70201000401" + bytes(1025).hex(), "6700")
    call("10D70201000401" + bytes(1025).hex(), "6700")
    look_card()


# ---- what ends a chain -----------------------------------------------------------------------------------------------------------

def statuses():
    """Status words that only the last link can get: the application, the word, the header, the data, how much of it is in the first link, Le. There
    is no 6A83: READ RECORD alone says it, and has no data."""
    wrong, none = search(b"FRA") + b"\xFF", search(b"GBR")
    return [
        (TRAVEL, "6282", SEARCH, none, 20, "00"),
        (TRAVEL, "6700", APPEND_ENTRY, bytes(392), 200, ""),            # longer than a record of its file
        (TRAVEL, "6700", APPEND_ENTRY, USA, 3, "00"),                   # with Le
        (TRAVEL, "6700", SEARCH, search(b"FRA"), 9, ""),                # without
        (TRAVEL, "6A80", SEARCH, wrong, 20, "00"),
        (TRAVEL, "6A82", APPEND_ENTRY.replace("08", "18"), USA, 3, ""),
        (TRAVEL, "6A82", "A4040C", bytes.fromhex("A0000002471001"), 5, ""),
        (TRAVEL, "6A84", APPEND_ENTRY, bytes(30), 29, ""),
        (TRAVEL, "6986", "E20000", USA, 3, ""),
        (MASTER, "6981", SEARCH, search(b"FRA"), 20, "00"),             # EF.ATR/INFO
        (BIOMETRICS, "6981", "D7011A", update(b"\xCC"), 4, ""),
        (BIOMETRICS, "6982", "D70202", update(b"\xCC"), 4, ""),
        (BIOMETRICS, "6A84", "D70201", update(bytes(1016), b"\0"), 400, ""),    # a byte more than the room has
        (BIOMETRICS, "6A80", "D70201", update(b"\xCC", b"\x07"), 4, ""),
        (BIOMETRICS, "6A86", "5E0102", object_of(0x51, b"\x02\x01"), 2, "00"),
        (BIOMETRICS, "6B00", "B10202", object_of(0x54, b"\x02"), 1, "00"),
        (BIOMETRICS, "6700", "B10202", object_of(0x54, b"\x01"), 1, "02"),
    ]


def every_status():
    """The status of the last link drops the chain. Application and place stay, and the image does."""
    card(full_card())
    for application, status, header, data, n, le in statuses():
        enter(application)
        link(header, data[:n])
        look_session()
        last(header, data[n:], status, le=le)
        look_session()
        look_card()


def enter(application):
    if application == MASTER:
        call("00A4000C023F00", "9000", at=(MASTER,))
    else:
        select(TRAVEL_AID if application == TRAVEL else BIOMETRICS_AID, application)


# commands amid a chain of APPEND RECORD to EntryRecords. What is wrong with the link itself comes first, then a header that is not the chain's, then
# what the command says
AMID = [
    ("00E200", "6700"), ("00E2000802FF", "6700"), ("10E20008000401" + bytes(1025).hex(), "6700"), ("00B201", "6700"),
    ("20E2000801FF", "6E00"), ("0CE2000801FF", "6E00"), ("30E2000801FF", "6E00"), ("20B2010C000000", "6E00"),
    ("00FF000801FF", "6D00"), ("10FF000801FF", "6D00"), ("80E2000801FF", "6D00"), ("90E2000801FF", "6D00"), ("005E010701FF", "6D00"),
    ("105E010701FF", "6D00"), ("80B2010C000000", "6D00"),
    (FOREIGN, "6883"), ("10B2010C01FF", "6883"), ("00E2000001FF", "6883"), ("00E2001001FF", "6883"), ("10E2001001FF", "6883"),
    ("00E2010801FF", "6883"), ("00E2000901FF", "6883"), ("10E2000901FF", "6883"),                   # before 6A86
    ("00E20010", "6883"), ("10E20010", "6883"), ("10E2001001FF00", "6883"), ("00E2001001FF00", "6883"),    # before 6700
    ("10A200F801FF", "6883"), ("00A4000C023F00", "6883"), ("805E0107045102010100", "6883"), ("905E01070151", "6883"), ("00B0000000", "6883"),
    ("00B1010103540100", "6883"), ("00B101010354010000", "6883"), ("00D70101035301FF", "6883"), ("00440000", "6883"),
    ("10E20008", "6700"), ("10E2000800", "6700"), ("10E2000801FF00", "6700"), ("10E20008000000", "6700"), ("00E2000801FF00", "6700"),
]


def foreign_headers():
    """What is sent amid a chain and is none of its links drops it, and no more: the place stays, and the records do."""
    card(full_card())
    select(TRAVEL_AID, TRAVEL)
    call("00B2010C000000", "9000", USA.hex(), at=(TRAVEL, 0x0101))
    for command, status in AMID:
        link(APPEND_ENTRY, b"\x01")
        link(APPEND_ENTRY, b"\x02\x03")
        call(command, status)
    look_card()
    look_session()
    # the same header with another CLA is no other header: no INS has both
    link(APPEND_EXIT, b"\x01")
    now.files[0x0102] = records(40, b"\x01\x02")
    last(APPEND_EXIT, b"\x02", "9000", at=(TRAVEL, 0x0102, 1))
    look_card()


def first_links():
    """A link outside a chain: the status that it gets by itself, and the session stays exactly."""
    card(full_card())
    select(TRAVEL_AID, TRAVEL)
    for command, status in (("10E2000901FF", "6A86"), ("10E2010801FF", "6A86"), ("10E20009", "6A86"), ("10E20008", "6700"), ("10E2000800", "6700"),
                            ("10E2000801FF00", "6700"), ("10A4040001A0", "6A86"), ("10A4030C01A0", "6A86"), ("10B0A00001FF", "6A86"),
                            ("10B0C00001FF", "6A86"), ("1044010001FF", "6A86"), ("1044000101FF", "6A86"), ("10B2010601FF", "6A86"),
                            ("10A200F901FF", "6A86"), ("10A201F801FF", "6A86"), ("905E020701FF", "6A86"), ("905E010801FF", "6A86"), ("10E200", "6700")):
        call(command, status)
    look_session()
    # a link looks for no file and asks for no right: the last one does
    for header, status in (("E20018", "6A82"), ("D70201", "6A80"), ("E20000", "6986")):
        link(header, b"\xFF\xFF")
        last(header, b"\xFF", status)
    card(full_card(), READ_ONLY)
    select(TRAVEL_AID, TRAVEL)
    link(APPEND_ENTRY, b"\xFF")
    last(APPEND_ENTRY, b"\xFF", "6982")
    link("A4040C", BIOMETRICS_AID)
    last("A4040C", b"", "9000", at=(BIOMETRICS,))
    look_card()
    look_session()


def every_class():
    """Each CLA, and behind CLA 10 and 90 each INS."""
    card(full_card())
    for cla in range(256):
        answers = {0x00: ("9000", INFO.hex()), 0x10: ("6700",), 0x80: ("6D00",), 0x90: ("6D00",)}
        call(f"{cla:02X}B0810000", *answers.get(cla, ("6E00",)), at=(MASTER, 0x2F01) if cla == 0 else None)
    for cla, known in ((0x10, {0xA4: "6A86", 0xB0: "9000", 0xB1: "9000", 0xD7: "9000", 0x44: "9000", 0xE2: "9000", 0xB2: "6A86", 0xA2: "6A86"}),
                       (0x90, {0x5E: "9000"})):
        for ins in range(256):
            status = known.get(ins, "6D00")
            if status == "9000":
                link(f"{ins:02X}0000", b"\xAA")
                call(FOREIGN, "6883")
            else:
                call(f"{cla:02X}{ins:02X}000001AA", status)


# ---- sessions that are lent ------------------------------------------------------------------------------------------------------

# INS, P1, P2 of links, and of none
POSSIBLE = ["A4000C", "A4020C", "A4040C", "B00000", "B07FFF", "B08000", "B09FFF", "B10000", "B1FFFF", "D70000", "D7FFFF", "440000", "E20000", "E20008",
            "E200F8", "B20004", "B2FF05", "B201FC", "A200F8", "5E0000", "5E0007", "5E0100", "5E0107"]
IMPOSSIBLE = ["000000", "B30000", "A50C00", "D60000", "5F0000", "FF0000", "10E200", "A4010C", "A4030C", "A4040D", "A40400", "B0A000", "B0C000",
              "B0FFFF", "440100", "440001", "E20100", "E20001", "E20007", "B20100", "B20103", "B20106", "B20107", "A20000", "A201F8", "A200F9",
              "5E0200", "5E0008", "5E0108"]


def with_chain(chain, length=SESSION):
    """The session with the bytes of a chain."""
    return (session()[:25] + chain).ljust(length, b"\0")


def possible_chains():
    """A chain that links could have left is taken. Another command drops it."""
    for header in POSSIBLE:
        for joined in (b"\xAA", bytes(1024), bytes([0xAA]) * 1024):
            give(with_chain(chain_bytes(bytes.fromhex(header), joined)))
            now.header, now.joined = bytes.fromhex(header), joined
            cut("00", 1, 0)
            call("00A2FFFF0101", "6883")                         # a header that none of them has
    look_session()


def impossible_chains():
    """A chain that no links could have left makes bytes that are no session: number 4, and nothing is touched."""
    append = bytes.fromhex(APPEND_ENTRY)
    chains = [chain_bytes(bytes.fromhex(header), b"\xAA") for header in IMPOSSIBLE]
    chains += [chain_bytes(append, b""), chain_bytes(b"", b"").ljust(6, b"\x01"), chain_bytes(b"", b"").ljust(1028, b"\0") + b"\x01",    # no bytes
               b"\x01\x04" + append, b"\x00\x05" + append, b"\xFF\xFF" + append,                             # 1,025, 1,280, 65,535
               chain_bytes(append, b"\xAA") + b"\x01", chain_bytes(append, b"\xAA").ljust(1028, b"\0") + b"\x01"]    # a byte behind
    for chain in chains:
        lent = with_chain(chain)
        assert len(lent) == SESSION
        give(lent)
        refused("00E2000801FF", 4, lent=lent)
        refused("10E2000801FF", 4, lent=lent)
        refused(FOREIGN, 4, lent=lent)
        cut("00E2000801FF", 5, 0, refusal=4, lent=lent)
    look_session(lent)
    look_card()


def buffers():
    """Buffers that are too short are refused; bytes behind a session stay."""
    whole = with_chain(chain_bytes(bytes.fromhex(APPEND_EXIT), b"\xAA"))
    for n in (0, 1, 24, 25, 30, 31, 1053):
        give(whole[:n])
        refused("00E2001001FF", 4, lent=whole[:n])
        cut("00E2001001FF", 5, 0, refusal=4, lent=whole[:n])
        look_session(whole[:n])
    give(whole + b"\xEE")
    now.header, now.joined = bytes.fromhex(APPEND_EXIT), b"\xAA"
    now.files[0x0102] = records(40, b"\xAA\xBB")
    last(APPEND_EXIT, b"\xBB", "9000", at=(TRAVEL, 0x0102, 1))
    look_session(session() + b"\xEE")
    look_card()


def lent_sessions():
    card(full_card())
    select(TRAVEL_AID, TRAVEL)
    call("00B2010C000000", "9000", USA.hex(), at=(TRAVEL, 0x0101))
    possible_chains()
    impossible_chains()
    buffers()


def refusals():
    """A refusal keeps the chain: 1, then 2, then 4. The next link goes on with it."""
    card(full_card())
    select(TRAVEL_AID, TRAVEL)
    link(APPEND_EXIT, b"\x01\x02")
    for command in ("00E2001001FF", "10E2001001FF", FOREIGN, "00"):
        refused(command, 1, response=2049)
        look_session()
    link(APPEND_EXIT, b"\x03")
    now.files[0x0102] = records(40, b"\x01\x02\x03\x04")
    last(APPEND_EXIT, b"\x04", "9000", at=(TRAVEL, 0x0102, 1))
    look_card()
    whole = with_chain(chain_bytes(bytes.fromhex(APPEND_EXIT), b"\xAA"))
    impossible = with_chain(chain_bytes(bytes.fromhex("E20001"), b"\xAA"))
    card({0x0101: records(40), 0x0102: records(40)})             # an application that is not whole
    for lent in (whole, impossible, whole[:1053]):
        give(lent)
        refused("00E2001001FF", 2, lent=lent)
        refused("00E2001001FF", 1, response=2049, lent=lent)
        cut("00E2001001FF", 5, 0, refusal=2, lent=lent)
        look_session(lent)
    look_card()


# ---- cuts ------------------------------------------------------------------------------------------------------------------------

def stored(body, record, stores):
    """A record body without records, behind the first stores of an append: the length, the record, the count's high byte and then its low one."""
    places = [*((2 + i, b) for i, b in enumerate(len(record).to_bytes(2, "little") + record)), (1, 0), (0, 1)]
    body = bytearray(body)
    for at, b in places[:stores]:
        body[at] = b
    return bytes(body)


def cuts():
    """A cut of the last link makes the stores of the join; one of a link before it makes none. The session stays, and its chain."""
    for stores in (0, 1, 2, 3, 686, 687, 902, 903, 904, 905, 65535):
        card(full_card())
        select(TRAVEL_AID, TRAVEL)
        cut("10E200D0E4" + CERTIFICATE[:228].hex(), stores, 0)
        *links, end = pieces(CERTIFICATE, 228, 228, 228)
        for part in links:
            link(APPEND_CERTIFICATE, part)
        for command in ("10E200D0D8" + end.hex(), "00E200D8D8" + end.hex(), "00E200D0D8" + end.hex() + "00", "00"):
            cut(command, stores, 0)
        now.files[0x011A] = stored(records(1000), CERTIFICATE, stores)
        cut("00E200D0D8" + end.hex(), stores, 904)
        look_card()
        look_session()
        # the last link can be sent again: a record that was not counted is none
        if stores < 904:
            now.files[0x011A] = records(1000, CERTIFICATE)
            last(APPEND_CERTIFICATE, end, "9000", at=(TRAVEL, 0x011A, 1))
        else:
            last(APPEND_CERTIFICATE, end, "6A84")
        look_card()
    other_cuts()


def other_cuts():
    """A last link without data; ACTIVATE, which has no data, so that its chain has no stores."""
    card(full_card())
    select(TRAVEL_AID, TRAVEL)
    link(APPEND_EXIT, b"\x01\x02\x03")
    now.files[0x0102] = records(40, b"\x01\x02\x03")
    cut("00E20010", 7, 7)
    look_card()
    select_amid = "00A4040C07" + BIOMETRICS_AID.hex()
    call(select_amid, "6883")
    call(select_amid, "9000", at=(BIOMETRICS,))
    call("00A4020C020201", "9000", at=(BIOMETRICS, 0x0201))
    link("440000", b"\xAA")
    cut("00440000", 1, 0)
    call("00440000", "6700")
    now.files[0x0401] = biometrics(1, b"", 1015)
    cut("00440000", 1, 1)
    look_card()
    look_session()


def main():
    for cases in (long_certificate, every_cutting, linked_searches, other_commands, joins, every_status, foreign_headers, first_links, every_class,
                  lent_sessions, refusals, cuts):
        cases()
    if "--count" in sys.argv:
        calls = sum(not line.startswith(("image", "session")) for line in stdout)
        print(f"{len(stdout)} lines, {calls} of them calls, {len(stdin)} bytes of input, {sum(len(line) + 1 for line in stdout)} of output")
    home = os.path.join(os.path.dirname(os.path.abspath(__file__)), "..", "..", "crates", "test_chain")
    with open(os.path.join(home, "stdin"), "wb") as f:
        f.write(stdin)
    with open(os.path.join(home, "stdout"), "w") as f:
        f.write("\n".join(stdout) + "\n")


main()
