#!/usr/bin/env python3
"""Makes what the program `test_worked` is run on, and what it must write: crates/test_worked/stdin and stdout.

The cases are the card to try of docs/RULES.md, searches by every byte, and READ BINARY B1 at its edges. The answers to the card are the ones
that its source prints, those to the other searches follow clause Q4, those to B1 clauses Y7 to Y11 and T5; the bytes of an image and of a
reply are built here, from the rules of the card image, of SEARCH RECORD and of READ BINARY. Nothing is taken from the program.

usage: python3 tests/worked/cases.py [--count]     (the same cases each time; --count says how many calls there are)
"""
import os
import sys

stdin, stdout = bytearray(), []


# ---- the card image --------------------------------------------------------------------------------------------------------------

def section(kind, body):
    return len(body).to_bytes(4, "little") + kind.to_bytes(2, "little") + body


def records(size, *kept):
    """A record body of `size` bytes: the count, each record behind its length, then free room."""
    body = len(kept).to_bytes(2, "little") + b"".join(len(r).to_bytes(2, "little") + r for r in kept)
    return body + bytes(size - len(body))


def biometrics(state, written, room):
    return bytes([state]) + len(written).to_bytes(4, "little") + written + bytes(room - len(written))


def travel(size, *entries):
    """A card with the travel application, these records in EntryRecords, each body of `size` bytes."""
    return section(0x0101, records(size, *entries)) + section(0x0102, records(size)) + section(0x011A, records(size))


# ---- certificates: flags, travel byte, visa byte, 17 biometrics bytes ------------------------------------------------------------

ALL = bytes([0x07, 0x0F, 0x0F]) + bytes([0xFF] * 17)
NO_TRAVEL = bytes([0x06]) + ALL[1:]
ONE_BIT = bytes([0x07, 0, 0]) + bytes([0, 0, 0x80]) + bytes(14)    # biometrics byte 3 = 80


# ---- cases -----------------------------------------------------------------------------------------------------------------------

def card(image, certificates=(ALL, ALL, ALL)):
    stdin.extend(b"\x01" + b"".join(certificates) + len(image).to_bytes(4, "little") + image)
    stdout.append("0")                      # opening looks at the rights only, and these are 60 bytes


def call(command, status, data=""):
    """A command in hex that is taken, and its answer."""
    put(command)
    stdout.append("0 " + (data + status).lower())


def refused(command, number):
    put(command)
    stdout.append(f"{number} -")            # length 0: no response


def put(command):
    c = bytes.fromhex(command)
    stdin.extend(b"\x02" + len(c).to_bytes(2, "little") + c)


def look(image):
    stdin.extend(b"\x03")
    stdout.append("image " + image.hex())


SELECT_TRAVEL = "00A4040C07A0000002472001"
SELECT_BIOMETRICS = "00A4040C07A0000002472003"
USA, FRA = "5F4403555341", "5F4403465241"
SEARCH = "7F7619510101A10B800100B006020103020103A307B1058103465241"


def append(record):
    """APPEND RECORD to the file with short id 1, extended where the record is over 255 bytes."""
    n = len(record)
    return "00E20008" + (f"{n:02X}" if n < 256 else f"00{n:04X}") + record.hex()


def the_card():
    card(travel(40))
    call(SELECT_TRAVEL, "9000")                                                   # m1
    call("00E2000806" + USA, "9000")                                              # m2
    call("00E2000806" + FRA, "9000")                                              # m3
    look(travel(40, bytes.fromhex(USA), bytes.fromhex(FRA)))
    call("00B20105000000", "9000", USA + FRA)                                     # m4
    call("00B20304000000", "6A83")                                                # m5
    call("00A200F81C" + SEARCH + "00", "9000", "7F7606510101020102")              # m6
    call("00A200F81C" + SEARCH.replace("510101", "510108") + "00", "9000", "7F7606510108020102")
    call("00A200F81C" + SEARCH.replace("B006020103", "B006020102") + "00", "6282")    # m7: the window is 03 46 52
    call("805E0107045102010100", "9000", "7F7809810122820100830102")              # m8
    call(append(bytes(21)), "6A84")                                               # m9
    call(append(bytes(range(20))), "9000")
    call(append(bytes(392)), "6700")
    call(append(bytes(391)), "6A84")
    call("00B2010400", "6700")                                                    # m10
    look(travel(40, bytes.fromhex(USA), bytes.fromhex(FRA), bytes(range(20))))


def without_the_flag():
    """m1 where one certificate lacks the travel flag: the first, the second, the third."""
    for i in range(3):
        card(travel(40), [NO_TRAVEL if j == i else ALL for j in range(3)])
        call(SELECT_TRAVEL, "6982")
        look(travel(40))


def found(matches, reference=0x01):
    """The reply to a search by a reference of one byte: 7F76 {51 01 reference, 02 01 nn for each match}."""
    inner = bytes([0x51, 1, reference]) + b"".join(bytes([2, 1, n]) for n in matches)
    n = len(inner)
    length = bytes([n]) if n < 128 else bytes([0x81, n]) if n < 256 else bytes([0x82]) + n.to_bytes(2, "big")
    return (b"\x7F\x76" + length + inner).hex()


def many_matches():
    card(travel(2000))
    call(SELECT_TRAVEL, "9000")
    kept = []
    short, long = "00A200F81C" + SEARCH + "00", "00A200F800001C" + SEARCH + "0000"
    for n in range(1, 85):
        kept.append(bytes.fromhex(FRA))
        call(append(kept[-1]), "9000")
        if n in (41, 42, 82, 83):
            call(short, "9000", found(range(1, n + 1)))
    assert len(found(range(1, 84))) == 2 * 256 and len(found(range(1, 85))) == 2 * 259
    call(short, "6700")
    call(long, "9000", found(range(1, 85)))
    look(travel(2000, *kept))


# the SELECT of the master file or of an application, and the bytes by which a search means one of its files: the short id itself, or in
# b8 to b4; behind a byte the number of the record that matches there, or the status word
SPELLINGS = [("00A4000C023F00", {0x01: "6981", 0x08: "6981", 0x1E: "6981", 0xF0: "6981"}),
             (SELECT_TRAVEL, {0x01: 1, 0x08: 1, 0x02: 2, 0x10: 2, 0x1A: 3, 0xD0: 3}),
             ("00A4040C07A0000002472002", {0x03: 4, 0x18: 4, 0x1A: 5, 0xD0: 5}),
             (SELECT_BIOMETRICS, {0x1A: 6, 0xD0: 6})]


def every_byte():
    """A search by each of the 256 bytes, wherever one can be. In the nth record file the nth record alone matches."""
    kinds = [0x0101, 0x0102, 0x011A, 0x0203, 0x021A, 0x031A]
    image = b"".join(section(kind, records(60, *[bytes.fromhex(USA)] * n, bytes.fromhex(FRA))) for n, kind in enumerate(kinds))
    image += section(0x0401, biometrics(0, bytes.fromhex(FRA), 6))
    card(image)
    for select, files in SPELLINGS:
        call(select, "9000")
        for byte in range(256):
            answer = files.get(byte, "6A82")
            reply = ("9000", found([answer], byte)) if isinstance(answer, int) else (answer,)
            call("00A200F81C" + SEARCH.replace("510101", f"5101{byte:02X}") + "00", *reply)
    look(image)


def update(offset):
    return f"00D70205075401{offset:02X}5302AABB"


def biometrics_card():
    def image(state, written):
        return section(0x031A, records(40)) + section(0x0405, biometrics(state, written, 16))

    card(image(0, b""), [ONE_BIT] * 3)
    call(SELECT_BIOMETRICS, "9000")
    call(update(0), "9000")
    look(image(0, bytes.fromhex("AABB")))
    call(update(3), "6A80")
    call(update(2), "9000")
    look(image(0, bytes.fromhex("AABBAABB")))
    call("00440000", "9000")
    call("00B0000000", "6982")
    look(image(1, bytes.fromhex("AABBAABB")))


# Ne of READ BINARY B1, and how many bytes of the file its reply then has: clause T5
FITS = [(3, 1), (4, 2), (129, 127), (130, 127), (131, 128), (132, 129), (255, 252), (256, 253), (258, 255), (259, 255), (260, 256), (261, 257),
        (2047, 2043), (2048, 2044), (2049, 2044), (65535, 2044), (65536, 2044)]
CONTENT = bytes((7 * i + i // 256) % 256 for i in range(2100))


def odd(p1p2, data, ne):
    """READ BINARY B1 with an extended Le."""
    return f"00B1{p1p2}00{len(data) // 2:04X}{data}{ne % 65536:04X}"


def wrapped(content):
    """`53` with the length in its one form, and the bytes."""
    n = len(content)
    length = bytes([n]) if n < 128 else bytes([0x81, n]) if n < 256 else bytes([0x82]) + n.to_bytes(2, "big")
    return (b"\x53" + length + content).hex()


def wrapped_reads():
    def image(written):
        return section(0x031A, records(40)) + section(0x0401, biometrics(0, CONTENT, 2100)) + section(0x0402, biometrics(0, written, 9))

    card(image(b""))
    call(odd("0000", "540100", 256), "6986")                                     # no current file
    call(odd("0201", "540100", 256), "6A82")                                     # the application is not selected
    call(odd("2F01", "54010E", 256), "9000", wrapped(bytes.fromhex("0802")))     # the end of EF.ATR/INFO
    call("00B12F01035401005C", "9000", wrapped(bytes.fromhex("47038601E07F66080202040002020802")))
    call(SELECT_BIOMETRICS, "9000")
    call(odd("011A", "540100", 256), "6981")
    call(odd("0203", "540100", 256), "6A82")
    call(odd("0202", "540100", 256), "6B00")                                     # nothing is written there
    call(odd("0201", "540100", 2), "6700")
    call(odd("0201", "54020834", 2), "6B00")                                     # 6B00 comes first
    for ne, n in FITS:
        assert len(wrapped(CONTENT[:n])) // 2 <= min(ne, 2048) < len(wrapped(CONTENT[:n + 1])) // 2
        call(odd("0201", "540100", ne), "9000", wrapped(CONTENT[:n]))
    call("00B10000035401070300", "6700")                                         # a byte behind Le
    call("00B100000354010703", "9000", wrapped(CONTENT[7:8]))                     # short Le; 0201 is the current file now
    call("00B100000354010700", "9000", wrapped(CONTENT[7:260]))                   # 256
    for offset, data in [(7, "540107"), (7, "54020007"), (7, "5403000007"), (300, "5402012C"), (300, "540300012C"), (2099, "54020833"), (2099, "5403000833")]:
        call(odd("0201", data, 65536), "9000", wrapped(CONTENT[offset:offset + 2044]))
    for data in ("54020834", "5403000834", "5403010000", "5403FFFFFF"):
        call(odd("0201", data, 65536), "6B00")
    for data in ("5400", "540400000007", "54810107", "530107", "540107530100", "5401075401", "5402FF"):
        call(odd("0201", data, 65536), "6A80")
    call("00B10201", "6700")                                                     # neither Lc nor Le
    call("00B1020100", "6700")                                                   # no Lc
    call("00B1020103540107", "6700")                                             # no Le
    call("00B1020303530107", "6700")                                             # no Le, before wrong data and a file that is not there
    call("00B1020300", "6700")                                                   # no Lc, before a file that is not there
    call("00B0083300", "9000", CONTENT[2099:].hex())                              # B0 reads the same byte
    call("00D702020A540300000053020102", "6700")                                 # Lc says one byte more than there is
    call("00D7020209540300000053020102", "9000")                                 # UPDATE BINARY with an offset of three bytes
    call(odd("0000", "540100", 4), "9000", wrapped(bytes([1, 2])))
    call("00D702020A54040000000253020102", "6A80")                               # and with one of four
    look(image(bytes([1, 2])))


def refusals():
    """An image that is no card's: a torn section, a record of no bytes, an application that is not whole."""
    whole = travel(40)
    torn = whole[:-1]
    counted = section(0x0101, b"\x01" + records(40)[1:]) + whole[46:]
    for image in (torn, counted, whole[:92]):
        card(image)
        refused(SELECT_TRAVEL, 2)
        look(image)


def main():
    the_card()
    without_the_flag()
    many_matches()
    every_byte()
    biometrics_card()
    wrapped_reads()
    refusals()
    if "--count" in sys.argv:
        print(f"{len(stdout)} lines, {sum(not l.startswith('image') for l in stdout)} of them calls, {len(stdin)} bytes of input")
    home = os.path.join(os.path.dirname(os.path.abspath(__file__)), "..", "..", "crates", "test_worked")
    with open(os.path.join(home, "stdin"), "wb") as f:
        f.write(stdin)
    with open(os.path.join(home, "stdout"), "w") as f:
        f.write("\n".join(stdout) + "\n")


main()
