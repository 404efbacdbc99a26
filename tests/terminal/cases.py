#!/usr/bin/env python3
"""Makes what the program `program_terminal` is run on, and what it must write: crates/program_terminal/stdin, stdout, args and data/.

The card is the card to try of docs/RULES.md, in a file, with larger rooms for ExitRecords and travel certificates, so that they can hold stamps
and a long certificate, and with a biometrics file, so that it can be activated. The input is demo/worked.apdu, then lines that cannot be read,
rights in the extensions of certificates, in hexadecimal and in words, where the session stands, help, long lines, what the card holds, moves,
certificates by their references, stamps, commands that are cut, and commands in links. The answers to the commands are the ones that the source
of the rules prints, and for the search by 08 the one of clause T1; the rights follow section B of the rules, the extensions section CE, the
certificates section P, the stamps section TR, the stores of an append clause R7, that of an activation clause N7. What comes of links follows
ISO's command chaining: the join of their data is the data of one command. The words are those of the tables below.

The gate compares standard output alone. `run.py` beside this file compares standard error and the exit status, too.

usage: python3 tests/terminal/cases.py
"""
import os

HERE = os.path.dirname(os.path.abspath(__file__))
ROOT = os.path.join(HERE, "..", "..")
CRATE = os.path.join(ROOT, "crates", "program_terminal")

WORDS = {
    "9000": "Normal processing",
    "6282": "No record matches",
    "6700": "Wrong length",
    "6883": "Last command of the chain expected",
    "6982": "Security status not satisfied",
    "6A82": "File or application not found",
    "6A83": "Record not found",
    "6A84": "Not enough memory space in the file",
    "6A86": "Incorrect parameters P1-P2",
    "6B00": "Wrong offset, at or past the end of the file",
    "6D00": "Instruction not supported",
    "6E00": "Class not supported",
}

ANSWERS = ["9000", "9000", "9000", "5F44035553415F44034652419000", "6A83", "7F76065101010201029000",
           "7F76065101080201029000", "6282", "7F78098101228201008301029000", "6A84", "9000", "6700"]

RECORDS = ["5F4403555341", "5F4403465241", "".join(f"{i:02X}" for i in range(20))]

CANNOT = "! this line cannot be read, and nothing is changed: "
TOO_LONG = "! this line is longer than 65,536 bytes, and nothing is changed"
OPENED = "= session opened"
MOVED = "= moved to a new file"
MALFORMED = "! refused (7): an extension is not well formed, or the rights of a known one have the wrong size"
TWICE = "! refused (8): a certificate has a known extension twice"
NO_CERTIFICATES = "! refused (9): the card or the copy has no well-formed body of travel certificates"

# the longest line that is read, and more input than the room for an image has
LINE = 65536
MUCH = 524288

HELP = """\
Each line is answered. Spaces may stand anywhere in a command and in the bytes of `open`; # starts a comment.
  00 B2 01 0C 00 00 00        a command, in hexadecimal
  10 E2 00 08 02 AA BB        a link: the first part of a command's data, or a further one. CLA 10 stands for 00, 90 for 80; no Le
  00 E2 00 08 01 CC           the last link: the rest of the data, with the same INS, P1 and P2. This is one APPEND RECORD of AA BB CC
                              (any status but 9000 drops the links so far, and so does opening a session)
  open all                    opens a session with every right; `open none` with none
  open travel=read,append visa=read biometrics5=write
                              opens a session with what a certificate would grant
  open FFFF ... FF            opens a session with three certificates, 60 bytes in hexadecimal
  certificates RUN RUN RUN    opens a session with the rights in the extensions of three certificates, and says which these are
                              (a run is hexadecimal without spaces, `-` for none; refused, the session has no rights)
  rights                      says what the session may do
  session                     says the session's application, file, record and chain
  show                        lists what the card holds
  certificate 07              shows the certificate that a stamp names by 07
  certificate 07 other.card   looks for it on the card, and then in the card image of a file
  stamp 07                    reads record 07, in hexadecimal, of EntryRecords as a stamp; `stamp 07 exit` of ExitRecords
  cut 3 00 E2 00 08 01 55     leaves the card as a power cut after the command's first 3 single byte stores does
  move new.card 0101 100 0102 50 011A 40
                              writes the card with other rooms into a new file
  help                        writes this
What `open` grants, one word or more:
  travel, visa, biometrics    to select the application; each word below does that, too
  travel=, visa=              read, append, read-certificates, append-certificates, all
  biometrics=                 read-certificates, append-certificates, all
  biometrics1= to 64=         write (while Deactivated), read (while Activated), all
The card's file holds each change before the answer is written. Messages that begin with ! go to standard error.
Exit status: 0 every line was read and the card is kept; 1 a line could not be read or was refused; 2 no card.
""".split("\n")[:-1]


def section(kind, body):
    return len(body).to_bytes(4, "little") + kind.to_bytes(2, "little") + body


# the rooms of EntryRecords, ExitRecords and travel certificates; of biometrics certificates and Biometrics 1, as a move names them
ROOMS = (40, 1000, 2000)
IRIS = (7, 9)
IRIS_ROOMS = " 031A 7 0401 9"


def to_try():
    return b"".join(section(kind, bytes(room)) for kind, room in zip((0x0101, 0x0102, 0x011A, 0x031A, 0x0401), ROOMS + IRIS))


def record_body(records):
    return len(records).to_bytes(2, "little") + b"".join(len(r).to_bytes(2, "little") + r for r in records)


def certificates_card(*records):
    """A card with these travel certificates, for a desk to keep; five free bytes behind them."""
    bodies = (bytes(2), bytes(2), record_body(records) + b"\xEE" * 5)
    return b"".join(section(kind, body) for kind, body in zip((0x0101, 0x0102, 0x011A), bodies))


# what lies beside the card: a desk's copy with two certificates, one with as many as there may be, one record too many, a card without
# the travel application
FILES = {
    "try.card": to_try(),
    "desk.card": certificates_card(b"\xD1", b"\xD2\xD2"),
    "full.card": certificates_card(*(bytes([n]) for n in range(1, 255))),
    "many.card": certificates_card(*(bytes([n]) for n in range(1, 256))),
    "visa.only": section(0x0203, bytes(2)) + section(0x021A, bytes(2)),
}


def spaced(text):
    text = text.replace(" ", "")
    return " ".join(text[i:i + 2] for i in range(0, len(text), 2)).upper()


# section B of the rules: the bits of the rights, in the order in which the terminal says them
RECORD_RIGHTS = ["read", "append", "read-certificates", "append-certificates"]
FILE_RIGHTS = ["write", "read"]      # while the file is Deactivated, while it is Activated


def certificate(rights):
    """The 20 bytes that grant a list of (name, rights)."""
    c = bytearray(20)
    for name, granted in rights:
        if name in ("travel", "visa"):
            at = 1 + ("travel", "visa").index(name)
            c[0] |= at                                            # B2: b1, b2
            for right in granted:
                c[at] |= 1 << RECORD_RIGHTS.index(right)          # B7
        elif name == "biometrics":
            c[0] |= 4
            for right in granted:
                c[3] |= 1 << RECORD_RIGHTS.index(right) - 2       # B8
        else:
            n = int(name[len("biometrics"):])
            i = (n - 1) % 4
            c[0] |= 4
            for right in granted:                                 # B9: byte 2 + (n - 1) div 4, counted from 1, of the 17 from byte 3 on
                bit = 8 - 2 * i if right == "write" else 7 - 2 * i
                c[3 + 2 + (n - 1) // 4 - 1] |= 1 << bit - 1
    return bytes(c)


def in_words(rights):
    return " ".join(name + ("=" + ",".join(granted) if granted else "") for name, granted in rights)


def object_of(tag, value):
    """D1, D2"""
    n = len(value)
    size = bytes([n]) if n < 0x80 else bytes([0x81, n]) if n < 0x100 else bytes([0x82, *n.to_bytes(2, "big")])
    return tag.to_bytes(2 if tag > 0xFF else 1, "big") + size + value


# CE3: the identifiers that are known
IDENTIFIERS = {name: bytes.fromhex("678108010109") + bytes([n, 3]) for n, name in enumerate(("travel", "visa", "biometrics"), 1)}


def extension(identifier, rights):
    """CE1: an extension in hexadecimal"""
    return object_of(0x73, object_of(0x06, identifier) + object_of(0x53, rights)).hex()


def run_of(rights):
    """CE4, CE5: the extensions of a certificate that grants a list of (name, rights)"""
    c = certificate(rights)
    places = (("travel", 1, 2), ("visa", 2, 3), ("biometrics", 3, 20))
    return "".join(extension(IDENTIFIERS[name], c[a:b]) for i, (name, a, b) in enumerate(places) if c[0] >> i & 1) or "-"


class Cases:
    """The lines of the input and what is answered: standard output and standard error; and the records of ExitRecords and the travel
    certificates after all."""

    def __init__(self):
        self.stdin, self.stdout, self.stderr = [], [], []
        self.exits, self.certificates = [b"\x77"], []

    def command(self, line, answer, *behind):
        """A command, its answer, and what is said behind it."""
        self.stdin.append(line)
        self.stdout.append("> " + spaced(line.split("#")[0].strip()))
        self.stdout.append("< " + spaced(answer) + " : " + WORDS[answer[-4:]])
        self.stdout.extend(behind)

    def says(self, line, *lines):
        self.stdin.append(line)
        for answer in lines:
            (self.stderr if answer.startswith("!") else self.stdout).append(answer)

    def cannot(self, line):
        self.says(line, CANNOT + line)


def shown(*records, rooms=ROOMS, visa=(), iris=IRIS):
    used = 2 + sum(2 + len(r) // 2 for r in records)
    files = [f"  EntryRecords            records {len(records)} of 254, bytes left {rooms[0] - used}",
             *(f"    {i + 1}: {spaced(r)}" for i, r in enumerate(records)),
             f"  ExitRecords             records 0 of 254, bytes left {rooms[1] - 2}",
             f"  travel certificates     records 0 of 254, bytes left {rooms[2] - 2}"]
    if visa:
        files += [" visa", f"  VisaRecords             records 0 of 254, bytes left {visa[0] - 2}",
                  f"  visa certificates       records 0 of 254, bytes left {visa[1] - 2}"]
    files += [" biometrics", f"  biometrics certificates records 0 of 64, bytes left {iris[0] - 2}",
              f"  Biometrics 1 Deactivated, bytes written 0 of {iris[1] - 5}:"]
    return [f"card image of {sum(6 + room for room in (*rooms, *visa, *iris))} bytes", " travel", *files]


def worked(c):
    """The worked case, as it is given to a new user; where the session stands on the way."""
    answers = iter(ANSWERS)
    c.says("session", "= session: master file, no file")
    c.says("rights", "= rights: all")
    with open(os.path.join(ROOT, "demo", "worked.apdu")) as f:
        for line in f.read().split("\n")[:-1]:
            text = line.split("#")[0].strip()
            if text == "show":
                c.says(line, *shown(*RECORDS))
            elif text:
                c.command(line, next(answers))
            else:
                c.stdin.append(line)
    c.says("session", "= session: travel, EntryRecords, record 3")
    # small letters, no spaces, a tab; a class that there is not
    c.command("00b20104000000", RECORDS[0] + "9000")
    c.command("\t20 B2 01 04 00 00 00", "6E00")
    c.says("session # as before", "= session: travel, EntryRecords, record 3")


def unreadable(c):
    """What cannot be read changes nothing."""
    for line in ("00 B2 01 04 00 00 0", "READ RECORD", "open zz", "show all", "helpme", "open trave=read", "open travel=write",
                 "open travel=read,", "open travel=", "open =read", "open biometrics=read", "open biometrics0=read",
                 "open biometrics65=read", "open biometrics5", "open biometrics5=append", "open biometrics5=read read", "open ALL"):
        c.cannot(line)
    c.says("rights", "= rights: all")
    c.says("show", *shown(*RECORDS))


def extensions(c):
    """Sessions opened with the extensions of three certificates: what they may do, and what is refused."""
    travel, more = [("travel", ["read"])], [("travel", ["read", "append"]), ("visa", ["read"]), ("biometrics5", ["write"])]
    files = [("biometrics", ["read-certificates"]), ("biometrics1", ["read", "write"]), ("biometrics64", ["read"])]
    for granted in (travel, more, files, [("visa", [])]):
        c.says("certificates " + " ".join([run_of(granted)] * 3), OPENED, "= rights: " + in_words(granted))
    # what all three have; any order, with an extension that is not known among them; small and capital letters
    run, unknown = run_of(more), extension(b"", bytes(300))
    c.says(f" certificates  {run}\t{run_of(travel).upper()} {run} # words", OPENED, "= rights: travel=read")
    mixed = extension(IDENTIFIERS["visa"], b"\x01") + unknown + extension(IDENTIFIERS["travel"], b"\xF3")
    c.says(f"certificates {mixed} {run} {mixed}", OPENED, "= rights: travel=read,append visa=read")
    full = "".join(extension(IDENTIFIERS[name], b"\xFF" * n) for name, n in (("biometrics", 17), ("travel", 1), ("visa", 1)))
    c.says(f"certificates {full} {full} {full}", OPENED, "= rights: all")
    # refused, the session has no rights: 7 before 8, the earlier extension first, the first certificate first
    one, long = run_of(travel), extension(IDENTIFIERS["travel"], b"\x01\x00")
    for first, second, third, refused in ((long, "-", "-", MALFORMED), ("-", "-", one[:-2], MALFORMED), (one + one, "-", "-", TWICE),
                                          (one, one + long, "-", MALFORMED), (one, one + one + long, "-", TWICE),
                                          (one, one + one, long, TWICE), (one, "73", one + one, MALFORMED), (one, "00", one, MALFORMED)):
        c.says(f"certificates {full} {full} {full}", OPENED, "= rights: all")
        c.says(f"certificates {first} {second} {third}", refused)
        c.says("rights", "= rights: none")
    for line in ("certificates", "certificates - -", "certificates - - - -", "certificates zz - -", "certificates 7 - -", "certificates - -- -",
                 "certificate - - -"):
        c.cannot(line)
    for none in (f"- {full} {full}", f"{unknown} {full} {full}", "- - -"):
        c.says("certificates " + none, OPENED, "= rights: none")
    c.command("00A4040C07A0000002472001", "6982")


def rights(c):
    """Rights that are not 60 bytes; none; all; each right by itself, in hexadecimal and in words; several; and what they allow."""
    c.says("open 00", "! refused (3): rights are 60 bytes, three certificates of 20")
    c.says("rights", "= rights: none")
    select, read, append = "00A4040C07A0000002472001", "00B2010C000000", "00E200100177"      # EntryRecords is read, ExitRecords gets 77
    for none in ("00" * 60, "none"):
        c.says("open " + none, OPENED)
        c.says("rights", "= rights: none")
        c.command(select, "6982")
    several = [("travel", ["read", "append"]), ("visa", ["read"]), ("biometrics5", ["write"])]
    every = ([(name, [r]) for name in ("travel", "visa") for r in RECORD_RIGHTS] + [("biometrics", [r]) for r in RECORD_RIGHTS[2:]]
             + [(name, []) for name in ("travel", "visa", "biometrics")])
    files = [[(f"biometrics{n}", [r])] for n in range(1, 65) for r in FILE_RIGHTS]
    both = [("biometrics64", ["read", "write"])]
    for granted in [*([right] for right in every), *files, several, both]:
        said = "= rights: " + in_words(granted)
        c.says("open " + certificate(granted).hex() * 3, OPENED)
        c.says("rights", said)
        c.says("open " + in_words(granted), OPENED)
        c.says("rights", said)
    # to name a file names its application; any order, any spaces; `all` of a name
    c.says(" open  biometrics5=write visa=read\ttravel=append,read  # words", OPENED)
    c.says("rights", "= rights: travel=read,append visa=read biometrics5=write")
    c.says("open travel=all biometrics=all biometrics7=all none", OPENED)
    c.says("rights", "= rights: travel=" + ",".join(RECORD_RIGHTS) + " biometrics=" + ",".join(RECORD_RIGHTS[2:]) + " biometrics7=read,write")
    for granted, reads, appends in (("travel=read", RECORDS[0] + "9000", "6982"), ("travel=append", "6982", "9000"), ("travel", "6982", "6982")):
        c.says("open " + granted, OPENED)
        c.command(select, "9000")
        c.command(read, reads)
        c.command(append, appends)
    for every_right in ("FF" * 60, "all"):
        c.says("open " + every_right, OPENED)
        c.says("rights", "= rights: all")
    c.command(select, "9000")
    c.says("session", "= session: travel, no file")


def long_input(c):
    """A line as long as a line may be, and one that is longer; more input than there is room for an image."""
    command = "00B2010C000000"
    c.command(" " * (LINE - len(command)) + command, RECORDS[0] + "9000")
    c.says("#" * (LINE + 1), TOO_LONG)
    c.says(" " * (LINE + 1 - len(command)) + command, TOO_LONG)
    for _ in range(MUCH // 60000):
        c.says("#" * 60000)
    c.command(command, RECORDS[0] + "9000")


def moves(c):
    """A move to larger rooms, to a file that is there then; one that adds an application; each that is refused; the card at hand stays."""
    there = "! the new card's file cannot be made: larger.card: File exists"
    rooms = "0101 100 0102 50 011A 40" + IRIS_ROOMS
    c.says(f"move larger.card {rooms}", MOVED, *shown_moved((100, 50, 40)))
    c.says(f"move larger.card {rooms}", there)
    c.says(f"move none/larger.card {rooms}", "! the new card's file cannot be made: none/larger.card: No such file or directory")
    c.says(f" move  visa.card  0101 40\t0102 5 011a 40 0203 300 021A 200{IRIS_ROOMS} # with visa", MOVED, *shown_moved((40, 5, 40), (300, 200)))
    c.says("move other.card 0102 40 0101 40 011A 40", "! refused (10): these rooms make no well-formed card")
    c.says("move other.card 0101 40 0102 40 011A 1", "! refused (10): these rooms make no well-formed card")
    c.says("move other.card 0101 40 0102 40 011A 262047", "! refused (10): these rooms make no well-formed card")
    c.says("move other.card", "! refused (11): a file of the card has no room")
    c.says("move other.card 0203 40 021A 40", "! refused (11): a file of the card has no room")
    c.says("move other.card 0101 40 0102 40 011A 40 031A 7", "! refused (11): a file of the card has no room")
    c.says("move other.card 0101 39 0102 40 011A 40" + IRIS_ROOMS, "! refused (12): a room is too small for its file")
    for line in ("move", "move other.card 0101", "move other.card 0101 40 0102 40 011A forty", "move other.card 10101 40",
                 "move other.card 0101 4294967296"):
        c.cannot(line)
    c.says("show", *shown_moved(ROOMS))


def binary(c):
    """READ BINARY in both forms, on EF.ATR/INFO; a card with the largest file that there is, and one with a byte more."""
    c.command("00 A4 00 0C 02 3F 00", "9000")
    c.command("00 B0 81 0E 00", "08029000")
    c.command("00 B1 2F 01 03 54 01 0E 00", "530208029000")
    c.command("00 B1 00 00 05 54 03 00 00 0E 03    # one byte, by an offset of three", "5301089000")
    c.command("00 B1 00 00 03 54 01 10 00", "6B00")
    c.command("00 B1 00 00 03 54 01 0E 02", "6700")
    c.says("session", "= session: master file, EF.ATR/INFO")
    c.says("move iris.card 0101 40 0102 5 011A 40 031A 40 0401 131077", MOVED, *shown_moved((40, 5, 40), iris=(40, 131077)))
    c.says("move other.card 0101 40 0102 5 011A 40 031A 40 0401 131078", "! refused (10): these rooms make no well-formed card")
    c.command("00 A4 04 0C 07 A0 00 00 02 47 20 01", "9000")


def certificates(c):
    """The certificate that a reference names: on the card, in the copy, in neither; what cannot be asked."""
    missing = " is missing: it is not on the card"
    neither = " is missing: it is neither on the card nor in "
    for reference in ("00", "01", "FF"):
        c.says("certificate " + reference, f"= certificate {reference}{missing}")
    c.says("certificate 01 desk.card", "= certificate 01 is in desk.card: D1")
    c.command("00E200D003C0C1C2", "9000")
    c.certificates.append(bytes.fromhex("C0C1C2"))
    # now the card has number 1, and the desk's copy of it does not count
    c.says("certificate 01", "= certificate 01 is on the card: C0 C1 C2")
    c.says(" certificate\t1  desk.card # a comment", "= certificate 01 is on the card: C0 C1 C2")
    c.says("certificate 02 desk.card", "= certificate 02 is in desk.card: D2 D2")
    c.says("certificate 02", "= certificate 02" + missing)
    for reference in ("00", "03", "FF"):
        c.says(f"certificate {reference} desk.card", f"= certificate {reference}{neither}desk.card")
    c.says("certificate fe full.card", "= certificate FE is in full.card: FE")
    c.says("certificate FF full.card", f"= certificate FF{neither}full.card")
    c.says("certificate 01 try.card", "= certificate 01 is on the card: C0 C1 C2")
    for reference in ("01", "02", "FF"):
        c.says(f"certificate {reference} many.card", "! the file is no well-formed card image, and nothing is changed: many.card")
        c.says(f"certificate {reference} visa.only", NO_CERTIFICATES)
    c.says("certificate 01 none.card", "! the card's file cannot be used: none.card: No such file or directory")
    for line in ("certificate", "certificate 100", "certificate -1", "certificate zz", "certificate 01 desk.card 02", "certificates 01"):
        c.cannot(line)


# TR3, TR5: the fields of a stamp by their names, with their tags; those that are no text
FIELDS = [("State (copy)", 0x5F44), ("State", 0x5F44), ("visa approvals", 0x5F4C), ("date", 0x5F45), ("authority", 0x5F4B),
          ("location", 0x5F46), ("inspector", 0x5F4A), ("result", 0x5F4D), ("mode", 0x5F49), ("duration", 0x5F48),
          ("conditions", 0x5F4E), ("signature", 0x5F37), ("certificate reference", 0x5F38)]
BINARY = {"duration", "signature", "certificate reference"}

# TR9: the reasons
REASONS = {
    "tag": "wrong tag: an object is missing, out of order, or too many",
    "length": "wrong length: none, past the end, not in its shortest form, or not allowed by Table 11",
    "content": "wrong content: not allowed by Table 11, or not the State that stands first",
}


def stamp_of(values):
    """TR5: the bytes of fields; one that is None is left out."""
    objects = [b"" if v is None else object_of(tag, v) for (_, tag), v in zip(FIELDS, values)]
    return objects[0] + object_of(0x73, b"".join(objects[1:11])) + b"".join(objects[11:])


def fields_of(values):
    """The lines of a stamp."""
    for (name, _), value in zip(FIELDS, values):
        said = "(absent)" if value is None else spaced(value.hex()) if name in BINARY else f'"{value.decode()}"'
        yield f"  {name:<23} {said}"


def rows_of(record, at, reason):
    """The bytes of a record, 16 in a row, and an arrow under its fault."""
    for row in range(0, len(record) + 1, 16):
        if record[row:row + 16] or at == row:
            yield "  " + spaced(record[row:row + 16].hex()) if record[row:row + 16] else ""
        if row <= at < row + 16:
            yield " " * (2 + 3 * (at - row)) + "^ " + REASONS[reason]


# the shortest stamp; one with every field, as in the examples of Table 11; one whose length field has two bytes
SHORT = [b"USA", b"USA", None, b"20120814", b"C", b"S", b"1", None, None, None, None, b"\x5A", b"\x01"]
EVERY = [b"USA", b"USA", b"refused 2011", b"20120814", b"CBP", b"SFO", b"SFO00001234", b"let in", b"A", b"\x00\xFF", b"no work <", bytes(range(64, 96)),
         b"\xFE"]
LONG = [b"abc", b"abc", None, b"00000000", b"Z" * 10, b"<", b" ", None, b"z", b"\x1E", None, b"\xFF" * 140, b"\x07"]


def stamps(c):
    """Records read as stamps: what they say, and what is wrong with them. ExitRecords has one record, the byte 77."""
    none = "= record {} is missing"
    for line, title in (("stamp 04", "04 of EntryRecords"), ("stamp 00", "00 of EntryRecords"), ("stamp fF", "FF of EntryRecords"),
                        ("stamp 02 exit", "02 of ExitRecords")):
        c.says(line, none.format(title))

    def wrong(line, title, record, at, reason):
        c.says(line, f"= record {title} is no stamp: first fault at offset {at}", *rows_of(record, at, reason))

    entries = [bytes.fromhex(r) for r in RECORDS]
    wrong("stamp 01", "01 of EntryRecords", entries[0], 6, "tag")                 # `73` is missing, at the end
    wrong(" stamp\t3 # a comment", "03 of EntryRecords", entries[2], 0, "tag")
    wrong("stamp 1  exit", "01 of ExitRecords", b"\x77", 0, "tag")

    def appended(record):
        c.command(f"00E20010{len(record):02X}{record.hex()}", "9000")
        c.exits.append(record)
        return f"{len(c.exits):02X}"

    for values in (SHORT, EVERY, LONG):
        number = appended(stamp_of(values))
        c.says(f"stamp {number} exit", f"= record {number} of ExitRecords is a stamp", *fields_of(values))

    def with_field(k, value):
        return stamp_of([*SHORT[:k], value, *SHORT[k + 1:]])

    short = stamp_of(SHORT)
    no_signature = stamp_of([*SHORT[:4], b"C" * 10, b"SFO", *SHORT[6:11], None, None])     # 48 bytes, three whole rows
    assert len(short) == 45 and len(no_signature) == 48
    for record, at, reason in (
            (no_signature, 48, "tag"),                                # the signature is missing, at the end
            (short + b"\x00", 45, "tag"),                             # a byte behind
            (with_field(1, b"FRA"), 8, "content"),                    # another State
            (with_field(3, b"2012081A"), 14, "content"),
            (with_field(5, b""), 29, "length"),
            (short[:35] + b"\x05" + short[36:], 33, "length"),        # the inspector goes past `73`, and not past the record
            (short[:16] + b"\x81" + short[16:], 14, "length"),        # the date's length in two bytes
            (with_field(12, b"\xFF"), 41, "content")):
        number = appended(record)
        wrong(f"stamp {number} exit", f"{number} of ExitRecords", record, at, reason)
    for line in ("stamp", "stamp 100", "stamp -1", "stamp zz", "stamp 01 entry", "stamp 01 exit 02", "stamps 01"):
        c.cannot(line)


def cut_appends(c):
    """APPEND RECORD to ExitRecords, cut behind each of its stores: a record that was not counted is none, and the next append takes its room."""
    def read(number, which):                                          # one record, or from there to the last (J2)
        return f"00B2{number:02X}{2 << 3 | which:02X}000000"

    def search(mark):                                                 # Q2: in the first byte of each record
        window = object_of(0xB0, bytes.fromhex("020100020101"))
        how, what = object_of(0xA1, bytes.fromhex("800100") + window), object_of(0xA3, object_of(0xB1, object_of(0x81, mark)))
        asked = object_of(0x7F76, object_of(0x51, b"\x02") + how + what)
        return f"00A200F8{len(asked):02X}{asked.hex()}00"

    def found(mark):                                                  # Q10
        numbers = (n for n, r in enumerate(c.exits, 1) if r[:1] == mark)
        return object_of(0x7F76, object_of(0x51, b"\x02") + b"".join(bytes([2, 1, n]) for n in numbers)).hex() + "9000"

    # two bytes of length, the record's two, two of the count
    for stores, mark in zip((*range(8), 2**32, 2**64 - 1), range(0xB0, 0xBA)):
        mark, number = bytes([mark]), len(c.exits) + 1
        lost, later = mark + b"\x01", mark + b"\x02\x03"
        whole = stores >= 6
        c.says(f"cut {stores} 00E2001002{lost.hex()}", f"= stores made: {6 if whole else stores} of 6")
        c.command(read(number, 4), lost.hex() + "9000" if whole else "6A83")
        c.command(f"00E2001003{later.hex()}", "9000")
        c.exits += [lost, later] if whole else [later]
        c.command(search(mark), found(mark))
        c.command(read(number, 5), b"".join(c.exits[number - 1:]).hex() + "9000")


NO_STORES = "= no stores: nothing is changed"


def cut_others(c):
    """A cut leaves the session as it was. A command that would not be answered 9000 has no stores, and no other than the two has any."""
    c.command("00E2001001C0", "9000")
    c.exits += [b"\xC0", b"\xC1"]
    where = f"= session: travel, ExitRecords, record {len(c.exits) - 1}"
    c.says("session", where)
    c.says(" cut\t007  00 E2 00 10 01 c1 # two more than there are", "= stores made: 5 of 5")
    # an append to a full file, a record that is read, SELECT, no command, a class that APPEND RECORD does not have
    for line in ("cut 5 00E20008010A", "cut 0 00E20008010A", "cut 5 00B2010C000000", "cut 5 00A4040C07A0000002472003", "cut 5 00",
                 "cut 5 80 E2 00 10 01 FF"):
        c.says(line, NO_STORES)
    c.says("session", where)
    c.command(f"00B2{len(c.exits):02X}14000000", "C19000")
    c.says("open travel=read", OPENED)
    c.command("00A4040C07A0000002472001", "9000")
    c.says("cut 5 00E2001001FF", NO_STORES)
    c.says("open all", OPENED)


def cut_activation(c):
    """ACTIVATE has one store, and behind it nobody writes the file (B11). UPDATE BINARY has none, though it writes."""
    update, read = "00D7020107 540100 5302 AABB", "00B0000000"
    for line in ("00A4040C07A0000002472003", "00A4020C020201", update):
        c.command(line, "9000")
    c.says("cut 9 " + update.replace("AABB", "CCDD"), NO_STORES)
    c.command(read, "AABB9000")
    c.says("cut 0 00440000", "= stores made: 0 of 1")
    c.command(update, "9000")
    c.says("cut 1 00440000", "= stores made: 1 of 1")
    c.says("session", "= session: biometrics, Biometrics 1")
    c.command(update, "6982")
    c.says("cut 1 00440000", NO_STORES)
    c.command("00440000", "6982")
    c.command(read, "AABB9000")


def cuts(c):
    """Commands that are cut; lines that cannot be read."""
    cut_appends(c)
    cut_others(c)
    cut_activation(c)
    append = "00E2001001FF"
    for line in ("cut", "cut 3", "cut " + append, f"cut x {append}", f"cut -1 {append}", f"cut 3x {append}", f"cut 0x3 {append}", f"cut 2E {append}",
                 f"cut {2**64} {append}", f"cut {10**30} {append}", "cut 3 zz", "cut 3 " + append[:-1], f"cuts 3 {append}"):
        c.cannot(line)
    c.command("00A4040C07A0000002472001", "9000")
    c.command(f"00B2{len(c.exits) + 1:02X}14000000", "6A83")


DROPPED = "= chain dropped"
CERTIFICATE = bytes(7 * i % 251 for i in range(900))


def short(cla, header, data, le=""):
    """A command or a link with a short Lc, where it has data."""
    return cla + header + (f"{len(data):02X}{data.hex()}" if data else "") + le


def opened(n):
    return f"= chain open, bytes so far: {n}"


def linked(c, header, *parts):
    """Links but the last, from a session without a chain."""
    n = 0
    for part in parts:
        n += len(part)
        c.command(short("10", header, part), "9000", opened(n))


def long_certificate(c):
    """A certificate of 900 bytes in four links: it is on the card when the last one is answered, and not before."""
    parts = [CERTIFICATE[i:i + 228] for i in range(0, 900, 228)]
    assert [len(p) for p in parts] == [228, 228, 228, 216]
    linked(c, "E200D0", *parts[:3])
    c.says("session", "= session: travel, no file, chain of E2 00 D0 open, bytes so far: 684")
    c.says("certificate 02", "= certificate 02 is missing: it is not on the card")
    c.command(short("00", "E200D0", parts[3]), "9000")
    c.certificates.append(CERTIFICATE)
    c.says("session", "= session: travel, certificates, record 2")
    c.says("certificate 02", "= certificate 02 is on the card: " + spaced(CERTIFICATE.hex()))
    c.command("00B202D4000000", CERTIFICATE.hex() + "9000")


def linked_search(c):
    """A search in two links, and one whose last link has no data of its own."""
    window = object_of(0xB0, bytes.fromhex("020100020103"))               # Q2: the first three bytes of each record
    how, what = object_of(0xA1, bytes.fromhex("800100") + window), object_of(0xA3, object_of(0xB1, object_of(0x81, bytes.fromhex("C0C1C2"))))
    asked = object_of(0x7F76, object_of(0x51, b"\xD0") + how + what)
    for cut in (5, len(asked)):
        linked(c, "A200F8", asked[:cut])
        c.command(short("00", "A200F8", asked[cut:], "00"), "7F76065101D00201019000")
    c.says("session", "= session: travel, certificates, record 1")


def dropped_chains(c):
    """What drops a chain: another header; a status of the link itself, which comes before; too many bytes; the command's own answer; an opening."""
    where = "= session: travel, certificates, record 1"
    for line, status in (("00B2010C000000", "6883"), ("00E2000801FF", "6883"), ("10E200D801FF", "6883"), ("00E201D001FF", "6883"),
                         ("20E200D001FF", "6E00"), ("00FF00D001FF", "6D00"), ("80E200D001FF", "6D00"), ("00E200D0", "9000"), ("00E200D002FF", "6700"),
                         ("10E200D0", "6700"), ("10E200D001FF00", "6700"), ("00E200D001FF00", "6700")):
        linked(c, "E200D0", b"\xAA", b"\xBB\xCC")
        if status == "9000":                                                # a last link without data
            c.command(line, status)
            c.certificates.append(b"\xAA\xBB\xCC")
            c.command("00B201D4000000", "C0C1C29000")
            where = "= session: travel, certificates, record 3"
        else:
            c.command(line, status, DROPPED)
        c.says("session", where)
    c.command("10E200D1 01 FF", "6A86")
    c.command("10E200D0", "6700")
    c.says("session", where)
    # 1,025 bytes in five links; 930, one more than a certificate may have, which the last link tells
    linked(c, "E200D0", *[bytes(255)] * 4)
    c.command(short("10", "E200D0", bytes(5)), "6700", DROPPED)
    linked(c, "E200D0", *[bytes(230)] * 4)
    c.command(short("00", "E200D0", bytes(10)), "6700", DROPPED)
    for line in ("open all", "certificates - - -"):
        linked(c, "A4040C", bytes.fromhex("A0000002472001"))
        c.says(line, OPENED, *(["= rights: none"] if line[0] == "c" else []))
        c.says("session", "= session: master file, no file")
    c.says("open all", OPENED)
    # SELECT in two links
    linked(c, "A4040C", bytes.fromhex("A00000"))
    c.says("session", "= session: master file, no file, chain of A4 04 0C open, bytes so far: 3")
    c.command("00A4040C0402472001", "9000")
    c.says("session", "= session: travel, no file")


def cut_links(c):
    """A link before the last has no stores. The last has those of the join, and a cut leaves the chain open: the last link can be sent again."""
    c.says("cut 9 10E2001001F0", NO_STORES)
    linked(c, "E20010", b"\xF1\xF2", b"\xF3")
    for line, said in (("cut 3 10E2001001F4", NO_STORES), ("cut 5 00E2001002F4F5", "= stores made: 5 of 9"), ("cut 5 00E2001802F4F5", NO_STORES),
                       ("cut 8 00E20010", "= stores made: 7 of 7")):
        c.says(line, said)
        c.says("session", "= session: travel, no file, chain of E2 00 10 open, bytes so far: 3")
    c.command("00E2001002F4F5", "9000")
    c.exits += [bytes.fromhex("F1F2F3"), bytes.fromhex("F1F2F3F4F5")]
    c.command(f"00B2{len(c.exits) - 1:02X}15000000", "F1F2F3F1F2F3F4F59000")


def chains(c):
    """Commands whose data comes in links, with travel selected and no file."""
    long_certificate(c)
    linked_search(c)
    dropped_chains(c)
    cut_links(c)


def shown_moved(rooms, visa=(), iris=IRIS):
    """The card behind `rights`, which appended the byte 77 to ExitRecords."""
    lines = shown(*RECORDS, rooms=rooms, visa=visa, iris=iris)
    at = next(i for i, line in enumerate(lines) if "ExitRecords" in line)
    lines[at:at + 1] = [f"  ExitRecords             records 1 of 254, bytes left {rooms[1] - 5}", "    1: 77"]
    return lines


def cases():
    c = Cases()
    worked(c)
    unreadable(c)
    extensions(c)
    rights(c)
    c.says("help", *HELP)
    long_input(c)
    moves(c)
    binary(c)
    certificates(c)
    stamps(c)
    cuts(c)
    chains(c)
    # a last line that does not end
    c.command("00B2030C000000", RECORDS[2] + "9000")
    return c


def main():
    c = cases()
    os.makedirs(os.path.join(CRATE, "data"), exist_ok=True)
    for name, text in (("stdin", "\n".join(c.stdin)), ("stdout", "\n".join(c.stdout) + "\n"), ("args", "try.card\n")):
        with open(os.path.join(CRATE, name), "w") as f:
            f.write(text)
    for name, content in FILES.items():
        with open(os.path.join(CRATE, "data", name), "wb") as f:
            f.write(content)


if __name__ == "__main__":
    main()
