#!/usr/bin/env python3
"""The proved file machine for passport chips, for callers in Python: the functions of include/malquindo.h by ctypes.

Only Python's standard library is used. Once, from the root of the repository:

    scripts/archive                            # proves the library and writes the archive
    python3 host/python/malquindo.py build     # makes the shared object that Python loads

The card to try (docs/RULES.md, T1), with its commands m1 to m4:

    >>> import malquindo
    >>> image = malquindo.move_card(b'', [(0x0101, 40), (0x0102, 40), (0x011A, 40)])
    >>> session = malquindo.open(b'\\xFF' * malquindo.RIGHTS_LEN)
    >>> def send(digits):
    ...     return malquindo.command(image, session, bytes.fromhex(digits))
    >>> print(send('00A4040C07A0000002472001'))     # m1: SELECT the travel application
    9000
    >>> print(send('00E20008065F4403555341'))       # m2: APPEND RECORD to EntryRecords, USA
    9000
    >>> print(send('00E20008065F4403465241'))       # m3: and FRA
    9000
    >>> answer = send('00B20105000000')             # m4: READ RECORD, from record 1 to the last
    >>> print(answer)
    5F44035553415F4403465241 9000
    >>> answer == (b'_D\\x03USA_D\\x03FRA', 0x9000)
    True

A certificate on the card, and one more in the desk's copy. A stamp names them by number:

    >>> print(send('00E200D0037F21C1'))             # APPEND RECORD to the travel certificates
    9000
    >>> place, length = malquindo.file(image, 0x011A)
    >>> card = memoryview(image)[place:place + length]
    >>> desk = bytes.fromhex('0200 0300 7F21C1 0300 7F21C2')
    >>> print(malquindo.certificate(card, desk, 1))
    CARD 7F21C1
    >>> print(malquindo.certificate(card, desk, 2))
    DESK 7F21C2
    >>> malquindo.certificate(card, desk, 3) is None
    True

An index of EntryRecords, which reads a record without a walk over those before it. After an append it is extended:

    >>> place, length = malquindo.file(image, 0x0101)
    >>> body = memoryview(image)[place:place + length]
    >>> index = malquindo.Index.build(0x0101, body)
    >>> print(send('00E20008065F4403444555'))       # APPEND RECORD: DEU, record 3
    9000
    >>> index.extend(body)
    >>> index.read(body, 3).hex()
    '5f4403444555'
    >>> index
    Index(0x0101, [2, 10, 18])

A biometrics file has up to 131,072 bytes. READ BINARY with INS B0 reads from offsets up to 32,767, with INS B1 from any. P1-P2 of B1 are the file's
id, or 0000 for the current file; it has Lc and Le, and an Le of 1 or 2 gets 6700. The offset is an object 54 of one to three bytes, and the reply an object 53:

    >>> image = malquindo.move_card(b'', [(0x031A, 2), (0x0401, 5 + 131072)])
    >>> session = malquindo.open(b'\\xFF' * malquindo.RIGHTS_LEN)
    >>> print(send('00A4040C07A0000002472003'))     # SELECT the biometrics application
    9000
    >>> print(send('00D702010A 5401 00 5305 6972697321'))      # UPDATE BINARY of Biometrics 1, at offset 0
    9000
    >>> print(send('00B1020105 5403 000001 00'))    # READ BINARY B1, at offset 1
    530472697321 9000
    >>> print(send('00B1020105 5403 010000 00'))    # nothing is written there
    6B00

Rights from the extensions of three certificates, to open with. Where a certificate is refused there are none, and that is an exception:

    >>> travel = bytes.fromhex('730D 0608 6781080101090103 53010F')     # travel, all its rights
    >>> rights = malquindo.rights(travel, travel, travel)
    >>> rights[:3].hex()
    '010f00'
    >>> malquindo.open(rights)[:3].hex()
    '010f00'
    >>> malquindo.rights(travel, travel + travel, travel)
    Traceback (most recent call last):
    ...
    malquindo.Refused: 8 SECOND_EXTENSION: a certificate has a known extension twice

A stamp, which is a travel record by Table 11 of ICAO's LDS2 report. A record that is none has a fault, and that is an exception:

    >>> record = bytes.fromhex('5F440355544F 731D 5F440355544F 5F45083230323631313136 5F4B0141 5F46014C 5F4A0149 5F3701A5 5F380102')
    >>> stamp = malquindo.read_stamp(record)
    >>> stamp.state, stamp.date, stamp.mode, stamp.reference
    (b'UTO', b'20261116', None, 2)
    >>> malquindo.read_stamp(record[:-1])
    Traceback (most recent call last):
    ...
    malquindo.StampFault: offset 41, LENGTH: a length goes too far, is not the shortest form or is not allowed

A command with much data for a reader that cannot send it whole: `chained` splits it into links. Each link but the last is answered 9000 without data,
and the session keeps what came so far. The answer to the last one is the command's. Any other status drops the chain:

    >>> image = malquindo.move_card(b'', [(0x0101, 40), (0x0102, 40), (0x011A, 1000)])
    >>> session = malquindo.open(b'\\xFF' * malquindo.RIGHTS_LEN)
    >>> print(send('00A4040C07A0000002472001'))
    9000
    >>> links = malquindo.chained(bytes.fromhex('00E200D0'), b'\\xC5' * 900, None, 255)     # APPEND RECORD to the travel certificates
    >>> [len(link) for link in links]
    [260, 260, 260, 140]
    >>> print(*(malquindo.command(image, session, link) for link in links[:2]))
    9000 9000
    >>> chain = malquindo.chain(session)
    >>> chain.header.hex(), len(chain.data)
    ('e200d0', 510)
    >>> print(*(malquindo.command(image, session, link) for link in links[2:]))
    9000 9000
    >>> malquindo.chain(session) is None
    True
    >>> print(send('10E200080155'), send('00B201D4000000'))     # another header amid a chain
    9000 6883

For testers: a card that was taken away in the middle of a command. APPEND RECORD and ACTIVATE write a card by stores of one byte; a cut makes the
first of them, and answers how many the whole command has. Here the last one is missing, that of the count, so the record is none:

    >>> image = malquindo.move_card(b'', [(0x0101, 40), (0x0102, 40), (0x011A, 40)])
    >>> session = malquindo.open(b'\\xFF' * malquindo.RIGHTS_LEN)
    >>> print(send('00A4040C07A0000002472001'))
    9000
    >>> malquindo.cut(image, session, bytes.fromhex('00E20008065F4403555341'), 9)
    10
    >>> print(send('00B2010C000000'))               # READ RECORD 1 of EntryRecords
    6A83
    >>> print(send('00E20008065F4403465241'))       # the next append uses its room
    9000

A status word is an answer, whatever it says. A call that gets none is refused, and that is an exception:

    >>> malquindo.command(bytearray(b'no card'), session, b'')
    Traceback (most recent call last):
    ...
    malquindo.Refused: 2 BAD_IMAGE: the image is not well formed

rights, open, command, chained, chain, move_card, file, certificate, Index and read_stamp are for most callers, cut for testers. malquindo_rights,
malquindo_open, malquindo_command, malquindo_cut, malquindo_move, malquindo_file, malquindo_certificate, malquindo_index_build, malquindo_index_extend,
malquindo_index_read and malquindo_stamp_read are the functions of the header themselves: they take every buffer of the call and answer the
number of 64 bits, so that a test can lend a buffer that is too short.

Buffers are bytes, bytearray or memoryview. One that is written, such as the image, is no bytes object. A list of places is an array.array
of 32-bit numbers, array.array('I'), or a memoryview of one. Each length is that of the buffer; a type that does not fit is a TypeError, and
two buffers that are written and overlap are a ValueError. What is only read is copied first. So no call can do harm, whatever it is given.
"""
from __future__ import annotations

import array
import ctypes
import enum
import functools
import os
import pathlib
import subprocess
import sys
from typing import Iterable, NamedTuple, Optional, Tuple, Union

__all__ = ['RIGHTS_LEN', 'SESSION_LEN', 'CHAIN_LEN', 'RESPONSE_LEN', 'IMAGE_LEN', 'RECORDS', 'STAMP_LEN', 'STAMP_PLACES', 'Refusal', 'Refused', 'Answer',
           'Chain', 'Source', 'Certificate', 'Index', 'StampField', 'Reason', 'StampFault', 'Stamp', 'rights', 'open', 'command', 'chained', 'chain', 'cut',
           'move_card', 'file', 'certificate', 'read_stamp',
           'malquindo_session_len', 'malquindo_rights', 'malquindo_open', 'malquindo_command', 'malquindo_cut', 'malquindo_move', 'malquindo_file',
           'malquindo_certificate', 'malquindo_index_build', 'malquindo_index_extend', 'malquindo_index_read', 'malquindo_stamp_read',
           'malquindo_refusal', 'malquindo_length', 'malquindo_status', 'malquindo_stores', 'malquindo_moved', 'malquindo_file_place',
           'malquindo_file_length',
           'malquindo_certificate_which', 'malquindo_certificate_place', 'malquindo_certificate_length', 'malquindo_index_places',
           'malquindo_index_length', 'malquindo_stamp_reason', 'malquindo_stamp_offset', 'malquindo_stamp_place', 'malquindo_stamp_length']

RIGHTS_LEN = 60         # the rights of a chain: three certificates of 20 bytes
SESSION_LEN = 1054      # a session
CHAIN_LEN = 1024        # the most bytes of data that a command has, whole or in links
RESPONSE_LEN = 2050     # the shortest response buffer: 2,048 bytes of data, SW1, SW2
IMAGE_LEN = 262144      # the longest card image
RECORDS = 254           # the most records of a file
STAMP_LEN = 391         # the longest stamp
STAMP_PLACES = 26       # the places of a stamp's fields: two numbers for each of 13

ROOT = pathlib.Path(__file__).resolve().parents[2]
ARCHIVE = ROOT / 'target/staticlib/libmalquindo.a'
SHARED = ROOT / 'target/staticlib/libmalquindo.so'
BUILD = 'python3 host/python/malquindo.py build'
# b5 of CLA: more links follow. Where a session holds its chain: the length, little-endian, INS, P1 and P2, the data.
MORE = 0x10
CHAIN_AT = 25
# Names a shared object that is used instead, for one that was made elsewhere.
VARIABLE = 'MALQUINDO_LIBRARY'

Buffer = Union[bytes, bytearray, memoryview]
Written = Union[bytearray, memoryview]
Places = Union[array.array, memoryview]


class Refusal(enum.IntEnum):
    """Why a call got no status word, no rights, no cut, no new image, no index, no record, no certificate or no stamp. The numbers are those
    of the header."""
    SHORT_BUFFER = 1
    BAD_IMAGE = 2
    BAD_RIGHTS = 3
    BAD_SESSION = 4
    BAD_INDEX = 6
    BAD_EXTENSION = 7
    SECOND_EXTENSION = 8
    BAD_CERTIFICATES = 9
    BAD_LIST = 10
    MISSING_KIND = 11
    SMALL_ROOM = 12
    SHORT_TARGET = 13
    SHORT_LIST = 15


REFUSAL_WORDS = {
    Refusal.SHORT_BUFFER: 'the response buffer is shorter than 2,050 bytes, or that for the rights shorter than 60',
    Refusal.BAD_IMAGE: 'the image is not well formed',
    Refusal.BAD_RIGHTS: 'the rights are not 60 bytes',
    Refusal.BAD_SESSION: 'the session is malformed, or does not fit the image',
    Refusal.BAD_INDEX: 'the body, the index or the number does not fit',
    Refusal.BAD_EXTENSION: 'an extension is not well formed, or the rights of a known one have the wrong size',
    Refusal.SECOND_EXTENSION: 'a certificate has a known extension twice',
    Refusal.BAD_CERTIFICATES: 'a body of travel certificates is not well formed',
    Refusal.BAD_LIST: 'the list of rooms lays out no valid image',
    Refusal.MISSING_KIND: 'a file of the old card has no room in the list',
    Refusal.SMALL_ROOM: 'a room is too small for its content',
    Refusal.SHORT_TARGET: 'the target is shorter than the new image',
    Refusal.SHORT_LIST: "the list is too short for a stamp's places",
}


class Refused(Exception):
    """A call that was refused. Nothing that it was given has changed. `refusal` says why."""

    def __init__(self, number: int):
        # A library of another version may have other numbers.
        known = number in REFUSAL_WORDS
        self.refusal = Refusal(number) if known else number
        super().__init__(f'{number} {self.refusal.name}: {REFUSAL_WORDS[number]}' if known else f'{number}, which is not known here')


class Answer(NamedTuple):
    """What a command answers: the data, and the status word as 256 * SW1 + SW2."""
    data: bytes
    status: int

    def __str__(self) -> str:
        return f'{self.data.hex().upper()} {self.status:04X}'.lstrip()


class Chain(NamedTuple):
    """The chain that is open in a session: INS, P1 and P2, which the next link must have, too, and the data of the links so far, joined."""
    header: bytes
    data: bytes


class Source(enum.IntEnum):
    """Whose body a certificate is in. The numbers are those of the header."""
    CARD = 1
    DESK = 2


class Certificate(NamedTuple):
    """A certificate that a stamp names: whose body it is in, and the part of that body that it is."""
    source: Source
    data: memoryview

    def __str__(self) -> str:
        return f'{self.source.name} {self.data.hex().upper()}'


class Index:
    """The places of a file's records: a record is read by its place, without a walk over those before it.

    A place is where the record's length stands in the file's body. Build the index once. After each APPEND RECORD to the file that is
    answered 0x9000, extend it. Then it has the place of every record, whatever other commands are run. A move changes no place.
    """

    def __init__(self, kind: int, places: Iterable[int]):
        """An index of any places, such as those that were kept from an earlier one. Nothing is tested here but that they are numbers."""
        self.kind = fitting('a kind', kind, 2)
        self._places = array.array('I', (fitting('a place', place, 4) for place in places))

    @classmethod
    def build(cls, kind: int, body: Buffer) -> Index:
        """The index of all records of a body. The kind is that of the file's section, such as 0x0101 for EntryRecords."""
        places = array.array('I', [0] * RECORDS)
        result = accept(malquindo_index_build(kind, body, places))
        return cls(kind, places[:malquindo_index_places(result)])

    def extend(self, body: Buffer) -> None:
        """Adds the place of the record that was appended to the body. Where that is refused, the index stays as it is."""
        places = self._places + array.array('I', [0])
        accept(malquindo_index_extend(self.kind, body, places, len(self)))
        self._places = places

    def read(self, body: Buffer, number: int) -> memoryview:
        """The record of this number, counted from 1. It is a view of the body, not a copy.

        With places that were not built from this body, it is what stands at its place, and may have no byte or more than any record has.
        """
        result = accept(malquindo_index_read(body, self._places, number))
        start = self._places[number - 1] + 2
        return byte_view('body', body)[start:start + malquindo_index_length(result)]

    @property
    def places(self) -> Tuple[int, ...]:
        """The place of each record, in their order."""
        return tuple(self._places)

    def __len__(self) -> int:
        return len(self._places)

    def __repr__(self) -> str:
        return f'Index(0x{self.kind:04X}, {self._places.tolist()})'


class StampField(enum.IntEnum):
    """The fields of a stamp, in the order of Table 11. The numbers are those of the header."""
    STATE_COPY = 0
    STATE = 1
    VISAS = 2
    DATE = 3
    AUTHORITY = 4
    LOCATION = 5
    INSPECTOR = 6
    RESULT = 7
    MODE = 8
    DURATION = 9
    CONDITIONS = 10
    SIGNATURE = 11
    REFERENCE = 12


class Reason(enum.IntEnum):
    """Why a record is no stamp. The numbers are those of the header; they are no refusals.

    TAG: an object is missing, out of order or too many; or half a tag stands at the end of its container.
    LENGTH: there is no length byte, or not all of them; the length has a form other than the three, or not the shortest; it goes past the end
    of its container, or is one that the table does not allow.
    CONTENT: a value has a byte that the table does not allow; or the two States differ, which is told at the one inside 73.
    """
    TAG = 1
    LENGTH = 2
    CONTENT = 3


REASON_WORDS = {
    Reason.TAG: 'an object is missing, out of order or too many',
    Reason.LENGTH: 'a length goes too far, is not the shortest form or is not allowed',
    Reason.CONTENT: 'a value is not allowed, or the two States differ',
}


class StampFault(Exception):
    """The first thing that is wrong with a record that is no stamp.

    `at` is where the object at fault begins in the record, or where a missing one should stand. `reason` is what is wrong there: a Reason, or
    the number of one that is not known here.
    """

    def __init__(self, at: int, reason: int):
        # A library of another version may have other reasons.
        known = reason in REASON_WORDS
        self.at = at
        self.reason = Reason(reason) if known else reason
        what = f'{self.reason.name}: {REASON_WORDS[reason]}' if known else f'{reason}, which is not known here'
        super().__init__(f'offset {at}, {what}')


class Stamp(NamedTuple):
    """What a stamp says, in the order of Table 11, which is that of StampField. An optional field that is absent is None.

    The duration is in days, the high byte first: Table 11's example 00FF is 255. The library does not look into it. Nor does it look up the
    date in a calendar or check the signature.
    """
    state_copy: bytes               # before the signed part (the object 73): the same as the State
    state: bytes                    # inside the signed part: 3 letters
    visas: Optional[bytes]          # approvals, refusals and revocations of visas: 1 to 50 characters
    date: bytes                     # 8 digits
    authority: bytes                # the inspection authority: 1 to 10 characters
    location: bytes                 # the inspection location: 1 to 10 characters
    inspector: bytes                # 1 to 20 characters
    result: Optional[bytes]         # the result of the inspection: 1 to 50 characters
    mode: Optional[bytes]           # the mode of travel: any letter, 1 byte
    duration: Optional[bytes]       # the duration of stay: 1 or 2 bytes
    conditions: Optional[bytes]     # conditions that the holder has to observe: 1 to 50 characters
    signature: bytes                # over the signed part: 1 to 140 bytes
    reference: int                  # the number of a travel certificate, 0x01 to 0xFE, as `certificate` takes it


def rights(first: Buffer, second: Buffer, third: Buffer) -> bytes:
    """The rights of three certificates, each read from the run of its extensions: the bytes that `open` takes. Refused where a run
    has a fault, even if the others have none.

    An extension is 73{06 identifier, 53 rights}. Those of travel, visa and biometrics are known and stand in any order; any other is passed
    over, whatever rights it has. What is absent is zero. A certificate without extensions is b''.
    """
    buffer = bytearray(RIGHTS_LEN)
    accept(malquindo_rights(first, second, third, buffer))
    return bytes(buffer)


def open(rights: Buffer) -> bytearray:
    """A session with the rights of three certificates of 20 bytes each. A command changes it in place."""
    session = bytearray(SESSION_LEN)
    accept(malquindo_open(rights, session))
    return session


def command(image: Written, session: Written, command: Buffer) -> Answer:
    """Runs one command on a card image. Image and session change in place, and only where the status is 0x9000. But any other status drops the
    session's open chain; a refusal keeps it.

    A command's data may come in links, as `chained` makes them. With an open chain, a command with another INS, P1 or P2 gets 0x6883.
    """
    response = bytearray(RESPONSE_LEN)
    result = accept(malquindo_command(image, session, command, response))
    # The answer ends with the status word.
    return Answer(bytes(response[:malquindo_length(result) - 2]), malquindo_status(result))


def chained(header: Buffer, data: Buffer, ne: Optional[int], most: int) -> list[bytes]:
    """Splits a command into links, each with at most `most` bytes of data. Send them one after the other, and stop where one is not answered 0x9000.

    The command is its CLA, INS, P1 and P2, its data and Ne, the most bytes of data that it asks for: None where it has no Le, else 1 to 65,536. All links
    but the last have b5 of CLA set, and no Le. Data that fits into one link makes one, the command itself. A link is written in the short form where
    its data and Ne fit that, 255 and 256 bytes, and else in the extended one. No link has more than CHAIN_LEN bytes; 0 in a link counts as 1. More than
    CHAIN_LEN bytes in all are split, too, but the machine answers 0x6700.
    """
    cla, *rest = four(header)
    view = bytes(byte_view('data', data))
    if ne is not None and not 1 <= fitting('Ne', ne, 4) <= 65536:
        raise ValueError('Ne is from 1 to 65,536')
    most = min(max(fitting('the most bytes of a link', most, 8), 1), CHAIN_LEN)
    # The last link has what is left behind the others, at least a byte where there is data.
    last = max(len(view) - 1, 0) // most * most
    links = [framed(bytes([cla | MORE, *rest]), view[at:at + most], None) for at in range(0, last, most)]
    return [*links, framed(bytes([cla & ~MORE, *rest]), view[last:], ne)]


def chain(session: Buffer) -> Optional[Chain]:
    """The chain that is open in a session. None where no chain is; also where the bytes are too few or say more than CHAIN_LEN, and so are no session."""
    held = bytes(byte_view('session', session)[CHAIN_AT:SESSION_LEN])
    length = int.from_bytes(held[:2], 'little')
    if len(held) < 5 + CHAIN_LEN or not 1 <= length <= CHAIN_LEN:
        return None
    return Chain(held[2:5], held[5:5 + length])


def cut(image: Written, session: Buffer, command: Buffer, stores: int) -> int:
    """For testers: leaves the image as it is when the power goes behind so many of a command's stores. Gives how many the command has in all.

    APPEND RECORD of n bytes has n + 4 stores of one byte each: the record's length, its bytes, and last the file's count. ACTIVATE has one, the
    state. Any other command has none, and neither have these two where `command` would not answer 0x9000: then the image stays. UPDATE BINARY
    is among the others, though it writes. A number beyond the last store is the whole command. Of an append in links the last one has the stores
    of all the data, and a link before it has none. The session is only read.
    """
    return malquindo_stores(accept(malquindo_cut(image, session, command, stores)))


def move_card(old: Buffer, rooms: Iterable[Tuple[int, int]]) -> bytearray:
    """The image of the card with other rooms. Each room is a kind and the length of its body.

    Every file keeps its records under their numbers, or its state and bytes. A file that only the rooms name is empty: so b'' moved to some
    rooms is a new card.
    """
    rows = [length.to_bytes(4, 'little') + kind.to_bytes(2, 'little') for kind, length in map(room, rooms)]
    target = bytearray(IMAGE_LEN)
    result = accept(malquindo_move(old, b''.join(rows), target))
    return target[:malquindo_moved(result)]


def file(image: Buffer, kind: int) -> Optional[Tuple[int, int]]:
    """Where the body of a file begins in a card image, and its length. None where the image has no such file, or is not well formed.

    The kind is that of the section, such as 0x011A for travel certificates. Commands move no body.
    """
    result = malquindo_file(image, kind)
    return (malquindo_file_place(result), malquindo_file_length(result)) if result else None


def certificate(card: Buffer, desk: Buffer, reference: int) -> Optional[Certificate]:
    """The certificate that a stamp names: the record of this number in the card's body of travel certificates; where the card has none, in
    the desk's body. None where neither has it.

    The data is a view of that body, not a copy.
    """
    result = accept(malquindo_certificate(card, desk, reference))
    if not result:
        return None
    source = Source(malquindo_certificate_which(result))
    body = byte_view('card', card) if source is Source.CARD else byte_view('desk', desk)
    place = malquindo_certificate_place(result)
    return Certificate(source, body[place:place + malquindo_certificate_length(result)])


def read_stamp(record: Buffer) -> Stamp:
    """What a stamp says: a travel record by Table 11, as EntryRecords and ExitRecords hold them. StampFault where the record is none."""
    places = array.array('I', [0] * STAMP_PLACES)
    result = malquindo_stamp_read(record, places)
    if result:
        raise StampFault(malquindo_stamp_offset(result), malquindo_stamp_reason(result))
    view = byte_view('record', record)
    parts = ((malquindo_stamp_place(places, field), malquindo_stamp_length(places, field)) for field in StampField)
    # A value has at least one byte.
    *values, reference = (bytes(view[place:place + length]) or None for place, length in parts)
    return Stamp(*values, reference[0])


def malquindo_session_len() -> int:
    """How many bytes a session has."""
    return library().malquindo_session_len()


def malquindo_rights(first: Buffer, second: Buffer, third: Buffer, rights: Written) -> int:
    """Writes the rights of three runs of extensions into their buffer; zeros on refusals 7 and 8. The result is refusal * 2^32."""
    return call(library().malquindo_rights, read('first', first), read('second', second), read('third', third), written('rights', rights))


def malquindo_open(rights: Buffer, session: Written) -> int:
    """Writes a session into its buffer. The result is refusal * 2^32."""
    return call(library().malquindo_open, read('rights', rights), written('session', session))


def malquindo_command(image: Written, session: Written, command: Buffer, response: Written) -> int:
    """One command. The result is refusal * 2^32 + length * 2^16 + status."""
    return call(library().malquindo_command, written('image', image), written('session', session), read('command', command),
                written('response', response))


def malquindo_cut(image: Written, session: Buffer, command: Buffer, stores: int) -> int:
    """A cut behind so many stores of a command. The result is refusal * 2^32 + how many stores the whole command has."""
    return call(library().malquindo_cut, written('image', image), read('session', session), read('command', command),
                fitting('a number of stores', stores, 8))


def malquindo_move(old: Buffer, rooms: Buffer, target: Written) -> int:
    """A move. The result is refusal * 2^32 + the length of the new image. `rooms` is the header's list, 6 bytes for each section."""
    return call(library().malquindo_move, read('old', old), read('rooms', rooms), written('target', target))


def malquindo_file(image: Buffer, kind: int) -> int:
    """Where a file stands. The result is place * 2^32 + length; 0 where there is no such file."""
    return call(library().malquindo_file, read('image', image), fitting('a kind', kind, 2))


def malquindo_certificate(card: Buffer, desk: Buffer, reference: int) -> int:
    """A certificate. The result is refusal * 2^32 + which * 2^28 + place * 2^10 + length."""
    return call(library().malquindo_certificate, read('card', card), read('desk', desk), fitting('a reference', reference, 1))


def malquindo_index_build(kind: int, body: Buffer, places: Places) -> int:
    """Writes the places of a body's records into a list. The result is refusal * 2^32 + the number of places."""
    return call(library().malquindo_index_build, fitting('a kind', kind, 2), read('body', body), written_places('places', places))


def malquindo_index_extend(kind: int, body: Buffer, places: Places, n: int) -> int:
    """Writes the place of record n + 1 into places[n]. The result is refusal * 2^32 + n + 1."""
    return call(library().malquindo_index_extend, fitting('a kind', kind, 2), read('body', body), written_places('places', places),
                fitting('n', n, 8))


def malquindo_index_read(body: Buffer, places: Places, number: int) -> int:
    """The record of a number, by its place in a list of places. The result is refusal * 2^32 + the length of the record."""
    return call(library().malquindo_index_read, read('body', body), read_places('places', places), fitting('a number', number, 8))


def malquindo_stamp_read(record: Buffer, places: Places) -> int:
    """Writes the places of a stamp's fields into a list. The result is 0; or reason * 2^32 + the offset of the first fault; or 15 * 2^32."""
    return call(library().malquindo_stamp_read, read('record', record), written_places('places', places))


def malquindo_refusal(result: int) -> int:
    """Of every function but malquindo_file and malquindo_stamp_read: the refusal, 0 for none."""
    return result >> 32


def malquindo_length(result: int) -> int:
    """Of a command: the length of the answer, with the status word."""
    return result >> 16 & 0xFFFF


def malquindo_status(result: int) -> int:
    """Of a command: the status word."""
    return result & 0xFFFF


def malquindo_stores(result: int) -> int:
    """Of a cut: how many stores the whole command has."""
    return result & 0xFFFFFFFF


def malquindo_moved(result: int) -> int:
    """Of a move: the length of the new image."""
    return result & 0xFFFFFFFF


def malquindo_file_place(result: int) -> int:
    """Of a file: where its body begins in the image."""
    return result >> 32


def malquindo_file_length(result: int) -> int:
    """Of a file: the length of its body."""
    return result & 0xFFFFFFFF


def malquindo_certificate_which(result: int) -> int:
    """Of a certificate: 1 where the card's body has it, 2 where the desk's has, 0 where it is missing."""
    return result >> 28 & 0xF


def malquindo_certificate_place(result: int) -> int:
    """Of a certificate: where its first byte stands in that body."""
    return result >> 10 & 0x3FFFF


def malquindo_certificate_length(result: int) -> int:
    """Of a certificate: its length."""
    return result & 0x3FF


def malquindo_index_places(result: int) -> int:
    """Of building and extending an index: how many places the list then holds."""
    return result & 0xFFFFFFFF


def malquindo_index_length(result: int) -> int:
    """Of reading by an index: the length of the record."""
    return result & 0xFFFFFFFF


def malquindo_stamp_reason(result: int) -> int:
    """Of a stamp: why the record is none, or refusal 15; 0 where it is a stamp."""
    return result >> 32


def malquindo_stamp_offset(result: int) -> int:
    """Of a record that is no stamp: where the first fault is."""
    return result & 0xFFFFFFFF


def malquindo_stamp_place(places: Places, field: int) -> int:
    """Of a stamp: where the value of a field begins in the record, 0 where the field is absent. The field is a StampField, or its number."""
    return places[2 * field]


def malquindo_stamp_length(places: Places, field: int) -> int:
    """Of a stamp: how many bytes the value of a field has, 0 where the field is absent."""
    return places[2 * field + 1]


def accept(result: int) -> int:
    """The result of a call that is not refused."""
    if malquindo_refusal(result):
        raise Refused(malquindo_refusal(result))
    return result


def room(pair: Tuple[int, int]) -> Tuple[int, int]:
    kind, length = pair
    if not (isinstance(kind, int) and isinstance(length, int)):
        raise TypeError(f'a room is a kind and a length, both int, not {pair!r}')
    if not (0 <= kind < 1 << 16 and 0 <= length < 1 << 32):
        raise ValueError(f'a kind has 2 bytes and a length has 4, unlike {pair!r}')
    return kind, length


def four(header: Buffer) -> bytes:
    """CLA, INS, P1 and P2."""
    view = bytes(byte_view('header', header))
    if len(view) != 4:
        raise ValueError(f'a header is CLA, INS, P1 and P2, not {len(view)} bytes')
    return view


def framed(header: bytes, data: bytes, ne: Optional[int]) -> bytes:
    """A command in the short form where it fits that, and else in the extended one, which begins with a byte 0 before Lc or before Le alone."""
    extended = len(data) > 255 or ne is not None and ne > 256
    size = 2 if extended else 1
    lc = len(data).to_bytes(size, 'big') if data else b''
    # 256 is written as 0, as 65,536 is in two bytes.
    le = b'' if ne is None else (ne % (1 << 8 * size)).to_bytes(size, 'big')
    return header + (b'\0' if extended else b'') + lc + data + le


def fitting(name: str, number: int, size: int) -> int:
    """A number of so many bytes. ctypes would cut off what does not fit."""
    if not isinstance(number, int):
        raise TypeError(f'{name} is an int, not {number!r}')
    if not 0 <= number < 1 << 8 * size:
        raise ValueError(f'{name} has {size} {"byte" if size == 1 else "bytes"}, unlike {number}')
    return number


def whole_view(name: str, buffer: Buffer) -> memoryview:
    """A view of a buffer whose bytes lie side by side. It has `nbytes` of them, whatever its elements are."""
    if not isinstance(buffer, (bytes, bytearray, memoryview)):
        raise TypeError(f'{name}: bytes, bytearray or memoryview is needed, not {type(buffer).__name__}')
    view = memoryview(buffer)
    if not view.c_contiguous:
        raise TypeError(f'{name}: the bytes of this memoryview do not lie side by side')
    return view


def byte_view(name: str, buffer: Buffer) -> memoryview:
    """A view that counts in bytes, as the library does."""
    view = whole_view(name, buffer)
    return view if view.itemsize == 1 and view.ndim == 1 else view.cast('B')


def place_view(name: str, places: Places) -> memoryview:
    """A view of a list of places that lie side by side."""
    if not isinstance(places, (array.array, memoryview)):
        raise TypeError(f"{name}: array.array('I') or memoryview is needed, not {type(places).__name__}")
    view = memoryview(places)
    # The library is made for machines that have the low byte first.
    if view.itemsize != 4 or view.format not in ('I', 'L', '<I', '<L') or view.ndim != 1 or not view.c_contiguous:
        raise TypeError(f"{name}: 32-bit numbers side by side are needed, such as array.array('I')")
    return view


class Lent(NamedTuple):
    """A buffer as the library gets it. The length counts elements."""
    name: str
    array: ctypes.Array
    length: int

    def addresses(self) -> range:
        """Those of its bytes."""
        start = ctypes.addressof(self.array)
        return range(start, start + self.length * ctypes.sizeof(self.array._type_))

    def overlaps(self, other: Lent) -> bool:
        these, those = self.addresses(), other.addresses()
        return these.start < those.stop and those.start < these.stop


def read(name: str, buffer: Buffer) -> Lent:
    """A buffer that is only read. The library gets a copy, which overlaps nothing."""
    view = whole_view(name, buffer)
    return Lent(name, (ctypes.c_ubyte * view.nbytes).from_buffer_copy(view) if view.nbytes else NOTHING, view.nbytes)


def written(name: str, buffer: Written) -> Lent:
    """A buffer that the library may write. While it is lent, Python lets nobody resize it."""
    view = whole_view(name, buffer)
    if view.readonly:
        raise TypeError(f'{name}: this buffer is written, so a {type(buffer).__name__} that is only read does not do')
    return Lent(name, (ctypes.c_ubyte * view.nbytes).from_buffer(view) if view.nbytes else NOTHING, view.nbytes)


def read_places(name: str, places: Places) -> Lent:
    """A list of places that is only read. The library gets a copy."""
    view = place_view(name, places)
    return Lent(name, (ctypes.c_uint32 * len(view)).from_buffer_copy(view) if len(view) else NO_PLACES, len(view))


def written_places(name: str, places: Places) -> Lent:
    """A list of places that the library may write."""
    view = place_view(name, places)
    if view.readonly:
        raise TypeError(f'{name}: this list is written, so a memoryview that is only read does not do')
    lent = Lent(name, (ctypes.c_uint32 * len(view)).from_buffer(view) if len(view) else NO_PLACES, len(view))
    if ctypes.addressof(lent.array) % ctypes.alignment(ctypes.c_uint32):
        raise ValueError(f'{name}: the numbers of this memoryview do not lie where 32-bit numbers may')
    return lent


# What stands for a buffer of no bytes and for a list of no places: a pointer must not be null, even then.
NOTHING = (ctypes.c_ubyte * 1)()
NO_PLACES = (ctypes.c_uint32 * 1)()


def call(function: ctypes._CFuncPtr, *arguments: Union[Lent, int]) -> int:
    """Calls a function of the header: pointer and length of each buffer, and numbers as they are."""
    lent = [argument for argument in arguments if isinstance(argument, Lent)]
    for i, one in enumerate(lent):
        for other in lent[:i]:
            if one.overlaps(other):
                raise ValueError(f'{other.name} and {one.name} overlap')
    parts = ((argument.array, argument.length) if isinstance(argument, Lent) else (argument,) for argument in arguments)
    return function(*(part for argument in parts for part in argument))


# What each function takes. A buffer is a pointer and a length.
BYTES = [ctypes.POINTER(ctypes.c_ubyte), ctypes.c_size_t]
PLACES = [ctypes.POINTER(ctypes.c_uint32), ctypes.c_size_t]
FUNCTIONS = {'malquindo_rights': 4 * BYTES, 'malquindo_open': 2 * BYTES, 'malquindo_command': 4 * BYTES,
             'malquindo_cut': 3 * BYTES + [ctypes.c_size_t], 'malquindo_move': 3 * BYTES,
             'malquindo_file': BYTES + [ctypes.c_uint16], 'malquindo_certificate': 2 * BYTES + [ctypes.c_uint8],
             'malquindo_index_build': [ctypes.c_uint16] + BYTES + PLACES,
             'malquindo_index_extend': [ctypes.c_uint16] + BYTES + PLACES + [ctypes.c_size_t],
             'malquindo_index_read': BYTES + PLACES + [ctypes.c_size_t],
             'malquindo_stamp_read': BYTES + PLACES}


@functools.lru_cache(maxsize=None)
def library() -> ctypes.PyDLL:
    """The shared object, loaded at the first call. A PyDLL keeps Python's lock, so no other thread changes a buffer during a call."""
    loaded = ctypes.PyDLL(str(shared_object()))
    loaded.malquindo_session_len.argtypes = []
    loaded.malquindo_session_len.restype = ctypes.c_size_t
    for name, arguments in FUNCTIONS.items():
        function = getattr(loaded, name)
        function.argtypes = arguments
        function.restype = ctypes.c_uint64
    return loaded


def shared_object() -> pathlib.Path:
    """The shared object to load. One that is older than the archive would test a program of the past."""
    if os.environ.get(VARIABLE):
        return pathlib.Path(os.environ[VARIABLE])
    if not SHARED.exists():
        raise FileNotFoundError(f'{SHARED} is not there; in the root of the repository run: {BUILD}')
    if ARCHIVE.exists() and SHARED.stat().st_mtime < ARCHIVE.stat().st_mtime:
        raise FileNotFoundError(f'{SHARED} is older than the archive; in the root of the repository run: {BUILD}')
    return SHARED


def build(archive: pathlib.Path = ARCHIVE, shared: pathlib.Path = SHARED) -> str:
    """Makes the shared object from the archive. Gives what went wrong, '' where nothing did."""
    if not archive.exists():
        return f'{archive} is not there; in the root of the repository run: scripts/archive'
    # The new object takes the place of the old one when it is whole: a program that has the old one loaded keeps it.
    new = shared.with_suffix('.new')
    link = ['cc', '-shared', '-o', new, '-Wl,-z,noexecstack', '-Wl,--whole-archive', archive, '-Wl,--no-whole-archive']
    try:
        linked = subprocess.run(link, capture_output=True, text=True)
    except OSError as error:
        return f'cc, the C compiler, cannot be run: {error}'
    if linked.returncode:
        return f'cc could not link {archive}:\n{linked.stderr}'
    new.replace(shared)
    return ''


def main(arguments: list[str]) -> int:
    if arguments != ['build']:
        print(f'usage: {BUILD}', file=sys.stderr)
        return 1
    wrong = build()
    print(wrong or f'made {SHARED}', file=sys.stderr if wrong else sys.stdout)
    return 1 if wrong else 0


if __name__ == '__main__':
    sys.exit(main(sys.argv[1:]))
