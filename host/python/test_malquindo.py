#!/usr/bin/env python3
"""Edge cases of malquindo.py, and its doctest: python3 host/python/test_malquindo.py"""
import array
import ctypes
import doctest
import pathlib
import random
import re
import subprocess
import sys
import tempfile
import threading
import unittest

sys.dont_write_bytecode = True     # no files beside the module
sys.path.insert(0, str(pathlib.Path(__file__).resolve().parent))
import malquindo
from malquindo import Index, Reason, Source, Refusal, Stamp, StampField

ALL_RIGHTS = b'\xFF' * malquindo.RIGHTS_LEN
TRAVEL = [(0x0101, 40), (0x0102, 40), (0x011A, 40)]
SELECT = bytes.fromhex('00A4040C07A0000002472001')
# The table of docs/RULES.md, T1.
WORKED = [
    ('00A4040C07A0000002472001', '9000'),
    ('00E20008065F4403555341', '9000'),
    ('00E20008065F4403465241', '9000'),
    ('00B20105000000', '5F44035553415F4403465241 9000'),
    ('00B20304000000', '6A83'),
    ('00A200F81C7F7619510101A10B800100B006020103020103A307B105810346524100', '7F7606510101020102 9000'),
    ('00A200F81C7F7619510101A10B800100B006020102020103A307B105810346524100', '6282'),
    ('805E0107045102010100', '7F7809810122820100830102 9000'),
    ('00E2000815' + '07' * 21, '6A84'),
    ('00E2000814' + '07' * 20, '9000'),
    ('00E20008000188' + '07' * 392, '6700'),
    ('00E20008000187' + '07' * 391, '6A84'),
    ('00B2010400', '6700'),
]


def load_tests(loader, tests, pattern):
    tests.addTests(doctest.DocTestSuite(malquindo))
    return tests


class Case(unittest.TestCase):
    def setUp(self):
        self.image = malquindo.move_card(b'', TRAVEL)
        self.session = malquindo.open(ALL_RIGHTS)

    def refused(self, refusal, function, *arguments):
        with self.assertRaises(malquindo.Refused) as caught:
            function(*arguments)
        self.assertIs(caught.exception.refusal, refusal)

    def answers(self, result, refusal):
        """A refused call says nothing but its number."""
        self.assertEqual(result, refusal << 32)


class Worked(Case):
    def test_the_card_to_try(self):
        for command, answer in WORKED:
            self.assertEqual(str(malquindo.command(self.image, self.session, bytes.fromhex(command))), answer, command)

    def test_only_9000_changes(self):
        """But for an open chain, which any other status drops."""
        numbers = random.Random(1)
        done = 0
        for _ in range(3000):
            command = bytearray.fromhex(numbers.choice(WORKED)[0])
            if numbers.random() < 0.5:
                command[numbers.randrange(len(command))] ^= 1 << numbers.randrange(8)
            before = bytes(self.image), bytes(self.session[:25]) + bytes(1029)
            answer = malquindo.command(self.image, self.session, command)
            if answer.status == 0x9000:
                done += 1
            else:
                self.assertEqual((bytes(self.image), bytes(self.session)), before)
        self.assertGreater(done, 100)

    def test_a_missing_flag_closes_the_application(self):
        rights = bytearray(ALL_RIGHTS)
        rights[20] = 0xFE
        self.assertEqual(malquindo.command(self.image, malquindo.open(rights), SELECT), (b'', 0x6982))


class Large(Case):
    """A file that READ BINARY reaches the end of by INS B1 alone."""
    ROOM = 131072

    def setUp(self):
        self.image = malquindo.move_card(b'', [(0x031A, 2), (0x0401, 5 + self.ROOM)])
        self.session = malquindo.open(ALL_RIGHTS)
        self.assertEqual(self.send('00A4040C07A0000002472003'), (b'', 0x9000))

    def send(self, digits, data=b''):
        return malquindo.command(self.image, self.session, bytes.fromhex(digits) + data)

    def update(self, offset, piece):
        """UPDATE BINARY of Biometrics 1, of at least 256 bytes, the offset in three bytes."""
        data = b'\x54\x03' + offset.to_bytes(3, 'big') + b'\x53\x82' + len(piece).to_bytes(2, 'big') + piece
        return self.send('00D7020100', len(data).to_bytes(2, 'big') + data)

    def read(self, offset):
        """READ BINARY B1 of Biometrics 1, of as many bytes as a reply has room for."""
        return self.send('00B1020100 0005 5403', offset.to_bytes(3, 'big') + bytes(2))

    def test_written_to_its_end_and_read_back(self):
        content = random.Random(3).randbytes(self.ROOM)
        for offset in range(0, self.ROOM, 1000):
            piece = content[offset:offset + 1000].ljust(256, b'\0')
            wanted = 0x9000 if offset + len(piece) <= self.ROOM else 0x6A84
            self.assertEqual(self.update(offset, piece), (b'', wanted))
        self.assertEqual(self.update(self.ROOM - 256, content[-256:]), (b'', 0x9000))
        got = b''
        while len(got) < self.ROOM:
            data, status = self.read(len(got))
            self.assertEqual((status, data[:2]), (0x9000, b'\x53\x82'))
            self.assertEqual(len(data) - 4, int.from_bytes(data[2:4], 'big'))
            got += data[4:]
        self.assertEqual(got, content)
        self.assertEqual(self.read(self.ROOM), (b'', 0x6B00))
        self.assertEqual(self.send('00B07FFF000000'), (content[0x7FFF:0x7FFF + 2048], 0x9000))

    def test_the_total_has_three_bytes(self):
        self.assertEqual(self.read(0), (b'', 0x6B00))
        self.assertEqual(str(self.send('805E0101 04 51020201 00')), '7F78058103020000 9000')

    def test_no_larger_room(self):
        self.refused(Refusal.BAD_LIST, malquindo.move_card, self.image, [(0x031A, 2), (0x0401, 6 + self.ROOM)])
        small = malquindo.move_card(self.image, [(0x031A, 2), (0x0401, 5)])
        self.assertEqual(len(small), 6 + 2 + 6 + 5)
        self.assertEqual(malquindo.move_card(small, [(0x031A, 2), (0x0401, 5 + self.ROOM)]), self.image)


class Empty(Case):
    def test_no_bytes_are_a_card(self):
        self.assertEqual(malquindo.command(bytearray(), self.session, SELECT), (b'', 0x6A82))
        self.assertEqual(malquindo.command(memoryview(bytearray()), self.session, SELECT), (b'', 0x6A82))
        self.assertEqual(malquindo.move_card(b'', []), b'')

    def test_no_bytes_are_a_command(self):
        for empty in (b'', bytearray(), memoryview(b''), memoryview(b'abc')[3:]):
            self.assertEqual(malquindo.command(self.image, self.session, empty), (b'', 0x6700))

    def test_no_bytes_are_no_session_and_no_rights(self):
        self.refused(Refusal.BAD_SESSION, malquindo.command, self.image, bytearray(), SELECT)
        self.refused(Refusal.BAD_RIGHTS, malquindo.open, b'')
        self.answers(malquindo.malquindo_open(ALL_RIGHTS, bytearray()), Refusal.BAD_SESSION)

    def test_every_buffer_empty(self):
        self.answers(malquindo.malquindo_rights(b'', b'', b'', bytearray()), Refusal.SHORT_BUFFER)
        self.answers(malquindo.malquindo_open(b'', bytearray()), Refusal.BAD_RIGHTS)
        self.answers(malquindo.malquindo_command(bytearray(), bytearray(), b'', bytearray()), Refusal.SHORT_BUFFER)
        self.assertEqual(malquindo.malquindo_move(b'', b'', bytearray()), 0)
        self.assertEqual(malquindo.malquindo_file(b'', 0x011A), 0)
        self.answers(malquindo.malquindo_certificate(b'', b'', 1), Refusal.BAD_CERTIFICATES)
        none = array.array('I')
        self.answers(malquindo.malquindo_index_build(0x0101, b'', none), Refusal.BAD_INDEX)
        self.answers(malquindo.malquindo_index_extend(0x0101, b'', none, 0), Refusal.BAD_INDEX)
        self.answers(malquindo.malquindo_index_read(b'', none, 1), Refusal.BAD_INDEX)
        self.assertEqual(malquindo.malquindo_index_build(0x0101, bytes(2), none), 0)
        self.answers(malquindo.malquindo_stamp_read(b'', none), Refusal.SHORT_LIST)


class Short(Case):
    def test_a_short_response(self):
        response = bytearray(b'\xA5' * (malquindo.RESPONSE_LEN - 1))
        self.answers(malquindo.malquindo_command(self.image, self.session, SELECT, response), Refusal.SHORT_BUFFER)
        self.assertEqual(response, b'\xA5' * (malquindo.RESPONSE_LEN - 1))

    def test_bytes_behind_the_answer_stay(self):
        response = bytearray(b'\xA5' * malquindo.RESPONSE_LEN)
        result = malquindo.malquindo_command(self.image, self.session, SELECT, response)
        self.assertEqual((malquindo.malquindo_refusal(result), malquindo.malquindo_length(result), malquindo.malquindo_status(result)),
                         (0, 2, 0x9000))
        self.assertEqual(response, b'\x90\x00' + b'\xA5' * (malquindo.RESPONSE_LEN - 2))

    def test_short_rights_open_a_session_without_rights(self):
        session = bytearray(b'\xA5' * (malquindo.SESSION_LEN + 2))
        self.answers(malquindo.malquindo_open(ALL_RIGHTS[1:], session), Refusal.BAD_RIGHTS)
        self.assertEqual(session, bytes(malquindo.SESSION_LEN) + b'\xA5' * 2)
        self.refused(Refusal.BAD_RIGHTS, malquindo.open, ALL_RIGHTS + b'\xFF')


class Sessions(Case):
    def test_the_length_is_the_librarys(self):
        self.assertEqual(malquindo.malquindo_session_len(), malquindo.SESSION_LEN)
        self.assertEqual(len(self.session), malquindo.SESSION_LEN)

    def test_malformed(self):
        for at, byte in ((20, 4), (21, 3), (22, 1), (24, 1), (25, 1), (27, 0xE2), (30, 1), (1053, 1)):
            session = bytearray(self.session)
            session[at] = byte
            before = bytes(session)
            self.refused(Refusal.BAD_SESSION, malquindo.command, self.image, session, SELECT)
            self.assertEqual(session, before)
        self.refused(Refusal.BAD_SESSION, malquindo.command, self.image, self.session[1:], SELECT)

    def test_one_that_does_not_fit_the_image(self):
        malquindo.command(self.image, self.session, SELECT)
        self.refused(Refusal.BAD_SESSION, malquindo.command, bytearray(), self.session, SELECT)

    def test_bytes_behind_it_stay(self):
        session = self.session + b'\xA5' * 3
        self.assertEqual(malquindo.command(self.image, session, SELECT).status, 0x9000)
        self.assertEqual((session[20], session[25:]), (1, bytes(1029) + b'\xA5' * 3))


class Chains(Case):
    """Commands in links: each link but the last opens the chain that the links so far are, and changes nothing else."""
    APPEND, SEARCH, FMM = (bytes.fromhex(header) for header in ('00E200D0', '00A200F8', '805E0107'))
    CERTIFICATE = bytes(7 * i % 251 for i in range(900))

    def setUp(self):
        self.image = malquindo.move_card(b'', [(0x0101, 40), (0x0102, 40), (0x011A, 1000)])
        self.session = malquindo.open(ALL_RIGHTS)
        self.assertEqual(malquindo.command(self.image, self.session, SELECT), (b'', 0x9000))

    def send(self, image, session, header, data, ne, most):
        """Sends a command in links, and gives the answer to the last one."""
        *links, last = malquindo.chained(header, data, ne, most)
        before = bytes(image), bytes(session[:25])
        for n, link in enumerate(links, 1):
            self.assertEqual(malquindo.command(image, session, link), (b'', 0x9000))
            self.assertEqual(malquindo.chain(session), (header[1:], data[:n * most]))
            self.assertEqual((bytes(image), bytes(session[:25])), before)
        answer = malquindo.command(image, session, last)
        self.assertIsNone(malquindo.chain(session))
        self.assertEqual(session[25:], bytes(1029))
        return answer

    def test_the_links(self):
        for most, links in ((4, ['805E0107045102010100']), (10**9, ['805E0107045102010100']), (3, ['905E010703510201', '805E0107010100']),
                            (1, ['905E01070151', '905E01070102', '905E01070101', '805E0107010100'])):
            self.assertEqual([link.hex().upper() for link in malquindo.chained(self.FMM, bytes.fromhex('51020101'), 256, most)], links)
        self.assertEqual(malquindo.chained(b'\x90' + self.FMM[1:], b'ab', None, 0), malquindo.chained(self.FMM, b'ab', None, 1))
        for ne, le in ((None, ''), (1, '01'), (256, '00'), (257, '000101'), (65535, '00FFFF'), (65536, '000000')):
            self.assertEqual(malquindo.chained(self.FMM, b'', ne, 255), [self.FMM + bytes.fromhex(le)])
        self.assertEqual(malquindo.chained(self.FMM, b'a', 65536, 255), [self.FMM + bytes.fromhex('000001610000')])
        sizes = {(255, 255): [255], (256, 255): [255, 1], (510, 255): [255, 255], (900, 228): [228, 228, 228, 216], (1025, 2000): [1024, 1]}
        for (count, most), parts in sizes.items():
            links = malquindo.chained(self.APPEND, bytes(count), None, most)
            self.assertEqual([len(link) - (5 if link[4] else 7) for link in links], parts)

    def test_a_certificate(self):
        whole, after = bytearray(self.image), bytearray(self.session)
        self.assertEqual(self.send(whole, after, self.APPEND, self.CERTIFICATE, None, 900), (b'', 0x9000))
        for most in (1, 7, 127, 228, 255, 256, 450, 899):
            image, session = bytearray(self.image), bytearray(self.session)
            self.assertEqual(self.send(image, session, self.APPEND, self.CERTIFICATE, None, most), (b'', 0x9000))
            self.assertEqual((image, session), (whole, after))
        self.assertEqual(malquindo.command(whole, after, bytes.fromhex('00B201D4000000')), (self.CERTIFICATE, 0x9000))

    def test_a_search(self):
        for record in (b'abc', b'def', b'xde'):
            self.assertEqual(self.send(self.image, self.session, self.APPEND, record, None, 2), (b'', 0x9000))
        data = bytes.fromhex('7F76185101D0A10B800100B006020100020100A306B10481026465')
        for most in range(1, len(data) + 1):
            for ne in (256, 65536):
                self.assertEqual(self.send(self.image, self.session, self.SEARCH, data, ne, most), (bytes.fromhex('7F76095101D0020102020103'), 0x9000))

    def test_a_status_drops_the_chain(self):
        before = bytes(self.image), bytes(self.session)
        for digits, status in (('00B2010C000000', 0x6883), ('00E200D8', 0x6883), ('10E200D801FF', 0x6883), ('10E200D0', 0x6700), ('00E200D0020A', 0x6700),
                               ('20E200D001FF', 0x6E00), ('80E200D001FF', 0x6D00)):
            malquindo.command(self.image, self.session, bytes.fromhex('10E200D002AABB'))
            self.assertEqual(malquindo.chain(self.session), (self.APPEND[1:], b'\xAA\xBB'))
            self.assertEqual(malquindo.command(self.image, self.session, bytes.fromhex(digits)), (b'', status))
            self.assertEqual((self.image, self.session), before)
        for most in (1024, 1000, 255):
            self.assertEqual(self.send(self.image, self.session, self.APPEND, bytes(1025), None, most), (b'', 0x6700))
            self.assertEqual((self.image, self.session), before)

    def test_a_refusal_keeps_it(self):
        malquindo.command(self.image, self.session, bytes.fromhex('10E200D002AABB'))
        before = bytes(self.session)
        self.answers(malquindo.malquindo_command(self.image, self.session, SELECT, bytearray(2049)), Refusal.SHORT_BUFFER)
        self.refused(Refusal.BAD_IMAGE, malquindo.command, bytearray(b'no card'), self.session, SELECT)
        self.assertEqual(self.session, before)
        self.assertEqual(malquindo.open(ALL_RIGHTS)[25:], bytes(1029))

    def test_a_cut(self):
        *links, last = malquindo.chained(self.APPEND, self.CERTIFICATE, None, 228)
        for link in links:
            self.assertEqual(malquindo.cut(self.image, self.session, link, 9), 0)
            self.assertEqual(malquindo.command(self.image, self.session, link), (b'', 0x9000))
        before = bytes(self.session)
        for made in (0, 5, 903):
            self.assertEqual(malquindo.cut(self.image, self.session, last, made), 904)
            self.assertEqual((self.image[98:100], self.session), (bytes(2), before))
        self.assertEqual(malquindo.cut(self.image, self.session, last, 904), 904)
        self.assertEqual(self.image[98:1002], bytes.fromhex('01008403') + self.CERTIFICATE)

    def test_chains_that_cannot_be(self):
        for held, length in (('0000E200D0', None), ('0100E200D00707', 1), ('0104E200D007', None), ('FFFFE200D007', None), ('0100E300D007', 1),
                             ('0100E200D107', 1)):
            session = bytearray((self.session[:25] + bytes.fromhex(held)).ljust(1054, b'\0'))
            before, chain = bytes(session), malquindo.chain(session)
            self.assertEqual(chain and len(chain.data), length)
            self.refused(Refusal.BAD_SESSION, malquindo.command, self.image, session, SELECT)
            self.assertEqual(session, before)
        for held in (b'', self.session[:25], self.session[:-1]):
            self.assertIsNone(malquindo.chain(held))

    def test_wrong_arguments(self):
        for wrong in ('00E200D0', 7, None):
            self.assertRaises(TypeError, malquindo.chained, wrong, b'', None, 255)
            self.assertRaises(TypeError, malquindo.chained, self.APPEND, wrong, None, 255)
            self.assertRaises(TypeError, malquindo.chain, wrong)
        self.assertRaises(TypeError, malquindo.chained, self.APPEND, b'', None, None)
        self.assertRaises(TypeError, malquindo.chained, self.APPEND, b'', '00', 255)
        for header, ne, most in ((self.APPEND[1:], None, 255), (self.APPEND, 0, 255), (self.APPEND, 65537, 255), (self.APPEND, -1, 255),
                                 (self.APPEND, None, -1)):
            self.assertRaises(ValueError, malquindo.chained, header, b'data', ne, most)


class Buffers(Case):
    def test_wrong_types(self):
        for wrong in ('00A4', 7, None, [0, 1], array.array('B', SELECT)):
            for arguments in ((wrong, self.session, SELECT), (self.image, wrong, SELECT), (self.image, self.session, wrong)):
                self.assertRaises(TypeError, malquindo.command, *arguments)
            self.assertRaises(TypeError, malquindo.open, wrong)
            self.assertRaises(TypeError, malquindo.move_card, wrong, TRAVEL)

    def test_what_is_written_is_not_only_read(self):
        for wrong in (bytes(self.image), memoryview(bytes(self.image)), memoryview(self.image).toreadonly(), b''):
            self.assertRaises(TypeError, malquindo.command, wrong, self.session, SELECT)
        self.assertRaises(TypeError, malquindo.malquindo_open, ALL_RIGHTS, bytes(malquindo.SESSION_LEN))

    def test_bytes_that_do_not_lie_side_by_side(self):
        wide = bytearray(2 * len(self.image))
        self.assertRaises(TypeError, malquindo.command, memoryview(wide)[::2], self.session, SELECT)
        self.assertRaises(TypeError, malquindo.command, self.image, self.session, memoryview(SELECT)[::-1])

    def test_overlap(self):
        both = bytearray(4096)
        view = memoryview(both)
        self.assertRaises(ValueError, malquindo.malquindo_command, both, self.session, SELECT, both)
        self.assertRaises(ValueError, malquindo.malquindo_command, view[:0x800], view[0x7FF:0x820], SELECT, bytearray(2050))
        # Side by side is no overlap; what is only read is copied.
        self.answers(malquindo.malquindo_command(view[:5], view[5:1059], view[:9], view[1059:3109]), Refusal.BAD_IMAGE)

    def test_parts_of_a_buffer(self):
        shelf = bytearray(b'\xA5' * 8) + self.image + b'\xA5' * 8
        part = memoryview(shelf)[8:-8]
        for command, answer in WORKED:
            self.assertEqual(str(malquindo.command(part, memoryview(self.session), memoryview(bytes.fromhex(command)))), answer)
        self.assertEqual((shelf[:8], shelf[-8:]), (b'\xA5' * 8, b'\xA5' * 8))
        self.assertEqual(shelf[14], 3)

    def test_the_length_is_counted_in_bytes(self):
        image = array.array('H', bytes(self.image))
        view = memoryview(image)
        self.assertEqual((view.nbytes, len(view)), (138, 69))
        self.assertEqual(malquindo.command(view, self.session, SELECT).status, 0x9000)
        foreign = memoryview(ctypes.create_string_buffer(bytes(self.image), 138))
        self.assertEqual(malquindo.command(foreign, self.session, SELECT).status, 0x9000)

    def test_buffers_are_given_back(self):
        self.refused(Refusal.BAD_IMAGE, malquindo.command, bytearray(1), self.session, SELECT)
        malquindo.command(self.image, self.session, SELECT)
        self.image.append(0)
        self.session.clear()

    def test_threads(self):
        """Threads that share a card: each append answered 9000 is there."""
        image = malquindo.move_card(b'', [(0x0101, 2000), (0x0102, 2), (0x011A, 2)])
        malquindo.command(image, self.session, SELECT)
        session, answers = bytes(self.session), []

        def append():
            for _ in range(60):
                answers.append(malquindo.command(image, bytearray(session), bytes.fromhex('00E200080155')).status)
        threads = [threading.Thread(target=append) for _ in range(4)]
        for thread in threads:
            thread.start()
        for thread in threads:
            thread.join()
        self.assertEqual((answers.count(0x9000), image[6]), (240, 240))


class Cuts(Case):
    """Commands that are cut: what is left of the image, by the rules alone."""
    FIRST, LOST, LATER = b'first', b'lifted', b'later'

    @staticmethod
    def append(record):
        """APPEND RECORD to EntryRecords, the first section."""
        return bytes.fromhex('00E20008') + bytes([len(record)]) + record

    @staticmethod
    def body(*records):
        return len(records).to_bytes(2, 'little') + b''.join(len(r).to_bytes(2, 'little') + r for r in records)

    def setUp(self):
        super().setUp()
        for command in (SELECT, self.append(self.FIRST)):
            self.assertEqual(malquindo.command(self.image, self.session, command), (b'', 0x9000))

    def test_an_append_at_every_store(self):
        used = 6 + len(self.body(self.FIRST))
        stores = [*enumerate(len(self.LOST).to_bytes(2, 'little') + self.LOST, used), (7, 0), (6, 2)]
        for made in (*range(len(stores) + 2), 1 << 32, 1 << 63, (1 << 64) - 1):
            image, session, expected = bytearray(self.image), bytearray(self.session), bytearray(self.image)
            for place, byte in stores[:made]:
                expected[place] = byte
            self.assertEqual(malquindo.cut(image, session, self.append(self.LOST), made), len(stores))
            self.assertEqual((image, session), (expected, self.session))
            held = [self.FIRST, self.LOST] if made >= len(stores) else [self.FIRST]
            self.assertEqual(malquindo.command(image, session, bytes.fromhex('00B2010D000000')), (b''.join(held), 0x9000))
            self.assertEqual(malquindo.command(image, session, self.append(self.LATER)), (b'', 0x9000))
            after = self.body(*held, self.LATER)
            self.assertEqual(image[6:6 + len(after)], after)

    def test_all_stores_are_the_command(self):
        image, session = bytearray(self.image), bytearray(self.session)
        malquindo.cut(image, session, self.append(self.LOST), 10)
        malquindo.command(self.image, self.session, self.append(self.LOST))
        self.assertEqual(image, self.image)

    def test_an_activation(self):
        image, session = malquindo.move_card(b'', [(0x031A, 2), (0x0401, 5 + 4)]), malquindo.open(ALL_RIGHTS)
        update, activate = bytes.fromhex('00D70201075401005302AABB'), bytes.fromhex('00440000')
        for command in (bytes.fromhex('00A4040C07A0000002472003'), update):
            self.assertEqual(malquindo.command(image, session, command), (b'', 0x9000))
        before = bytes(image)
        self.assertEqual((malquindo.cut(image, session, activate, 0), image), (1, before))
        self.assertEqual((malquindo.cut(image, session, update, 5), image), (0, before))
        self.assertEqual((malquindo.cut(image, session, activate, 1), image), (1, before[:14] + b'\x01' + before[15:]))
        self.assertEqual(malquindo.command(image, session, update), (b'', 0x6982))
        self.assertEqual(malquindo.cut(image, session, activate, 1), 0)

    def test_no_stores(self):
        before = bytes(self.image), bytes(self.session)
        for command in (b'', SELECT, bytes.fromhex('00B2010C000000'), self.append(bytes(200)), self.append(b'')):
            for made in (0, 1, 1 << 63):
                self.assertEqual(malquindo.cut(self.image, self.session, command, made), 0)
        self.assertEqual(malquindo.cut(self.image, malquindo.open(bytes(60)), self.append(self.LOST), 3), 0)
        self.assertEqual((self.image, self.session), before)
        self.assertEqual(malquindo.cut(bytearray(), malquindo.open(ALL_RIGHTS), SELECT, 1), 0)

    def test_refused(self):
        append = self.append(self.LOST)
        for image, session, refusal in ((b'no card', self.session, 2), (b'no card', b'', 2), (self.image, b'', 4), (self.image, bytes(1053), 4),
                                        (self.image, b'\xFF' * 1054, 4), (b'', self.session, 4)):
            kept = bytearray(image)
            self.refused(Refusal(refusal), malquindo.cut, kept, session, append, 3)
            self.answers(malquindo.malquindo_cut(kept, session, append, 3), refusal)
            self.assertEqual(kept, image)

    def test_any_buffer(self):
        shelf = bytearray(100) + self.image + b'\xEE'
        part = memoryview(shelf)[100:-1]
        self.assertEqual(malquindo.malquindo_cut(part, bytes(self.session) + b'more', memoryview(self.append(self.LOST)), 2), 10)
        self.assertEqual((shelf[:100], shelf[-1]), (bytes(100), 0xEE))
        self.assertEqual([i for i, (a, b) in enumerate(zip(part, self.image)) if a != b], [6 + len(self.body(self.FIRST))])
        # What is only read is copied, so a session in the image does no harm.
        self.assertEqual(malquindo.malquindo_cut(self.image, memoryview(self.image), SELECT, 1), 4 << 32)

    def test_wrong_arguments(self):
        append = self.append(self.LOST)
        self.assertRaises(TypeError, malquindo.cut, bytes(self.image), self.session, append, 1)
        for wrong in ('00', 7, None, [0, 1]):
            self.assertRaises(TypeError, malquindo.cut, wrong, self.session, append, 1)
            self.assertRaises(TypeError, malquindo.cut, self.image, wrong, append, 1)
            self.assertRaises(TypeError, malquindo.cut, self.image, self.session, wrong, 1)
        for wrong in (1.0, '1', None):
            self.assertRaises(TypeError, malquindo.cut, self.image, self.session, append, wrong)
        for wrong in (-1, 1 << 64):
            self.assertRaises(ValueError, malquindo.cut, self.image, self.session, append, wrong)


class Moves(Case):
    def test_every_number_stays(self):
        for command, _ in WORKED:
            malquindo.command(self.image, self.session, bytes.fromhex(command))
        new = malquindo.move_card(self.image, [(0x0101, 100), (0x0102, 50), (0x011A, 40), (0x0203, 2), (0x021A, 2)])
        self.assertEqual(len(new), 194 + 5 * 6)
        self.assertEqual(new[6:46], self.image[6:46])
        self.assertEqual(malquindo.command(new, self.session, bytes.fromhex('00B2020C000000')), (b'_D\x03FRA', 0x9000))
        self.assertEqual(malquindo.move_card(new, [(0x0101, 40), (0x0102, 40), (0x011A, 40), (0x0203, 2), (0x021A, 2)])[:138], self.image)

    def test_refusals(self):
        held = bytes([5, 0, 0, 0, 0x1A, 0x03, 1, 0, 1, 0, 7])
        self.refused(Refusal.BAD_IMAGE, malquindo.move_card, held[1:], [(0x031A, 5)])
        self.refused(Refusal.BAD_LIST, malquindo.move_card, held, [(0x031A, 5), (0x031A, 5)])
        self.refused(Refusal.BAD_LIST, malquindo.move_card, held, [(0x0101, 5), (0x031A, 5)])
        self.refused(Refusal.BAD_LIST, malquindo.move_card, held, [(0x031A, malquindo.IMAGE_LEN - 5)])
        self.refused(Refusal.MISSING_KIND, malquindo.move_card, held, [])
        self.refused(Refusal.SMALL_ROOM, malquindo.move_card, held, [(0x031A, 4)])
        self.assertEqual(len(malquindo.move_card(held, [(0x031A, malquindo.IMAGE_LEN - 6)])), malquindo.IMAGE_LEN)

    def test_a_short_target(self):
        target = bytearray(b'\xA5' * 8)
        row = bytes([2, 0, 0, 0, 0x1A, 0x03])
        self.answers(malquindo.malquindo_move(b'', row, memoryview(target)[1:]), Refusal.SHORT_TARGET)
        self.answers(malquindo.malquindo_move(b'', row[1:], target), Refusal.BAD_LIST)
        self.assertEqual(target, b'\xA5' * 8)
        result = malquindo.malquindo_move(b'', row, target)
        self.assertEqual((malquindo.malquindo_moved(result), target), (8, row + bytes(2)))

    def test_rooms(self):
        for wrong in ([('0101', 40)], [(0x0101, 40.0)], [7], 7):
            self.assertRaises(TypeError, malquindo.move_card, b'', wrong)
        for wrong in ([(0x10000, 2)], [(-1, 2)], [(0x0101, 1 << 32)], [(1, 2, 3)]):
            self.assertRaises(ValueError, malquindo.move_card, b'', wrong)


class Files(Case):
    def test_where_they_stand(self):
        self.assertEqual([malquindo.file(self.image, kind) for kind, _ in TRAVEL], [(6, 40), (52, 40), (98, 40)])
        # Kinds that this card has not; the id of a file; numbers that no file has.
        for kind in (0x0203, 0x0401, 0x0103, 0, 0xFFFF):
            self.assertIsNone(malquindo.file(self.image, kind))

    def test_no_card_has_no_files(self):
        for image in (b'', self.image[:-1], self.image[1:], bytes(138)):
            self.assertIsNone(malquindo.file(image, 0x011A))

    def test_the_longest_image(self):
        half = malquindo.IMAGE_LEN // 2 - 6
        image = malquindo.move_card(b'', [(0x0203, half), (0x021A, half)])
        self.assertEqual(malquindo.file(image, 0x021A), (half + 12, half))

    def test_any_buffer(self):
        for image in (bytes(self.image), memoryview(self.image).toreadonly(), memoryview(array.array('H', bytes(self.image)))):
            self.assertEqual(malquindo.file(image, 0x011A), (98, 40))

    def test_wrong_kinds(self):
        for wrong in ('011A', b'\x01\x1A', 1.0, None):
            self.assertRaises(TypeError, malquindo.file, self.image, wrong)
        for wrong in (-1, 0x1011A):
            self.assertRaises(ValueError, malquindo.file, self.image, wrong)
        self.assertRaises(TypeError, malquindo.file, 'image', 0x011A)


class Certificates(Case):
    ONE = bytes.fromhex('0100 0100 A1')
    TWO = bytes.fromhex('0200 0100 B1 0200 B2B2 EE')    # and a free byte
    NONE = bytes(2)

    def test_the_card_comes_before_the_desk(self):
        self.assertEqual(malquindo.certificate(self.ONE, self.TWO, 1), (Source.CARD, b'\xA1'))
        self.assertEqual(malquindo.certificate(self.TWO, self.ONE, 1), (Source.CARD, b'\xB1'))
        self.assertEqual(malquindo.certificate(self.ONE, self.TWO, 2), (Source.DESK, b'\xB2\xB2'))
        self.assertEqual(malquindo.certificate(self.NONE, self.ONE, 1), (Source.DESK, b'\xA1'))
        self.assertEqual(malquindo.certificate(self.TWO, self.TWO, 2), (Source.CARD, b'\xB2\xB2'))

    def test_missing(self):
        full = bytes([254, 0]) + bytes([1, 0, 7]) * 254
        for card in (self.NONE, self.ONE, full):
            for reference in (0x00, 0xFF):
                self.assertIsNone(malquindo.certificate(card, full, reference))
                self.assertEqual(malquindo.malquindo_certificate(card, full, reference), 0)
            self.assertIsNone(malquindo.certificate(card, self.NONE, 0xFF))
        self.assertIsNone(malquindo.certificate(self.ONE, self.TWO, 3))

    def test_refused(self):
        for damaged in (b'', b'\x00', b'\xFF\x00', self.ONE[:-1], bytes([1, 0, 0, 0]), bytes([1, 0, 0xA2, 3]) + bytes(930)):
            for reference in (0, 1, 255):
                for card, desk in ((damaged, self.ONE), (self.ONE, damaged), (damaged, damaged)):
                    self.refused(Refusal.BAD_CERTIFICATES, malquindo.certificate, card, desk, reference)
                    self.answers(malquindo.malquindo_certificate(card, desk, reference), Refusal.BAD_CERTIFICATES)

    def test_the_last_of_the_longest(self):
        full = bytes([254, 0]) + (bytes([0xA1, 3]) + bytes(929)) * 254
        result = malquindo.malquindo_certificate(self.NONE, full, 254)
        self.assertEqual((malquindo.malquindo_certificate_which(result), malquindo.malquindo_certificate_place(result),
                          malquindo.malquindo_certificate_length(result)), (2, len(full) - 929, 929))
        # A body may be longer than any image.
        self.assertEqual(malquindo.malquindo_certificate(self.NONE, full + bytes(malquindo.IMAGE_LEN), 254), result)

    def test_a_view_is_no_copy(self):
        card, desk = bytearray(self.ONE), bytearray(self.TWO)
        on_card, at_desk = malquindo.certificate(card, desk, 1), malquindo.certificate(card, desk, 2)
        card[4], desk[8] = 0xA7, 0xB8
        self.assertEqual((bytes(on_card.data), bytes(at_desk.data)), (b'\xA7', b'\xB2\xB8'))
        self.assertIs(malquindo.certificate(self.ONE, desk, 1).data.obj, self.ONE)

    def test_of_a_card(self):
        malquindo.command(self.image, self.session, SELECT)
        malquindo.command(self.image, self.session, bytes.fromhex('00E200D0037F21C1'))
        place, length = malquindo.file(self.image, 0x011A)
        body = memoryview(self.image)[place:place + length]
        found = malquindo.certificate(body, self.NONE, 1)
        self.assertEqual((str(found), found.data.obj), ('CARD 7F21C1', self.image))
        # Later certificates leave it as it is.
        malquindo.command(self.image, self.session, bytes.fromhex('00E200D0037F21C2'))
        self.assertEqual((found.data, str(malquindo.certificate(body, self.NONE, 2))), (b'\x7F\x21\xC1', 'CARD 7F21C2'))

    def test_a_body_counts_in_bytes(self):
        pairs = memoryview(array.array('H', self.TWO))
        self.assertEqual(malquindo.certificate(pairs, self.NONE, 2), (Source.CARD, b'\xB2\xB2'))
        foreign = memoryview(ctypes.create_string_buffer(self.TWO, len(self.TWO)))
        self.assertEqual(bytes(malquindo.certificate(self.NONE, foreign, 2).data), b'\xB2\xB2')

    def test_wrong_arguments(self):
        for wrong in ('00', 7, None, [0, 0]):
            self.assertRaises(TypeError, malquindo.certificate, wrong, self.NONE, 1)
            self.assertRaises(TypeError, malquindo.certificate, self.NONE, wrong, 1)
        for wrong in ('1', b'\x01', 1.0, None):
            self.assertRaises(TypeError, malquindo.certificate, self.NONE, self.NONE, wrong)
        for wrong in (-1, 256, 257):
            self.assertRaises(ValueError, malquindo.certificate, self.NONE, self.NONE, wrong)


class Indexes(Case):
    KINDS = {0x0101: (391, 254), 0x0102: (391, 254), 0x011A: (929, 254), 0x0203: (512, 254), 0x021A: (929, 254), 0x031A: (929, 64)}
    NONE = bytes(2)
    THREE = bytes.fromhex('0300 0100 A1 0300 A2A2A2 0200 A3A3 0100EE')    # and free bytes
    PLACES = (2, 5, 10)
    RECORDS = (b'\xA1', b'\xA2' * 3, b'\xA3' * 2)
    DAMAGED = (b'', b'\x00', b'\xFF\x00', b'\x00\x01', bytes([1, 0]), bytes([1, 0, 1]), bytes([1, 0, 0, 0]), THREE[:13])
    NO_KINDS = (0, 0x0103, 0x0400, 0x0401, 0x0440, 0x0441, 0x1A01, 0xFFFF)

    @staticmethod
    def alike(count, length):
        return bytes([count, 0]) + (length.to_bytes(2, 'little') + b'\x07' * length) * count

    @staticmethod
    def entries(count):
        """Entries that are no places."""
        return array.array('I', range(0xEE000000, 0xEE000000 + count))

    def test_a_place_for_each_record(self):
        for kind, (longest, most) in self.KINDS.items():
            index = Index.build(kind, self.THREE)
            self.assertEqual((index.kind, len(index), index.places), (kind, 3, self.PLACES))
            self.assertEqual(tuple(bytes(index.read(self.THREE, number)) for number in (1, 2, 3)), self.RECORDS)
            self.assertEqual(Index.build(kind, self.NONE).places, ())
            full = self.alike(most, longest)
            index = Index.build(kind, full)
            self.assertEqual((len(index), index.places[-1]), (most, len(full) - longest - 2))
            self.assertEqual(index.read(full, most), b'\x07' * longest)
            self.refused(Refusal.BAD_INDEX, Index.build, kind, self.alike(most + 1, 1))
            self.refused(Refusal.BAD_INDEX, Index.build, kind, self.alike(1, longest + 1))

    def test_refused_kinds_and_bodies(self):
        for kind, body in [(kind, self.THREE) for kind in self.NO_KINDS] + [(0x0101, body) for body in self.DAMAGED]:
            self.refused(Refusal.BAD_INDEX, Index.build, kind, body)
            for places in ((), (2, 5), (2,) * 254):
                index = Index(kind, places)
                self.refused(Refusal.BAD_INDEX, index.extend, body)
                self.assertEqual(index.places, places)

    def test_extended_by_the_last_record(self):
        index = Index.build(0x0203, self.NONE)
        index.extend(self.alike(1, 512))
        self.assertEqual(index.places, (2,))
        # The places before are not looked at.
        index = Index(0x0203, (7, 0xFFFFFFFF))
        index.extend(self.THREE)
        self.assertEqual(index.places, (7, 0xFFFFFFFF, 10))
        full = self.alike(254, 1)
        index = Index(0x0203, Index.build(0x0203, full).places[:253])
        index.extend(full)
        self.assertEqual(index.places, Index.build(0x0203, full).places)

    def test_extended_by_no_other(self):
        for places in ((), (2,), self.PLACES, self.PLACES + (14,), (0,) * 300):
            index = Index(0x0101, places)
            self.refused(Refusal.BAD_INDEX, index.extend, self.THREE)
            self.assertEqual(index.places, places)

    def test_numbers(self):
        index = Index.build(0x0101, self.THREE)
        for number in (0, 4, 255, 2 ** 32 + 1, 2 ** 64 - 1):
            self.refused(Refusal.BAD_INDEX, index.read, self.THREE, number)
        self.refused(Refusal.BAD_INDEX, Index(0x0101, ()).read, self.THREE, 1)

    def test_a_foreign_list(self):
        def read(body, place):
            return bytes(Index(0, [place]).read(body, 1))
        self.assertEqual(read(self.THREE, 0), self.THREE[2:5])
        self.assertEqual(read(bytes(4), 2), b'')
        long = b'\xFF\xFF' + bytes(65535)
        self.assertEqual(len(read(long, 0)), 65535)
        for body, place in ((long[:-1], 0), (self.THREE, 7), (self.THREE, 16), (self.THREE, 17), (self.THREE[:9], 5), (b'', 0)):
            self.refused(Refusal.BAD_INDEX, Index(0, [place]).read, body, 1)
        for place in range(2 ** 32 - 4, 2 ** 32):
            self.refused(Refusal.BAD_INDEX, Index(0, [place]).read, bytes(4), 1)

    def test_a_view_is_no_copy(self):
        body = bytearray(self.THREE)
        record = Index.build(0x0101, body).read(body, 2)
        body[8] = 0xB2
        self.assertEqual(record, b'\xA2\xB2\xA2')
        self.assertIs(record.obj, body)

    def test_beside_a_card(self):
        image = malquindo.move_card(b'', [(0x0101, 400), (0x0102, 2), (0x011A, 2)])
        malquindo.command(image, self.session, SELECT)
        place, length = malquindo.file(image, 0x0101)
        body = memoryview(image)[place:place + length]
        index = Index.build(0x0101, body)
        for number in range(1, 21):
            append = bytes([0x00, 0xE2, 0x00, 0x08, number]) + bytes([number] * number)
            self.assertEqual(malquindo.command(image, self.session, append).status, 0x9000)
            index.extend(body)
        self.assertEqual(index.places, Index.build(0x0101, body).places)
        for number in range(1, 21):
            answer = malquindo.command(image, self.session, bytes([0x00, 0xB2, number, 0x0C, 0, 0, 0]))
            self.assertEqual(answer, (index.read(body, number), 0x9000))
        # A move changes no place.
        larger = malquindo.move_card(image, [(0x0101, 500), (0x0102, 2), (0x011A, 2)])
        place, length = malquindo.file(larger, 0x0101)
        self.assertEqual(index.read(memoryview(larger)[place:place + length], 20), index.read(body, 20))

    def test_other_entries_stay(self):
        places = self.entries(6)
        result = malquindo.malquindo_index_build(0x0101, self.THREE, places)
        self.assertEqual((malquindo.malquindo_index_places(result), places[:3].tolist(), places[3:]), (3, [2, 5, 10], self.entries(6)[3:]))
        places, after = self.entries(6), self.entries(6)
        after[2] = 10
        result = malquindo.malquindo_index_extend(0x0101, self.THREE, places, 2)
        self.assertEqual((malquindo.malquindo_index_places(result), places), (3, after))
        self.assertEqual(malquindo.malquindo_index_length(malquindo.malquindo_index_read(self.THREE, places, 3)), 2)

    def test_a_refused_list_stays(self):
        for count in (0, 1, 2):
            places = self.entries(count)
            self.answers(malquindo.malquindo_index_build(0x0101, self.THREE, places), Refusal.BAD_INDEX)
            self.answers(malquindo.malquindo_index_extend(0x0101, self.THREE, places, 2), Refusal.BAD_INDEX)
            self.assertEqual(places, self.entries(count))
        places = self.entries(6)
        for body in self.DAMAGED:
            self.answers(malquindo.malquindo_index_build(0x0101, body, places), Refusal.BAD_INDEX)
        for body, n in ((self.THREE, 1), (self.THREE, 3), (self.THREE, 2 ** 32 + 2), (self.THREE, 2 ** 64 - 1), (self.NONE, 2 ** 64 - 1)):
            self.answers(malquindo.malquindo_index_extend(0x0101, body, places, n), Refusal.BAD_INDEX)
        self.assertEqual(places, self.entries(6))

    def test_parts_of_a_list(self):
        shelf = self.entries(7)
        self.assertEqual(malquindo.malquindo_index_build(0x0101, self.THREE, memoryview(shelf)[2:5]), 3)
        self.assertEqual(shelf[2:5].tolist(), [2, 5, 10])
        self.assertEqual((shelf[:2], shelf[5:]), (self.entries(7)[:2], self.entries(7)[5:]))
        foreign = (ctypes.c_uint32 * 3)()
        self.assertEqual(malquindo.malquindo_index_build(0x0101, self.THREE, memoryview(foreign)), 3)
        self.assertEqual(list(foreign), [2, 5, 10])
        # What is only read is copied, so it may be anywhere.
        bytes_of_places = bytearray(1) + shelf.tobytes()
        odd = memoryview(bytes_of_places)[1:].cast('I')
        self.assertEqual(malquindo.malquindo_index_read(self.THREE, odd.toreadonly(), 4), 3)
        self.assertRaises(ValueError, malquindo.malquindo_index_build, 0x0101, self.THREE, odd)

    def test_lists_are_given_back(self):
        places = self.entries(3)
        malquindo.malquindo_index_build(0x0101, self.THREE, places)
        places.append(7)

    def test_wrong_arguments(self):
        good = self.entries(6)
        for wrong in ([0] * 6, b'\x00' * 24, bytearray(24), array.array('H', [0] * 6), array.array('i', [0] * 6), memoryview(good)[::2], None):
            self.assertRaises(TypeError, malquindo.malquindo_index_build, 0x0101, self.THREE, wrong)
            self.assertRaises(TypeError, malquindo.malquindo_index_extend, 0x0101, self.THREE, wrong, 2)
            self.assertRaises(TypeError, malquindo.malquindo_index_read, self.THREE, wrong, 1)
        self.assertRaises(TypeError, malquindo.malquindo_index_build, 0x0101, self.THREE, memoryview(good).toreadonly())
        for wrong in ('1', b'\x01', 1.0, None):
            self.assertRaises(TypeError, Index.build, wrong, self.THREE)
            self.assertRaises(TypeError, Index, wrong, ())
            self.assertRaises(TypeError, Index, 0x0101, [wrong])
            self.assertRaises(TypeError, Index(0x0101, [2]).read, self.THREE, wrong)
            self.assertRaises(TypeError, malquindo.malquindo_index_extend, 0x0101, self.THREE, good, wrong)
        for wrong in (-1, 2 ** 64):
            self.assertRaises(ValueError, Index.build, wrong, self.THREE)
            self.assertRaises(ValueError, Index, 0x0101, [wrong])
            self.assertRaises(ValueError, Index(0x0101, [2]).read, self.THREE, wrong)
            self.assertRaises(ValueError, malquindo.malquindo_index_extend, 0x0101, self.THREE, good, wrong)
        self.assertRaises(TypeError, Index.build, 0x0101, '0000')


class Stamps(Case):
    TAGS = (0x44, 0x44, 0x4C, 0x45, 0x4B, 0x46, 0x4A, 0x4D, 0x49, 0x48, 0x4E, 0x37, 0x38)
    LONGEST = (3, 3, 50, 8, 10, 10, 20, 50, 1, 2, 50, 140, 1)
    OPTIONAL = (StampField.VISAS, StampField.RESULT, StampField.MODE, StampField.DURATION, StampField.CONDITIONS)
    VALUES = (b'UTO', b'UTO', b'V 1', b'20261116', b'UBP', b'AIR<7', b'I07', b'OK', b'A', b'\x00\x5A', b'NO WORK', b'\x00\xFF\x73', b'\xFE')

    @staticmethod
    def object(tag, value):
        return tag + (bytes([len(value)]) if len(value) < 0x80 else bytes([0x81, len(value)])) + value

    def record(self, values):
        """The stamp of these values; one that is None is left out."""
        fields = [b'' if value is None else self.object(bytes([0x5F, tag]), value) for tag, value in zip(self.TAGS, values)]
        inside = b''.join(fields[StampField.STATE:StampField.SIGNATURE])
        return fields[StampField.STATE_COPY] + self.object(b'\x73', inside) + fields[StampField.SIGNATURE] + fields[StampField.REFERENCE]

    def shortest(self):
        whole = (StampField.STATE_COPY, StampField.STATE, StampField.DATE)
        return self.record([value if at in whole else None if at in self.OPTIONAL else value[:1] for at, value in enumerate(self.VALUES)])

    def fault(self, record, reason, at):
        with self.assertRaises(malquindo.StampFault) as caught:
            malquindo.read_stamp(record)
        self.assertEqual((caught.exception.reason, caught.exception.at), (reason, at))
        self.assertIsInstance(caught.exception.reason, Reason)

    @staticmethod
    def entries(count):
        """Entries that are no places."""
        return array.array('I', range(0xEE000000, 0xEE000000 + count))

    def test_all_fields(self):
        stamp = malquindo.read_stamp(self.record(self.VALUES))
        self.assertEqual(stamp, self.VALUES[:-1] + (0xFE,))
        self.assertEqual((stamp.state, stamp.mode, stamp.reference), (b'UTO', b'A', 0xFE))

    def test_the_numbers_are_those_of_the_header(self):
        header = (malquindo.ROOT / 'include/malquindo.h').read_text()
        numbers = dict(re.findall(r'^#define MALQUINDO_STAMP_(\w+) (\d+)', header, re.MULTILINE))
        expected = {field.name: field for field in StampField}
        expected.update({f'WRONG_{reason.name}': reason for reason in Reason}, LEN=malquindo.STAMP_LEN, PLACES=malquindo.STAMP_PLACES)
        self.assertEqual({name: int(number) for name, number in numbers.items()}, expected)
        self.assertEqual([field.name.lower() for field in StampField], list(Stamp._fields))
        self.assertEqual(2 * len(StampField), malquindo.STAMP_PLACES)

    def test_optional_fields(self):
        for bits in range(32):
            values = list(self.VALUES)
            for bit, field in enumerate(self.OPTIONAL):
                if bits >> bit & 1:
                    values[field] = None
            self.assertEqual(malquindo.read_stamp(self.record(values)), (*values[:-1], 0xFE))

    def test_the_shortest_and_the_longest(self):
        self.assertEqual(len(self.shortest()), 45)
        self.assertEqual(sum(value is None for value in malquindo.read_stamp(self.shortest())), 5)
        values = [(value * 140)[:longest] for value, longest in zip(self.VALUES, self.LONGEST)]
        self.assertEqual(len(self.record(values)), malquindo.STAMP_LEN)
        self.assertEqual(malquindo.read_stamp(self.record(values)), (*values[:-1], 0xFE))
        for at in range(13):
            with self.assertRaises(malquindo.StampFault) as caught:
                malquindo.read_stamp(self.record(values[:at] + [values[at] + b'7'] + values[at + 1:]))
            self.assertIs(caught.exception.reason, Reason.LENGTH)

    def test_faults(self):
        stamp = self.shortest()
        self.fault(b'', Reason.TAG, 0)
        self.fault(stamp[6:], Reason.TAG, 0)
        self.fault(stamp[:41], Reason.TAG, 41)
        self.fault(stamp[:42], Reason.TAG, 41)
        self.fault(stamp[:43], Reason.LENGTH, 41)
        self.fault(stamp[:44], Reason.LENGTH, 41)
        self.fault(stamp + b'\x00', Reason.TAG, 45)
        self.fault(stamp[:7] + b'\x81' + stamp[7:], Reason.LENGTH, 6)
        for reference in (b'\x00', b'\xFF'):
            self.fault(stamp[:44] + reference, Reason.CONTENT, 41)
        # States that differ are told at the second, one that is no State where it stands.
        self.fault(stamp[:3] + b'uTO' + stamp[6:], Reason.CONTENT, 8)
        self.fault(stamp[:11] + b'UTU' + stamp[14:], Reason.CONTENT, 8)
        self.fault(stamp[:3] + b'U1O' + stamp[6:], Reason.CONTENT, 0)
        # No inspector: what is missing should stand where the signed part ends.
        missing = self.record([None if at == StampField.INSPECTOR or at in self.OPTIONAL else value for at, value in enumerate(self.VALUES)])
        self.fault(missing, Reason.TAG, len(missing) - 10)

    def test_the_words(self):
        self.assertEqual(str(malquindo.StampFault(41, 1)), 'offset 41, TAG: an object is missing, out of order or too many')
        self.assertEqual((sorted(Reason), set(malquindo.REASON_WORDS)), ([1, 2, 3], set(Reason)))
        unknown = malquindo.StampFault(7, 4)
        self.assertEqual((unknown.at, unknown.reason, str(unknown)), (7, 4, 'offset 7, 4, which is not known here'))

    def test_the_list(self):
        record = self.shortest()
        for count in (0, 1, 25):
            for read in (record, b''):
                places = self.entries(count)
                self.answers(malquindo.malquindo_stamp_read(read, places), Refusal.SHORT_LIST)
                self.assertEqual(places, self.entries(count))
        for count in (26, 27, 40):
            places = self.entries(count)
            result = malquindo.malquindo_stamp_read(record + b'\x00', places)
            self.assertEqual((malquindo.malquindo_stamp_reason(result), malquindo.malquindo_stamp_offset(result)), (1, 45))
            self.assertEqual(places, self.entries(count))
            self.assertEqual(malquindo.malquindo_stamp_read(record, places), 0)
            self.assertEqual(places[:8].tolist(), [3, 3, 11, 3, 0, 0, 17, 8])
            self.assertEqual(malquindo.malquindo_stamp_place(places, StampField.REFERENCE), 44)
            self.assertEqual(malquindo.malquindo_stamp_length(places, StampField.REFERENCE), 1)
            self.assertEqual(places[26:], self.entries(count)[26:])
        shelf = self.entries(30)
        self.assertEqual(malquindo.malquindo_stamp_read(record, memoryview(shelf)[2:28]), 0)
        self.assertEqual((shelf[:2], shelf[28:]), (self.entries(30)[:2], self.entries(30)[28:]))

    def test_any_buffer(self):
        record = self.record(self.VALUES)
        stamp = malquindo.read_stamp(record)
        pairs = memoryview(array.array('H', record + bytes(len(record) % 2)))
        for buffer in (bytearray(record), memoryview(record), memoryview(b'\x00' + record)[1:], pairs.cast('B')[:len(record)]):
            self.assertEqual(malquindo.read_stamp(buffer), stamp)
        even = self.record([value + b'7' if at == StampField.SIGNATURE and len(record) % 2 else value for at, value in enumerate(self.VALUES)])
        self.assertEqual(malquindo.read_stamp(memoryview(array.array('H', even))), malquindo.read_stamp(even))

    def test_wrong_arguments(self):
        record = self.shortest()
        for wrong in ('5F44', 7, None, [0, 1]):
            self.assertRaises(TypeError, malquindo.read_stamp, wrong)
        for wrong in ([0] * 26, bytes(104), bytearray(104), array.array('i', [0] * 26), memoryview(self.entries(26)).toreadonly(), None):
            self.assertRaises(TypeError, malquindo.malquindo_stamp_read, record, wrong)

    def test_of_a_card(self):
        image = malquindo.move_card(b'', [(0x0101, 100), (0x0102, 2), (0x011A, 40)])
        record = self.shortest()[:-1] + b'\x01'
        for command in (SELECT, b'\x00\xE2\x00\x08\x2D' + record, bytes.fromhex('00E200D0037F21C1')):
            self.assertEqual(malquindo.command(image, self.session, command).status, 0x9000)
        body, card = (memoryview(image)[place:place + length] for place, length in (malquindo.file(image, kind) for kind in (0x0101, 0x011A)))
        stamp = malquindo.read_stamp(Index.build(0x0101, body).read(body, 1))
        self.assertIsInstance(stamp, Stamp)
        self.assertEqual(str(malquindo.certificate(card, bytes(2), stamp.reference)), 'CARD 7F21C1')


class Rights(Case):
    ORDERS = ((), (0,), (1,), (2,), (0, 1), (0, 2), (1, 0), (1, 2), (2, 0), (2, 1),
              (0, 1, 2), (0, 2, 1), (1, 0, 2), (1, 2, 0), (2, 0, 1), (2, 1, 0))
    KNOWN = (b'\xF1', b'\xF2', bytes(range(0x31, 0x31 + 17)))

    @staticmethod
    def object(tag, value):
        size = len(value)
        length = bytes([size]) if size < 0x80 else bytes([0x81, size]) if size < 0x100 else b'\x82' + size.to_bytes(2, 'big')
        return bytes([tag]) + length + value

    def extension(self, identifier, rights):
        return self.object(0x73, self.object(0x06, identifier) + self.object(0x53, rights))

    @staticmethod
    def identifier(which):
        return bytes([0x67, 0x81, 0x08, 0x01, 0x01, 0x09, which + 1, 0x03])

    def known(self, *order):
        return b''.join(self.extension(self.identifier(which), self.KNOWN[which]) for which in order)

    def given(self, order):
        """What a run of these known ones gives."""
        parts = [value if which in order else bytes(len(value)) for which, value in enumerate(self.KNOWN)]
        return bytes([sum(1 << which for which in order)]) + b''.join(parts)

    def alone(self, run, expected):
        """The run gives this in each of the three places, where the others are empty; a Refusal is one."""
        for place in range(3):
            runs = [run if at == place else b'' for at in range(3)]
            if isinstance(expected, Refusal):
                self.refused(expected, malquindo.rights, *runs)
            else:
                self.assertEqual(malquindo.rights(*runs), bytes(20 * place) + expected + bytes(40 - 20 * place))

    def test_every_order(self):
        for order in self.ORDERS:
            self.alone(self.known(*order), self.given(order))
        self.assertEqual(malquindo.rights(self.known(0), self.known(2, 1), self.known(1)),
                         self.given((0,)) + self.given((1, 2)) + self.given((1,)))
        self.assertEqual(malquindo.rights(b'', b'', b''), bytes(60))

    def test_unknown_ones_are_passed_over(self):
        known = self.identifier(0)
        for identifier in (b'', known[:7], known + b'\x00', b'\x66' + known[1:], known[:6] + b'\x04\x03', bytes(300)):
            for size in (0, 1, 17, 127, 128, 255, 256, 60000):
                unknown = self.extension(identifier, b'\xFF' * size)
                self.alone(unknown + self.known(1) + unknown, self.given((1,)))
        longest = self.extension(b'', bytes(65529))
        self.assertEqual(len(longest), 65539)
        self.alone(longest + self.known(2), self.given((2,)))

    def test_bad_extensions(self):
        good = self.known(0)
        for length in range(1, len(good)):
            self.alone(good[:length], Refusal.BAD_EXTENSION)
        identifier, value = good[2:12], good[12:]
        for inside in (b'', identifier, value, value + identifier, identifier + value + b'\x00', identifier + value + value,
                       identifier + b'\x53\x81\x01\x0F', identifier + b'\x53\x02\x0F'):
            self.alone(self.object(0x73, inside), Refusal.BAD_EXTENSION)
        self.alone(b'\x72' + good[1:], Refusal.BAD_EXTENSION)
        self.alone(good + b'\x00', Refusal.BAD_EXTENSION)
        for which, value in enumerate(self.KNOWN):
            for size in set(range(20)) - {len(value)}:
                self.alone(self.extension(self.identifier(which), bytes(size)), Refusal.BAD_EXTENSION)

    def test_a_known_one_twice(self):
        for which in range(3):
            known = self.known(which)
            self.alone(known + known, Refusal.SECOND_EXTENSION)
            self.alone(known + self.extension(b'', b'') + known, Refusal.SECOND_EXTENSION)
            self.assertEqual(malquindo.rights(known, known, known), 3 * self.given((which,)))
            # Of the second one both are true.
            self.alone(known + self.extension(self.identifier(which), b''), Refusal.BAD_EXTENSION)

    def test_the_first_fault_is_told(self):
        bad, twice = b'\x73', self.known(0, 0)
        self.refused(Refusal.BAD_EXTENSION, malquindo.rights, bad, twice, b'')
        self.refused(Refusal.SECOND_EXTENSION, malquindo.rights, twice, bad, b'')
        self.refused(Refusal.SECOND_EXTENSION, malquindo.rights, b'', twice, bad)
        self.alone(twice + bad, Refusal.SECOND_EXTENSION)
        self.alone(self.known(0) + bad + self.known(0), Refusal.BAD_EXTENSION)

    def test_the_buffer(self):
        good = self.known(0, 1, 2)
        for count in (0, 1, 59):
            for third in (good, b'\x73', good + good):
                buffer = bytearray(b'\xA5' * count)
                self.answers(malquindo.malquindo_rights(good, good, third, buffer), Refusal.SHORT_BUFFER)
                self.assertEqual(buffer, b'\xA5' * count)
        for count in (60, 61, 100):
            for third, refusal in ((b'\x73', Refusal.BAD_EXTENSION), (good + good, Refusal.SECOND_EXTENSION)):
                buffer = bytearray(b'\xA5' * count)
                self.answers(malquindo.malquindo_rights(good, good, third, buffer), refusal)
                self.assertEqual(buffer, bytes(60) + b'\xA5' * (count - 60))
                self.assertEqual(malquindo.open(buffer[:60]), bytes(malquindo.SESSION_LEN))
            self.assertEqual(malquindo.malquindo_rights(good, good, b'', buffer), 0)
            self.assertEqual(buffer, 2 * self.given((0, 1, 2)) + bytes(20) + b'\xA5' * (count - 60))
        shelf = bytearray(b'\xA5' * 64)
        self.assertEqual(malquindo.malquindo_rights(good, good, good, memoryview(shelf)[2:62]), 0)
        self.assertEqual((shelf[:2], shelf[62:]), (b'\xA5' * 2, b'\xA5' * 2))

    def test_any_buffer(self):
        run = self.known(0)
        expected = malquindo.rights(run, run, run)
        pairs = memoryview(array.array('H', run + b'\x00')).cast('B')[:len(run)]
        for buffer in (bytearray(run), memoryview(run), memoryview(b'\x00' + run)[1:], pairs):
            self.assertEqual(malquindo.rights(buffer, run, buffer), expected)
        # One run may be lent three times, and overlap the buffer: what is only read is copied first.
        shelf = bytearray(run + bytes(60))
        self.assertEqual(malquindo.malquindo_rights(shelf[:15], memoryview(shelf)[:15], run, memoryview(shelf)[:60]), 0)
        self.assertEqual(shelf[:60], expected)

    def test_wrong_arguments(self):
        run = self.known(0)
        for wrong in ('7300', 7, None, [0, 1]):
            for place in range(3):
                runs = [wrong if at == place else run for at in range(3)]
                self.assertRaises(TypeError, malquindo.rights, *runs)
            self.assertRaises(TypeError, malquindo.malquindo_rights, run, run, run, wrong)
        self.assertRaises(TypeError, malquindo.malquindo_rights, run, run, run, bytes(60))

    def test_of_a_card(self):
        travel, visa = self.known(0), self.known(1)
        for third, status in ((travel, 0x9000), (visa + travel, 0x9000), (visa, 0x6982), (b'', 0x6982)):
            session = malquindo.open(malquindo.rights(travel, visa + travel, third))
            self.assertEqual(malquindo.command(self.image, session, SELECT).status, status)


class Refusals(Case):
    def test_the_numbers(self):
        self.assertEqual(sorted(Refusal), [1, 2, 3, 4, 6, 7, 8, 9, 10, 11, 12, 13, 15])
        self.assertEqual(malquindo.accept(0x29000), 0x29000)
        self.assertEqual(set(malquindo.REFUSAL_WORDS), set(Refusal))
        self.assertEqual(malquindo.Refused(99).refusal, 99)


class Build(unittest.TestCase):
    def test_no_archive(self):
        with tempfile.TemporaryDirectory() as folder:
            archive = pathlib.Path(folder) / 'libmalquindo.a'
            self.assertIn('scripts/archive', malquindo.build(archive, archive.with_suffix('.so')))
            archive.write_bytes(b'no archive')
            self.assertIn('cc could not link', malquindo.build(archive, archive.with_suffix('.so')))
            self.assertFalse(archive.with_suffix('.so').exists())

    def test_usage(self):
        run = subprocess.run([sys.executable, malquindo.__file__], capture_output=True, text=True)
        self.assertEqual((run.returncode, run.stdout), (1, ''))
        self.assertIn('malquindo.py build', run.stderr)


if __name__ == '__main__':
    unittest.main()
