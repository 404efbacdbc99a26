"""The card to try, and the commands m1 to m10 with their answers, from the table of clause T1 in docs/RULES.md."""
import re

KINDS = (0x0101, 0x0102, 0x011A)
ROW = re.compile(r'^\s*\| (m\d+) \| (.*?) \| (.*?) \|$', re.MULTILINE)


def image(*entries):
    """The card to try, with these records in EntryRecords: three bodies of 40 bytes."""
    card = b''
    for kind in KINDS:
        records = entries if kind == KINDS[0] else ()
        body = len(records).to_bytes(2, 'little') + b''.join(len(record).to_bytes(2, 'little') + record for record in records)
        card += (40).to_bytes(4, 'little') + kind.to_bytes(2, 'little') + body.ljust(40, b'\0')
    return card


def append(length):
    """APPEND RECORD of so many bytes to EntryRecords."""
    lc = bytes([length]) if length < 256 else b'\0' + length.to_bytes(2, 'big')
    return bytes.fromhex('00E20008') + lc + record(length)


def record(length):
    return bytes(i % 256 for i in range(length))


def answers(cell):
    """The answers of a cell, as bytes: data in backticks and a status word; several stand with commas between."""
    return [bytes.fromhex(re.sub(r'[`\s]', '', answer)) for answer in cell.split(';')[0].split(',')]


def commands(name, cell, before):
    """The commands of a row. Two rows say in words how theirs are made."""
    if name == 'm7':
        # The first 02 01 03 is the offset of the window.
        return [before[-1].replace(bytes.fromhex('020103'), bytes.fromhex('020102'), 1)]
    if name == 'm9':
        return [append(int(length)) for length in re.findall(r'\d+', cell)]
    return [bytes.fromhex(cell.strip('`'))]


def exchanges(rules):
    """Name, command and answer of each exchange, in order."""
    found, sent = [], []
    for name, command, answer in ROW.findall(rules):
        row = commands(name, command, sent)
        sent += row
        found += zip([name] * len(row), row, answers(answer), strict=True)
    return found


def after():
    """The card behind m10."""
    return image(bytes.fromhex('5F4403555341'), bytes.fromhex('5F4403465241'), record(20))
