#!/usr/bin/env python3
"""Runs the whole of it: Debian's pcscd with vsmartcard's virtual reader, the program of this folder, and PC/SC programs that talk to the card.

1. m1 to m10 of docs/RULES.md through scriptor, answers and file compared.
2. The ATR and a SELECT through opensc-tool.
3. Random commands through the reader, answers and file compared with the library called directly; the longest command.
4. The reader goes, and the program ends with status 0.

It needs root, as pcscd does; installs nothing, and ends only what it started. The last line is 'N compared, 0 wrong', with status 0. Status 1:
something was wrong; 2: something is missing, or a pcscd runs already.
run.py [SEED [CARDS [COMMANDS]]]; 1, 5 and 200 where they are not given."""
import ctypes
import functools
import glob
import operator
import os
import pathlib
import re
import shutil
import signal
import socket
import subprocess
import sys
import tempfile
import time

HERE = pathlib.Path(__file__).resolve().parent
sys.path.insert(0, str(HERE))
sys.dont_write_bytecode = True     # no files beside the scripts
import pcsc
import worked

HOST = HERE.parent
RULES = HOST.parent / 'docs' / 'RULES.md'
READER = 'Virtual PCD 00 00'
# Debian's packages, and what each is needed for.
PROGRAMS = {'pcscd': 'pcscd', 'scriptor': 'pcsc-tools', 'opensc-tool': 'opensc'}
DRIVERS = ['/usr/lib/pcsc/drivers/serial/libifdvpcd.so*', '/usr/lib/*/pcsc/drivers/serial/libifdvpcd.so*']
SOCKET = '/run/pcscd/pcscd.comm'
ALL_RIGHTS = 'FF' * 60


class Wrong(Exception):
    """Something that cannot be compared: the run ends."""


class Count:
    """How many answers were compared, and how many were wrong."""

    def __init__(self):
        self.compared = self.wrong = 0

    def same(self, what, got, wanted):
        self.compared += 1
        if got != wanted:
            self.wrong += 1
            print(f'! {what}: {shown(got)}, not {shown(wanted)}')


def shown(value):
    text = value.hex(' ').upper() if isinstance(value, bytes) else str(value)
    return text if len(text) < 200 else f'{text[:200]} ... ({len(value)})'


def missing():
    """What is not installed, with the package that has it."""
    for program, package in PROGRAMS.items():
        if not shutil.which(program):
            yield f'{program} (package {package})'
    if not any(map(glob.glob, DRIVERS)):
        yield 'the virtual reader (package vsmartcard-vpcd)'
    try:
        ctypes.CDLL(pcsc.LIBRARY)
    except OSError:
        yield f'{pcsc.LIBRARY} (comes with the package pcscd)'
    if not shutil.which('cargo'):
        yield 'cargo'


def pcscd_runs():
    """Whether another pcscd, or systemd in its place, takes connections. A socket alone may be left of one that was stopped."""
    try:
        with socket.socket(socket.AF_UNIX) as client:
            client.connect(SOCKET)
            return True
    except OSError:
        return False


def built(folder, numbers):
    """The program and the talks, both made by cargo."""
    def cargo(*words):
        if subprocess.run(['cargo', *words], cwd=HOST).returncode:
            raise Wrong(f'cargo {" ".join(words)} failed')
    cargo('build', '--release', '--quiet', '-p', 'reader')
    cargo('run', '--release', '--quiet', '-p', 'compare', '--bin', 'talk', '--', str(folder), *map(str, numbers))
    target = pathlib.Path(os.environ.get('CARGO_TARGET_DIR', HOST / 'target'))
    return target / 'release' / 'reader'


class Process:
    """A program that runs beside this one, and is ended with it."""

    def __init__(self, log, *words):
        self.log = log
        with open(log, 'wb') as out:
            self.process = subprocess.Popen(list(map(str, words)), stdin=subprocess.DEVNULL, stdout=out, stderr=out)

    def ended(self, seconds):
        return self.process.wait(seconds)

    def stop(self):
        if self.process.poll() is None:
            self.process.terminate()
        try:
            return self.process.wait(10)
        except subprocess.TimeoutExpired:
            self.process.kill()
            return self.process.wait()

    def __enter__(self):
        return self

    def __exit__(self, *_):
        self.stop()

    def said(self):
        return pathlib.Path(self.log).read_text(errors='replace')


class Bench:
    """The reader and the card in it. Where the run breaks off, the card is taken out."""

    def __init__(self, folder, program, count, context):
        self.folder, self.program, self.count, self.context = folder, program, count, context
        self.card = folder / 'card.image'
        self.process = None

    def insert(self, image, rights=ALL_RIGHTS):
        """Puts a card into the reader."""
        self.card.write_bytes(image)
        self.process = Process(self.folder / 'reader.log', self.program, self.card, '--rights', rights)
        try:
            pcsc.wait(self.connect).close()
        except pcsc.Error as error:
            raise Wrong(f'the card is not seen ({error}); the program said: {self.process.said()}') from error

    def connect(self):
        return self.context.connect(READER)

    def remove(self):
        self.process.stop()
        pcsc.wait_until_empty(self.context, READER)

    def __enter__(self):
        return self

    def __exit__(self, *_):
        if self.process:
            self.process.stop()


def of_scriptor(text):
    """The answers in what scriptor prints. Long ones stand on several lines, and the meaning behind a colon."""
    answers = re.findall(r'^< ([0-9A-F\s]+?)\s*:', text, re.MULTILINE)
    return [bytes.fromhex(answer) for answer in answers]


def through_scriptor(bench):
    exchanges = worked.exchanges(RULES.read_text(encoding='utf-8'))
    script = bench.folder / 'worked.script'
    script.write_text(''.join(f'{command.hex(" ").upper()}\n' for _, command, _ in exchanges))
    bench.insert(worked.image())
    run = subprocess.run(['scriptor', '-r', READER, '-p', 'T=1', script], capture_output=True, text=True)
    got = of_scriptor(run.stdout)
    if len(got) != len(exchanges):
        raise Wrong(f'scriptor printed {len(got)} answers to {len(exchanges)} commands:\n{run.stdout}{run.stderr}')
    for (name, _, wanted), answer in zip(exchanges, got):
        bench.count.same(f'{name} through scriptor', answer, wanted)
    bench.count.same('the file behind m10', bench.card.read_bytes(), worked.after())
    print(f'scriptor: {len(got)} commands, m1 to m10')


def through_opensc(bench):
    """The card is still in the reader, behind m10."""
    def printed(*words):
        number = str(bench.context.readers().index(READER))
        run = subprocess.run(['opensc-tool', '--reader', number, *words], capture_output=True, text=True)
        return run.stdout + run.stderr

    def compare(what, pattern, text, wanted):
        found = re.search(pattern, text, re.MULTILINE)
        bench.count.same(what, bytes.fromhex(re.sub(r'[^0-9A-Fa-f]', '', ''.join(found.groups()))) if found else text, wanted)

    card = bench.connect()
    atr = card.atr()
    card.close()
    bench.count.same('the sum of the ATR behind its first byte', functools.reduce(operator.xor, atr[1:]), 0)
    compare("opensc-tool's ATR", r'^([0-9a-f]{2}(?::[0-9a-f]{2})+)$', printed('--atr'), atr)
    _, select, wanted = worked.exchanges(RULES.read_text(encoding='utf-8'))[0]
    compare("opensc-tool's SELECT", r'SW1=0x([0-9A-F]{2}), SW2=0x([0-9A-F]{2})', printed('--send-apdu', select.hex(':')), wanted)
    bench.remove()
    print(f'opensc-tool: the ATR {shown(atr)}, and a SELECT')


def turns(bench, number, words):
    """One card's turns. Answers how many commands there were, how many of them ended with 9000, and were extended."""
    card = bench.connect()
    card.reset()
    commands = good = extended = 0
    for line in words:
        if line == 'reset':
            card.reset()
            continue
        command, wanted = (bytes.fromhex(part) for part in line.split(' '))
        bench.count.same(f'card {number}, {shown(command)}', card.transmit(command), wanted)
        commands += 1
        good += wanted.endswith(b'\x90\x00')
        extended += len(command) > 6 and command[4] == 0
    card.close()
    return commands, good, extended


def through_pcsc(bench, cards):
    began = time.monotonic()
    total = [0, 0, 0]
    for number in range(cards):
        def read(end):
            return (bench.folder / f'{number}.{end}').read_bytes()
        bench.insert(read('before'), read('rights').decode())
        numbers = turns(bench, number, read('turns').decode().splitlines())
        total = [a + b for a, b in zip(total, numbers)]
        bench.count.same(f'the file of card {number}', bench.card.read_bytes(), read('after'))
        bench.remove()
    seconds = time.monotonic() - began
    print(f'PC/SC: {total[0]} random commands on {cards} cards, {total[1]} answered 9000, {total[2]} extended; {seconds:.0f} s')


def longest(bench):
    """The longest response that the card gives, and the longest command that the virtual reader carries."""
    long = bytes(range(200))
    bench.insert(big_card())
    card = bench.connect()
    same = bench.count.same
    same('SELECT', card.transmit(bytes.fromhex('00A4040C07A0000002472001')), b'\x90\x00')
    for _ in range(12):
        same('an append of 200 bytes', card.transmit(bytes.fromhex('00E20008C8') + long), b'\x90\x00')
    same('2,048 bytes read', card.transmit(bytes.fromhex('00B20105000000')), (long * 12)[:2048] + b'\x90\x00')
    same('65,535 bytes sent', card.transmit(bytes.fromhex('00E2000800FFF8') + bytes(0xFFF8)), b'\x67\x00')
    card.close()
    print('extended: 2,050 bytes received, 65,535 bytes sent')


def big_card():
    """Three files with room for long replies."""
    return b''.join((4000).to_bytes(4, 'little') + kind.to_bytes(2, 'little') + bytes(4000) for kind in worked.KINDS)


def connected(daemon):
    """A connection to the daemon, once it has the reader."""
    def context_of_it():
        if daemon.process.poll() is not None:
            raise Wrong(f'pcscd ended at once (is this root?); it said: {daemon.said()}')
        return pcsc.Context()

    try:
        context = pcsc.wait(context_of_it)
        if READER in pcsc.wait(context.readers):
            return context
    except pcsc.Error as error:
        raise Wrong(f'pcscd does not answer ({error}); it said: {daemon.said()}') from error
    raise Wrong(f'pcscd has no reader {READER!r}')


def run(folder, numbers):
    count = Count()
    program = built(folder, numbers)
    with Process(folder / 'pcscd.log', 'pcscd', '--foreground') as daemon, Bench(folder, program, count, connected(daemon)) as bench:
        through_scriptor(bench)
        through_opensc(bench)
        through_pcsc(bench, numbers[1])
        longest(bench)
        daemon.stop()
        count.same('the exit status when the reader goes', bench.process.ended(10), 0)
    print(f'{count.compared} compared, {count.wrong} wrong')
    return 1 if count.wrong else 0


def main():
    words = sys.argv[1:]
    if len(words) > 3 or not all(word.isdecimal() for word in words):
        print(__doc__)
        return 0 if words in (['-h'], ['--help']) else 2
    numbers = [int(word) for word in words] + [1, 5, 200][len(words):]
    lacking = list(missing())
    if lacking:
        print('! missing: ' + ', '.join(lacking), file=sys.stderr)
        print('! Debian: apt install pcscd vsmartcard-vpcd pcsc-tools opensc', file=sys.stderr)
        return 2
    if pcscd_runs():
        print('! a pcscd runs already; stop it first: systemctl stop pcscd.socket pcscd', file=sys.stderr)
        return 2
    # To be told to end is a way out like any other: what was started is stopped.
    signal.signal(signal.SIGTERM, lambda *_: sys.exit(1))
    with tempfile.TemporaryDirectory() as folder:
        try:
            return run(pathlib.Path(folder), numbers)
        except (Wrong, pcsc.Error, TimeoutError, subprocess.TimeoutExpired) as wrong:
            print(f'! {wrong}', file=sys.stderr)
        except KeyboardInterrupt:
            print('! interrupted', file=sys.stderr)
        return 1


if __name__ == '__main__':
    sys.exit(main())
