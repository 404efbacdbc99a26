#!/usr/bin/env python3
"""Tries the wrong statements of tests/statements/: each is put into a copy of crate promises, and the prover must refuse the copy. They are
tried here and not by the gate, because each costs some seconds; the gate tries one or more of each promise (crates/promises/must-fail/).

    scripts/statements.py [NAME ..]     all of them, or those that are named

Prints where each is refused. The copy begins with what `rt check` kept of these crates on this machine; run it in crates/promises before. One that
the prover cannot read, or on which it does not end, shows nothing, and counts as not refused."""
import os
import pathlib
import re
import shutil
import signal
import subprocess
import sys
import tempfile

ROOT = pathlib.Path(__file__).resolve().parent.parent
EDITS = ROOT / 'tests' / 'statements'
SECONDS = 180         # the prover's time for one edit


def edited(text, edit):
    """The text with the edit in it: its old text stands there once, or once in the record that the edit names."""
    start = text.index(f'pub record {edit["record"]} ') if 'record' in edit else 0
    end = re.compile(r'\n(?=\S)').search(text, start) if start else None
    end = end.start() if end else len(text)
    if text[start:end].count(edit['old']) != 1:
        raise ValueError('its old text does not stand there once')
    return text[:start] + text[start:end].replace(edit['old'], edit['new']) + text[end:]


def checked(copy, seconds=None):
    """Whether the prover accepts the copy, and what it says. None where it has not ended after so many seconds."""
    run = subprocess.Popen(['rt', 'check'], cwd=copy / 'crates' / 'promises', stdout=subprocess.PIPE, stderr=subprocess.STDOUT, text=True,
                           start_new_session=True)
    try:
        said, _ = run.communicate(timeout=seconds)
    except subprocess.TimeoutExpired:
        os.killpg(run.pid, signal.SIGKILL)     # with all that it started
        run.communicate()
        return None, ''
    return run.returncode == 0, said


def refused(copy, path):
    """Whether the prover refuses the copy with this edit, and where; or why it could not be tried."""
    edit = dict(line.split(': ', 1) for line in path.read_text(encoding='utf-8').splitlines() if not line.startswith('#'))
    target = copy / 'crates' / 'promises' / edit['file']
    text = target.read_text(encoding='utf-8')
    try:
        target.write_text(edited(text, edit), encoding='utf-8')
    except ValueError as problem:
        return False, str(problem)
    good, said = checked(copy, SECONDS)
    target.write_text(text, encoding='utf-8')
    if good is None:
        return False, f'no answer in {SECONDS} seconds'
    errors = [line for line in said.splitlines() if ': error: ' in line]
    if good or not errors:
        return False, 'not refused'
    place, message = errors[0].split(': error: ', 1)
    where = f'{place.rsplit("/", 1)[-1]}, {message.split(":", 1)[0]}'
    unread = [line for line in errors if '/proofs/' not in line.split(': error: ', 1)[0]]
    return (False, f'cannot be read: {unread[0]}') if unread else (True, where)


def main():
    wanted = sys.argv[1:]
    edits = [path for path in sorted(EDITS.glob('*.edit')) if not wanted or path.stem in wanted]
    wrong = 0
    with tempfile.TemporaryDirectory() as folder:
        copy = pathlib.Path(folder) / 'copy'
        shutil.copytree(ROOT / 'crates', copy / 'crates', ignore=shutil.ignore_patterns('out'))
        shutil.copy(ROOT / 'crates.txt', copy)
        good, said = checked(copy)
        if not good:
            print(said + 'crate promises is not proved as it stands, so no edit of it shows anything')
            return 1
        for path in edits:
            good, text = refused(copy, path)
            wrong += not good
            print(f'{path.stem}: {text}', flush=True)
    print(f'{len(edits) - wrong} refused, {wrong} not')
    return 1 if wrong else 0


if __name__ == '__main__':
    sys.exit(main())
