#!/usr/bin/env python3
"""Runs the terminal and tests what the gate cannot: the exit status, standard error, what the card's file holds at each moment, what a stop,
a command that is cut or one in links leaves in it, a terminal as standard input, and the script ./malquindo. Only Python's own library is used.

usage: python3 tests/terminal/run.py [--stops N] [--seed N]      (after `rt run -- --help` in crates/program_terminal)
"""
import argparse
import os
import pty
import random
import resource
import select
import signal
import subprocess
import sys
import tempfile
import time

sys.dont_write_bytecode = True      # no files beside the tests
sys.path.insert(0, os.path.dirname(os.path.abspath(__file__)))
import cases
from cases import section, to_try

PROGRAM = os.path.join(cases.ROOT, "crates", "program_terminal", "out", "program_terminal")
SCRIPT = os.path.join(cases.ROOT, "malquindo")
NORMAL = b" 90 00 : Normal processing\n"


def run(folder, stdin, *arguments, **more):
    """Runs the program with its status asked. Answers status, standard output, standard error."""
    done = subprocess.run([PROGRAM, "--status", *arguments], cwd=folder, input=stdin, capture_output=True, timeout=60, **more)
    return done.returncode, done.stdout.decode(), done.stderr.decode()


def write(folder, name, content):
    with open(os.path.join(folder, name), "wb") as f:
        f.write(content)
    return name


def read(folder, name):
    with open(os.path.join(folder, name), "rb") as f:
        return f.read()


# cards, as the rules have them

def record_body(records, room):
    body = len(records).to_bytes(2, "little") + b"".join(len(r).to_bytes(2, "little") + r for r in records)
    return body + bytes(room - len(body))


def biometrics_body(state, content, room):
    return bytes([state]) + len(content).to_bytes(4, "little") + content + bytes(room - len(content))


def card(files):
    return b"".join(section(kind, body) for kind, body in sorted(files.items()))


def bodies(image):
    """The bodies of a card by their kinds."""
    found, at = {}, 0
    while at < len(image):
        length, kind = int.from_bytes(image[at:at + 4], "little"), int.from_bytes(image[at + 4:at + 6], "little")
        found[kind] = image[at + 6:at + 6 + length]
        at += 6 + length
    assert at == len(image), "the last section does not end where the image ends"
    return found


def records(body):
    """The records of a body, which must lie inside it."""
    found, at = [], 2
    for _ in range(int.from_bytes(body[:2], "little")):
        length = int.from_bytes(body[at:at + 2], "little")
        assert 1 <= length and at + 2 + length <= len(body), "a record does not lie inside its file"
        found.append(body[at + 2:at + 2 + length])
        at += 2 + length
    return found


# commands

SELECT = {1: "00A4040C07A0000002472001", 2: "00A4040C07A0000002472002", 3: "00A4040C07A0000002472003"}


def append(short, content):
    return f"00E200{short * 8:02X}{len(content):02X}{content.hex()}"


def update(n, offset, content):
    """UPDATE BINARY of Biometrics n: the id in P1 P2, the offset and the bytes as data objects."""
    length = [len(content)] if len(content) < 128 else [0x81, len(content)]
    inner = bytes([0x54, 2]) + offset.to_bytes(2, "big") + bytes([0x53, *length]) + content
    return f"00D7{0x0200 + n:04X}{len(inner):02X}{inner.hex()}"


# what is tested

def test_gate_cases(folder):
    """The input of the gate, with what goes to standard error, and status 1, since some of its lines cannot be read."""
    c = cases.cases()
    for name, content in cases.FILES.items():
        write(folder, name, content)
    status, stdout, stderr = run(folder, "\n".join(c.stdin).encode(), "try.card")
    assert stdout == "\n".join(c.stdout) + "\n"
    assert stderr == "\n".join(c.stderr) + "\n", stderr
    assert status == 1
    kept = bodies(read(folder, "try.card"))
    assert [r.hex().upper() for r in records(kept[0x0101])] == cases.RECORDS and records(kept[0x0102]) == c.exits
    assert records(kept[0x011A]) == c.certificates and kept[0x0401] == biometrics_body(1, b"\xAA\xBB", 4)
    for name in cases.FILES.keys() - {"try.card"}:
        assert read(folder, name) == cases.FILES[name]          # a copy is only read
    assert len(read(folder, "larger.card")) == 236 and records(bodies(read(folder, "larger.card"))[0x0101]) == records(kept[0x0101])
    assert not os.path.exists(os.path.join(folder, "other.card"))


def test_status(folder):
    """0 where every line was read, 1 where one was not, 2 without a card."""
    with open(os.path.join(cases.ROOT, "demo", "worked.apdu"), "rb") as f:
        demo = f.read()
    assert run(folder, demo)[0] == 0                          # the card to try, which no file keeps
    assert run(folder, b"")[0] == 0
    assert run(folder, b"open 00")[0] == 1                    # refused
    assert run(folder, b"zz\nshow\n")[0] == 1                 # a later good line does not mend it
    assert run(folder, b"00B2FF0C000000")[0] == 0             # a status word is an answer
    usage = subprocess.run([SCRIPT, "--help"], capture_output=True, text=True, check=True).stdout
    assert usage.endswith("\n".join(cases.HELP) + "\n")
    assert run(folder, b"", "--help") == (0, usage, "")
    assert run(folder, b"", "one.card", "two.card")[0] == 2


def test_certificates(folder):
    """A missing certificate is an answer. A card or a copy without travel certificates is refused, and a copy that cannot be read is told."""
    for name, content in cases.FILES.items():
        write(folder, name, content)
    assert run(folder, b"certificate 01", "try.card") == (0, "= certificate 01 is missing: it is not on the card\n", "")
    assert run(folder, b"certificate 02", "desk.card") == (0, "= certificate 02 is on the card: D2 D2\n", "")
    refused = cases.NO_CERTIFICATES + "\n"
    for line in (b"certificate 01", b"certificate 00", b"certificate FF", b"certificate 01 desk.card"):
        assert run(folder, line, "visa.only") == (1, "", refused), line
    assert run(folder, b"certificate 01 visa.only", "desk.card") == (1, "", refused)
    os.mkdir(os.path.join(folder, "folder"))
    assert run(folder, b"certificate 01 folder", "desk.card") == (1, "", "! the card's file cannot be used: folder: Is a directory\n")
    assert all(read(folder, name) == content for name, content in cases.FILES.items())


def test_extensions(folder):
    """Extensions that are refused end with status 1, and the session has no rights; a line that is no line of certificates cannot be read."""
    run_ = cases.run_of([("travel", ["read"])])
    opened = cases.OPENED + "\n= rights: travel=read\n"
    line = f"certificates {run_} {run_} {run_}\n"
    assert run(folder, line.encode()) == (0, opened, "")
    assert run(folder, f"{line}certificates {run_} - 73\nrights".encode()) == (1, opened + "= rights: none\n", cases.MALFORMED + "\n")
    assert run(folder, f"open all\ncertificates {run_ * 2} - -\nrights".encode()) == (1, cases.OPENED + "\n= rights: none\n", cases.TWICE + "\n")
    assert run(folder, b"certificates - -") == (1, "", cases.CANNOT + "certificates - -\n")


def test_stamps(folder):
    """A record that is no stamp, or is not there, is an answer; the card is only read, and no right is asked for."""
    record = cases.stamp_of(cases.SHORT)
    card = section(0x0101, record_body([record, b"\x77"], 60)) + section(0x0102, bytes(2)) + section(0x011A, bytes(2))
    write(folder, "stamps.card", card)
    says = "= record 01 of EntryRecords is a stamp\n" + "".join(line + "\n" for line in cases.fields_of(cases.SHORT))
    assert run(folder, b"open none\nstamp 01", "stamps.card") == (0, cases.OPENED + "\n" + says, "")
    fault = "= record 02 of EntryRecords is no stamp: first fault at offset 0\n  77\n  ^ " + cases.REASONS["tag"] + "\n"
    assert run(folder, b"stamp 02", "stamps.card") == (0, fault, "")
    assert run(folder, b"stamp 03", "stamps.card") == (0, "= record 03 of EntryRecords is missing\n", "")
    write(folder, "visa.only", cases.FILES["visa.only"])
    assert run(folder, b"stamp 01 exit", "visa.only") == (0, "= record 01 of ExitRecords is missing\n", "")
    assert run(folder, b"stamp 01 entry", "stamps.card")[0] == 1
    assert read(folder, "stamps.card") == card


def test_no_card(folder):
    """What cannot be used is named, with the reason. No line is answered, and nothing is written."""
    os.mkdir(os.path.join(folder, "folder"))
    write(folder, "bad.card", to_try()[:-1])
    write(folder, "long.card", bytes(600000))
    write(folder, "locked.card", to_try())
    os.chmod(os.path.join(folder, "locked.card"), 0)
    reasons = {"folder": "Is a directory", "missing.card": "No such file or directory", "locked.card": "Permission denied",
               "bad.card": None, "long.card": None}
    for name, reason in reasons.items():
        more = {}
        if name == "locked.card" and os.geteuid() == 0:       # root has every right
            os.chmod(folder, 0o777)
            more = {"user": 65534}
        said = f"! the card's file cannot be used: {name}: {reason}\n" if reason else \
            f"! the file is no well-formed card image, and nothing is changed: {name}\n"
        assert run(folder, b"show\n" + append(1, b"x").encode(), name, **more) == (2, "", said), name
    assert read(folder, "bad.card") == to_try()[:-1] and read(folder, "long.card") == bytes(600000)
    assert not os.path.exists(os.path.join(folder, "missing.card"))
    directory = os.open(folder, os.O_RDONLY)
    done = subprocess.run([PROGRAM], stdin=directory, capture_output=True, text=True)
    os.close(directory)
    assert (done.stdout, done.stderr) == ("", "! the input cannot be read: standard input: Is a directory\n")


def test_long(folder):
    """Much input, in lines of all lengths: each is answered, and a line that is too long stops nothing."""
    lines = []
    for n in (1, 10, 1000, 65536, 65537, 200000, 3):
        lines += ["#" * n, "session"]
    out = run(folder, "\n".join(lines * 10).encode())
    assert out == (1, "= session: master file, no file\n" * 70, (cases.TOO_LONG + "\n") * 20)


def test_typed(folder):
    """At a terminal a command is not written again."""
    master, slave = pty.openpty()
    with subprocess.Popen([PROGRAM], stdin=slave, stdout=slave, cwd=folder) as p:
        os.close(slave)
        os.write(master, b"00A4040C07A0000002472001\nsession\n")
        seen = b""
        while b"travel" not in seen and select.select([master], [], [], 10)[0]:
            seen += os.read(master, 4096)
        p.kill()
    os.close(master)
    assert b"< 90 00 : Normal processing" in seen and b"> 00 A4" not in seen, seen


def answers(p):
    """The answers of a program that runs, each as it comes."""
    for line in p.stdout:
        if line.startswith(b"<"):
            yield line


def started(folder, *arguments, **more):
    return subprocess.Popen([PROGRAM, *arguments], cwd=folder, stdin=subprocess.PIPE, stdout=subprocess.PIPE, stderr=subprocess.DEVNULL, **more)


def test_kept(folder):
    """When a command is answered, the file holds its change: an append, a write, one that grows w over a byte's end, an activation."""
    files = {kind: bytes(600) for kind in (0x0101, 0x0102, 0x011A, 0x031A)}
    files[0x0405] = biometrics_body(0, b"", 600)
    name = write(folder, "all.card", card(files))
    content, entries = b"", []
    with started(folder, name) as p:
        came = answers(p)

        def sent(line):
            p.stdin.write(line.encode() + b"\n")
            p.stdin.flush()
            assert next(came).endswith(NORMAL), line

        def check(state):
            now = dict(files)
            now[0x0101] = record_body(entries, 600)
            now[0x0405] = biometrics_body(state, content, 600)
            assert read(folder, name) == card(now)

        sent(SELECT[1])
        for record in (b"first", bytes(range(200)), b"third"):
            sent(append(1, record))
            entries.append(record)
            check(0)
        sent(SELECT[3])
        for offset, piece in ((0, b"abc"), (1, b"X"), (3, bytes(range(1, 201))), (203, bytes(range(1, 101))), (303, b"end"), (0, b"Y" * 100)):
            sent(update(5, offset, piece))
            content = content[:offset] + piece + content[offset + len(piece):]
            check(0)
        sent("00A4020C020205")
        sent("00440000")
        check(1)
        p.stdin.close()


def cut_off(folder, image, most, *lines):
    """Runs lines on a card whose file takes no byte past a place. Answers what the run did, and the card."""
    name = write(folder, "cut.card", image)

    def limits():
        signal.signal(signal.SIGXFSZ, signal.SIG_IGN)
        resource.setrlimit(resource.RLIMIT_FSIZE, (most, most))

    return run(folder, "\n".join(lines).encode(), name, preexec_fn=limits), read(folder, name)


def test_cut(folder):
    """Where the record cannot be written, the count is not, and where the bytes cannot, w is not. The command is not answered."""
    said = "! the change is not kept, so the command is not answered: the card's file cannot be written: File too large\n"
    files = {kind: bytes(3000) for kind in (0x0101, 0x0102, 0x011A)}
    files[0x0101] = record_body([bytes(300)] * 4, 3000)
    (status, out, err), after = cut_off(folder, card(files), 1000, SELECT[1], append(1, b"more"), "show")
    assert (status, out.count("<"), err) == (2, 1, said) and "card image" not in out
    assert after == card(files)
    # the file holds 1,210 bytes of the body behind its head of 6: with that much room and a byte, the record is cut, and not counted
    (status, out, err), after = cut_off(folder, card(files), 6 + 1210 + 3, SELECT[1], append(1, b"more"), "show")
    assert (status, err) == (2, said) and records(bodies(after)[0x0101]) == [bytes(300)] * 4
    assert after[:6 + 1210] == card(files)[:6 + 1210] and after[6 + 1210:6 + 1213] == b"\x04\0m"
    files = {0x031A: bytes(40), 0x0401: biometrics_body(0, b"x" * 250, 2000)}
    (status, out, err), after = cut_off(folder, card(files), 52 + 5 + 260, SELECT[3], update(1, 250, b"y" * 100))
    assert (status, err) == (2, said) and bodies(after)[0x0401][:255] == files[0x0401][:255]


def append_stores(image, record):
    """The stores of an append to EntryRecords, the first section, in order: place and byte. The count's low byte is the last."""
    body = bodies(image)[0x0101]
    used = 6 + 2 + sum(2 + len(r) for r in records(body))
    low, high = (len(records(body)) + 1).to_bytes(2, "little")
    return [*enumerate(len(record).to_bytes(2, "little") + record, used), (7, high), (6, low)]


def cut_command(folder, name, select, line, answer):
    """Runs a line that cuts a command, behind those that select. Answers what the file holds when it is answered, and so to the end."""
    with started(folder, name) as p:
        p.stdin.write("\n".join((*select, line, "")).encode())
        p.stdin.flush()
        said = next(said for said in p.stdout if said.startswith(b"="))
        assert said.decode() == answer + "\n", said
        left = read(folder, name)
        p.stdin.close()
    assert read(folder, name) == left
    return left


def test_cut_commands(folder):
    """When a cut is answered, the file holds what it left, no more and no less; the card goes on from there, also in another run."""
    record, later = b"lifted", b"later"
    files = {0x0101: record_body([b"first"], 60), 0x0102: bytes(40), 0x011A: bytes(40), 0x031A: bytes(20), 0x0405: biometrics_body(0, b"abc", 9)}
    stores = append_stores(card(files), record)
    assert len(stores) == len(record) + 4

    for k in (*range(len(stores) + 2), 2**64 - 1):
        name = write(folder, "cut.card", card(files))
        made = f"{min(k, len(stores))} of {len(stores)}"
        left = bytearray(card(files))
        for place, byte in stores[:k]:
            left[place] = byte
        assert cut_command(folder, name, [SELECT[1]], f"cut {k} {append(1, record)}", f"= stores made: {made}") == left, k
        held = [b"first", record] if k >= len(stores) else [b"first"]
        status, out, err = run(folder, "\n".join((SELECT[1], append(1, later), "show")).encode(), name)
        assert (status, err, out.count("Normal processing")) == (0, "", 2)
        after = bodies(read(folder, name))
        assert records(after[0x0101]) == [*held, later], k
        assert after == {**files, 0x0101: after[0x0101]}
    name = write(folder, "cut.card", card(files))
    activated = {**files, 0x0405: biometrics_body(1, b"abc", 9)}
    for line, answer, left in (("cut 0 00440000", "= stores made: 0 of 1", files), ("cut 5 " + update(5, 0, b"X"), cases.NO_STORES, files),
                               ("cut 1 00440000", "= stores made: 1 of 1", activated)):
        assert cut_command(folder, name, [SELECT[3], "00A4020C020205"], line, answer) == card(left)
    # without a file the card to try is cut; a line that cannot be read ends with status 1
    status, out, err = run(folder, f"{SELECT[1]}\ncut 3 {append(1, record)}\ncut 3\n".encode())
    assert (status, out.split("\n")[2], err) == (1, "= stores made: 3 of 10", cases.CANNOT + "cut 3\n")


def test_stops(folder, stops, rng):
    """SIGKILL at random moments amid a thousand appends: what was answered is in the file, and at most the next record more."""
    kinds = {0x0101: (1, 1), 0x0102: (1, 2), 0x011A: (1, 0x1A), 0x0203: (2, 3)}
    plan, lines, application = [], [], 0
    for kind, (owner, short) in kinds.items():
        if owner != application:
            lines.append(SELECT[owner])
            plan.append(None)
            application = owner
        for n in range(250):
            record = rng.randbytes(rng.randint(1, 60))
            lines.append(append(short, record))
            plan.append((kind, record))
    stdin = "\n".join(lines).encode() + b"\n"
    empty = card({kind: bytes(20000) for kind in (*kinds, 0x021A)})
    size, pause = timed(folder, write(folder, "whole.card", empty), stdin)
    write(folder, "input", stdin)
    amid, further = 0, 0
    while amid < stops:
        name = write(folder, "stopped.card", empty)
        with open(os.path.join(folder, "input"), "rb") as f, open(os.path.join(folder, "output"), "wb") as out:
            p = subprocess.Popen([PROGRAM, name], cwd=folder, stdin=f, stdout=out)
            goal = rng.randrange(size)
            while os.fstat(out.fileno()).st_size < goal and p.poll() is None:
                pass
            time.sleep(rng.uniform(0, pause))
            p.send_signal(signal.SIGKILL)
            p.wait()
        output = read(folder, "output")
        assert b"! " not in output
        answered = output.count(NORMAL)
        assert answered == sum(line.startswith(b"<") for line in output.split(b"\n")[:-1]), "a command was not answered 9000"
        found = bodies(read(folder, name))
        assert [(kind, len(body)) for kind, body in found.items()] == [(kind, len(body)) for kind, body in bodies(empty).items()]
        held = {kind: records(body) for kind, body in found.items()}
        assert held in (appended(plan, empty, answered), appended(plan, empty, answered + 1)), f"{answered} answered"
        assert run(folder, b"", name) == (0, "", ""), "the stopped card is not well formed"
        if 0 < answered < len(plan):
            amid += 1
            further += held != appended(plan, empty, answered)
    return f"{amid} stops amid the appends; {further} times the file had the next record, too"


def appended(plan, empty, steps):
    """The records of each file after the first steps of the plan."""
    files = {kind: [] for kind in bodies(empty)}
    for step in plan[:steps]:
        if step:
            files[step[0]].append(step[1])
    return files


def timed(folder, name, stdin):
    """How much a run that is not stopped writes, and how long two of its commands take."""
    began = time.monotonic()
    status, out, err = run(folder, stdin, name)
    assert (status, err) == (0, "") and out.count("Normal processing") == 1002, (status, err)
    return len(out), (time.monotonic() - began) / 500


def test_links(folder):
    """Nothing is stored before the last link. The chain is the session's: it ends with the run, and a last link is then a command of its own."""
    name, first, last = write(folder, "links.card", to_try()), "10E2000802AABB", "00E2000801CC"
    status, out, err = run(folder, "\n".join((SELECT[1], first)).encode(), name)
    assert (status, err) == (0, "") and out.endswith("< 90 00 : Normal processing\n= chain open, bytes so far: 2\n"), (out, err)
    assert read(folder, name) == to_try()
    for lines, expected in (((last,), [b"\xCC"]), ((first, last), [b"\xCC", b"\xAA\xBB\xCC"])):
        assert run(folder, "\n".join((SELECT[1], *lines)).encode(), name)[0] == 0
        assert records(bodies(read(folder, name))[0x0101]) == expected


def test_script(folder):
    """./malquindo hands on arguments, answers and status."""
    write(folder, "script.card", to_try())
    for stdin, arguments, status in (("session\n", ["script.card"], 0), ("zz\n", ["script.card"], 1), ("", ["missing.card"], 2), ("", [folder], 2)):
        done = subprocess.run([SCRIPT, *arguments], cwd=folder, input=stdin, capture_output=True, text=True)
        assert done.returncode == status, done
        assert (done.stdout == "= session: master file, no file\n") == (status == 0), done


def main():
    parser = argparse.ArgumentParser(description=__doc__.split("\n")[0])
    parser.add_argument("--stops", type=int, default=100)
    parser.add_argument("--seed", type=int, default=random.randrange(1 << 32))
    options = parser.parse_args()
    print(f"seed {options.seed}")
    tests = [test_gate_cases, test_status, test_certificates, test_extensions, test_stamps, test_no_card, test_long, test_typed, test_kept, test_cut,
             test_cut_commands, test_links, test_script]
    for test in tests:
        with tempfile.TemporaryDirectory() as folder:
            test(folder)
        print(f"{test.__name__[5:].replace('_', ' ')}: passed")
    with tempfile.TemporaryDirectory() as folder:
        print("stops: passed,", test_stops(folder, options.stops, random.Random(options.seed)))


if __name__ == "__main__":
    main()
