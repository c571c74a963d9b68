#!/usr/bin/env python3
"""Tries what the system may do to the program's reader, writer and journal. Run it by hand, in any folder:

    examples/outside.py [PROGRAM]

PROGRAM is the proved program, by default crates/n32_replay/out/n32_replay of this repository. It works in a new folder, prints a line
for each case, and ends with 1 where one FAILED."""

import json
import os
import random
import resource
import signal
import stat
import subprocess
import sys
import tempfile
import time

HERE = os.path.dirname(os.path.abspath(__file__))
PROGRAM = os.path.abspath(sys.argv[1] if len(sys.argv) > 1 else os.path.join(HERE, "../crates/n32_replay/out/n32_replay"))
SCRIPT = open(os.path.join(HERE, "replay.jsonl"), "rb").read()
ANSWERS = open(os.path.join(HERE, "replay.answers"), "rb").read()
OPENING = b"".join(SCRIPT.splitlines(keepends=True)[:6])
SEND = SCRIPT.splitlines(keepends=True)[6]
LIMIT = 1_114_112

# An event that puts a record whatever the journal holds.
OTHER = json.loads(SCRIPT.splitlines()[2])
OTHER["id"] = "00000000000000c1"
PUT = SCRIPT.splitlines(keepends=True)[0] + json.dumps(OTHER).encode() + b"\n"

failures = 0


def case(name, *facts):
    global failures
    if all(facts):
        print("ok     ", name, flush=True)
    else:
        failures += 1
        print("FAILED ", name, [str(fact) for fact in facts], flush=True)


def run(script, *words, stdin=None, stdout=subprocess.PIPE, before=None):
    """The exit status, what was written to standard output and to standard error, and the most memory in bytes."""
    with tempfile.TemporaryFile() as text:
        text.write(script)
        text.seek(0)
        child = subprocess.Popen([PROGRAM, *words], stdin=text if stdin is None else stdin, stdout=stdout, stderr=subprocess.PIPE, preexec_fn=before)
        out = child.stdout.read() if child.stdout else b""
        err = child.stderr.read()
        _, status, usage = os.wait4(child.pid, 0)
        child.returncode = os.waitstatus_to_exitcode(status)
    return child.returncode, out, err, usage.ru_maxrss * 1024


def replay(script, journal, **how):
    return run(script, "replay", journal, **how)


def put(path, data):
    with open(path, "wb") as file:
        file.write(data)


def held(path):
    with open(path, "rb") as file:
        return file.read()


def refuses(name, path, wanted, text):
    """The journal is refused with this status and stays as it was, and nothing is read or written."""
    before = held(path) if os.path.getsize(path) < 1 << 20 else os.stat(path).st_mtime_ns
    with open("script", "wb+") as script:
        script.write(SCRIPT)
        script.flush()
        script.seek(0)
        status, out, err, memory = replay(b"", path, stdin=script)
        read = os.lseek(script.fileno(), 0, os.SEEK_CUR)
    after = held(path) if os.path.getsize(path) < 1 << 20 else os.stat(path).st_mtime_ns
    case(name, status == wanted, out == b"", err == text, read == 0, before == after)
    return memory


def journals_that_are_none():
    put("j", SCRIPT.splitlines()[0])
    refuses("a script of one line without a newline stays as it was: 8", "j", 8, b"n32_replay: keeper fault\n")
    put("j", b"x")
    refuses("a byte stays as it was: 8", "j", 8, b"n32_replay: keeper fault\n")
    put("j", b"some text\nof two lines")
    refuses("a text whose last line has no newline stays as it was: 7", "j", 7, b"n32_replay: bad record 0\n")
    put("j", SCRIPT[:-1])
    refuses("a script whose last line has no newline stays as it was: 7", "j", 7, b"n32_replay: bad record 0\n")
    put("j", b"\n")
    refuses("an empty line is no record: 7", "j", 7, b"n32_replay: bad record 0\n")
    os.remove("j")


def texts_that_are_too_long():
    block = b"x" * 1_000_000
    for end, name in ((b"\n", "200 MB of one line: 7 in less than 100 MB"), (b"", "200 MB without a newline: 7 in less than 100 MB")):
        with open("j", "wb") as file:
            for _ in range(200):
                file.write(block)
            file.write(end)
        memory = refuses(name, "j", 7, b"n32_replay: bad record 0\n")
        case("  and took %.1f MB" % (memory / 1e6), memory < 100_000_000)
    with open("j", "wb") as file:
        file.truncate(1 << 40)
    refuses("a terabyte of zeros: 7", "j", 7, b"n32_replay: bad record 0\n")
    put("j", b"")
    replay(OPENING, "j")
    whole = held("j")
    put("j", whole + b'{"id":"' + b"0" * (LIMIT - 7) + b"\n" + whole)
    refuses("a text of as many bytes as a record may have is read: 7", "j", 7, b"n32_replay: bad record 4\n")
    put("j", whole + b'{"id":"' + b"0" * (LIMIT - 6))
    refuses("an unfinished text that is one longer is told: 7", "j", 7, b"n32_replay: bad record 4\n")
    os.remove("j")


def journals_that_were_cut():
    replay(SCRIPT, "whole")
    whole = held("whole")
    good = True
    for cut in range(len(whole) + 1):
        front = whole[:cut]
        lines = front[: front.rfind(b"\n") + 1]
        put("j", front)
        status, _, _, _ = replay(b"", "j")
        good = good and status == 0 and held("j") == front
        status, out, _, _ = replay(PUT, "j")
        after = held("j")
        good = good and status == 0 and out.endswith(b'"ok":"context"}\n')
        good = good and after.startswith(lines) and after[len(lines) :].count(b"\n") == 1 and after.endswith(b"\n")
        if not good:
            print("        cut at", cut)
            break
    case("a journal cut at each of its %d bytes keeps its whole lines, and what was cut until the next put" % len(whole), good)
    put("j", whole)
    status, out, _, _ = replay(OPENING, "j")
    case("a second run finds what the first put", status == 0, out.count(b"CONTEXT_USED") == 2, out.count(b"KEYS_TWICE") == 2, held("j") == whole)
    os.remove("j")


def a_second_run_beside_a_first():
    first = subprocess.Popen([PROGRAM, "replay", "j"], stdin=subprocess.PIPE, stdout=subprocess.PIPE)
    for line in OPENING.splitlines(keepends=True):
        first.stdin.write(line)
        first.stdin.flush()
        first.stdout.readline()
    refuses("a second run beside a first: 8", "j", 8, b"n32_replay: keeper fault\n")
    out, _ = first.communicate(SEND)
    case("  and the first goes on", first.returncode == 0, b'"wire":1' in out)
    status, _, _, _ = replay(b"", "j")
    case("  and the next run finds the journal free", status == 0)
    os.remove("j")


def runs_that_were_killed():
    """Each record whose answer was written is held, and the next run finds it."""
    good, answered, records = True, 0, []
    put("j", b"")
    deliver = b'{"do":"deliver","node":"B","wire":%d}\n'
    put("script", OPENING + b"".join(SEND + deliver % k for k in range(1, 4001)))
    for _ in range(100):
        before = records
        with open("script", "rb") as text, open("answers", "wb") as answers:
            child = subprocess.Popen([PROGRAM, "replay", "j"], stdin=text, stdout=answers)
            wanted = random.randrange(1, 10_000)
            while os.path.getsize("answers") < wanted and child.poll() is None:
                time.sleep(random.random() * 0.001)
            child.send_signal(signal.SIGKILL)
            child.wait()
        lines = held("answers")
        whole = [json.loads(line) for line in lines[: lines.rfind(b"\n") + 1].splitlines()]
        journal = held("j")
        records = [json.loads(line) for line in journal[: journal.rfind(b"\n") + 1].splitlines()]
        puts = [answer for answer in whole if "document" in answer or "delivered" in answer or answer.get("ok") in ("context", "keys")]
        answered += len(puts)
        good = good and records[: len(before)] == before and len(records) >= len(before) + len(puts)
        numbers = [record["message"] for record in records if record["is"] == "sent"]
        good = good and numbers == ["%016x" % k for k in range(len(numbers))]
    status, out, _, _ = replay(SCRIPT.splitlines(keepends=True)[0] + SCRIPT.splitlines(keepends=True)[1] + SEND, "j")
    sent = len([record for record in records if record["is"] == "sent"])
    last = json.loads(out.splitlines()[-1])
    case("a run after one that was killed, a hundred times, finds all that was answered (%d records)" % answered, good, answered > 100, status == 0, last.get("wire") == 1)
    case("  and goes on behind the last number", len([1 for line in held("j").splitlines() if json.loads(line)["is"] == "sent"]) == sent + 1)
    os.remove("j")


def no_plain_file():
    os.mkdir("folder")
    os.mkfifo("pipe")
    for path, name in (("folder", "a folder"), ("pipe", "a pipe"), ("/dev/full", "a device that never ends"), ("/dev/null", "a device that keeps nothing"), ("no/j", "a file in no folder")):
        status, out, err, _ = replay(SCRIPT, path)
        case("%s as a journal: 8" % name, status == 8, out == b"", err == b"n32_replay: keeper fault\n")


def no_right_to_write():
    replay(OPENING, "j")
    os.chmod("j", stat.S_IRUSR | stat.S_IRGRP | stat.S_IROTH)
    whole = held("j")
    as_nobody = (lambda: os.setuid(65534)) if os.getuid() == 0 else None
    status, out, _, _ = replay(SCRIPT, "j", before=as_nobody)
    case("a journal that may not be written: 8", status == 8, out == b"", held("j") == whole)
    os.chmod("j", 0)
    status, out, _, _ = replay(SCRIPT, "j", before=as_nobody)
    case("a journal that may not be read: 8", status == 8, out == b"", held("j") == whole)
    os.remove("j")


def no_more_than(size):
    """As on a full disk: a write past so many bytes of a file is short, and the next one fails."""

    def limit():
        signal.signal(signal.SIGXFSZ, signal.SIG_IGN)
        resource.setrlimit(resource.RLIMIT_FSIZE, (size, size))

    return limit


def a_full_disk():
    replay(OPENING, "j")
    whole = held("j")
    status, out, _, _ = replay(SCRIPT, "j", before=no_more_than(len(whole) + 100))
    case("a put that finds the disk full is answered by KEEPER: 0", status == 0, out.count(b'"name":"KEEPER"') > 0, b'"document"' not in out)
    after = held("j")
    case("  and leaves the whole lines", after.startswith(whole), len(after) <= len(whole) + 100, b"\n" not in after[len(whole) :])
    status, out, _, _ = replay(PUT, "j")
    after = held("j")
    case("  and the next put cuts off what it left", status == 0, after.startswith(whole), after[len(whole) :].count(b"\n") == 1, after.endswith(b"}\n"))
    os.remove("j")


def writers():
    with open("/dev/full", "wb") as full:
        status, _, err, _ = run(SCRIPT, "replay", stdout=full)
    case("a full standard output: 4", status == 4, err == b"n32_replay: write fault\n")
    status, _, err, _ = run(SCRIPT, "replay", stdout=subprocess.DEVNULL, before=lambda: os.close(1))
    case("a closed standard output: 4", status == 4, err == b"n32_replay: write fault\n")
    reader, writer = os.pipe()
    os.close(reader)
    status, _, err, _ = run(SCRIPT, "replay", stdout=writer)
    os.close(writer)
    case("a standard output that nobody reads: 4", status == 4, err == b"n32_replay: write fault\n")
    with open("out", "wb") as out:
        status, _, err, _ = run(SCRIPT, "replay", stdout=out, before=no_more_than(700))
    case("a short write, then none: 4, and a front of the answers", status == 4, held("out") == ANSWERS[:700])
    reader, writer = os.pipe()
    child = subprocess.Popen([PROGRAM, "replay"], stdin=subprocess.PIPE, stdout=writer)
    os.close(writer)
    child.stdin.write(SCRIPT)
    child.stdin.close()
    parts = []
    while part := os.read(reader, 7):
        parts.append(part)
    case("a reader that takes seven bytes at a time: 0", child.wait() == 0, b"".join(parts) == ANSWERS)
    status, out, _, _ = run(SCRIPT, "replay", before=lambda: os.close(2))
    case("a closed standard error changes nothing", status == 0, out == ANSWERS)


def readers():
    folder = os.open(".", os.O_RDONLY)
    status, out, err, _ = run(b"", "replay", stdin=folder)
    os.close(folder)
    case("a folder as standard input: 3", status == 3, out == b"", err == b"n32_replay: read fault\n")
    status, out, err, _ = run(b"", "replay", before=lambda: os.close(0))
    case("a closed standard input: 3", status == 3, out == b"", err == b"n32_replay: read fault\n")
    child = subprocess.Popen([PROGRAM, "replay"], stdin=subprocess.PIPE, stdout=subprocess.PIPE)
    got = b""
    for i in range(0, len(SCRIPT), 97):
        child.stdin.write(SCRIPT[i : i + 97])
        child.stdin.flush()
        child.send_signal(signal.SIGSTOP)
        child.send_signal(signal.SIGCONT)
    got, _ = child.communicate()
    case("a script in pieces, with the program stopped and continued at each: 0", child.returncode == 0, got == ANSWERS)


def main():
    with tempfile.TemporaryDirectory() as folder:
        os.chmod(folder, 0o755)
        os.chdir(folder)
        journals_that_are_none()
        texts_that_are_too_long()
        journals_that_were_cut()
        a_second_run_beside_a_first()
        runs_that_were_killed()
        no_plain_file()
        no_right_to_write()
        a_full_disk()
        writers()
        readers()
        os.chdir("/")
    print("%d FAILED" % failures if failures else "all ok")
    sys.exit(1 if failures else 0)


main()
