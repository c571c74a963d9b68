#!/usr/bin/env python3
"""What check_documents.py puts in the place of the program n32_replay while no proved one is at hand.

It answers as `rt try` did for the same words and input, which the folder $ASKED has. What is missing there is asked for: the script is
put into a folder `cases` of its words, and nothing is printed. A run over a journal is done at once, and kept with what it left there."""
import hashlib
import os
import subprocess
import sys

TOP = os.environ["TOP"]
ASKED = os.environ["ASKED"]


def read(path):
    if not os.path.exists(path):
        return b""
    with open(path, "rb") as file:
        return file.read()


def write(path, data):
    os.makedirs(os.path.dirname(path), exist_ok=True)
    with open(path, "wb") as file:
        file.write(data)


def answer(path):
    """Prints what is kept, a line with the status before the text, and gives the status."""
    status, text = read(path).split(b"\n", 1)
    sys.stdout.buffer.write(text)
    return int(status)


def from_memory(words, script):
    folder = os.path.join(ASKED, ",".join(words))
    name = hashlib.sha256(script).hexdigest()
    kept = os.path.join(folder, "answers", name)
    if os.path.exists(kept):
        return answer(kept)
    write(os.path.join(folder, "cases", name), script)
    return 0


def over_journal(words, script):
    journal = os.path.abspath(words[1])
    kept = os.path.join(ASKED, "journals", hashlib.sha256(script + b"\0" + read(journal)).hexdigest())
    if not os.path.exists(kept):
        crate = os.path.join(TOP, "crates", "n32_replay")
        done = subprocess.run(["rt", "try", "--", words[0], journal], cwd=crate, input=script, stdout=subprocess.PIPE, stderr=subprocess.PIPE)
        write(kept + ".left", read(journal))
        told = [line for line in done.stderr.splitlines(keepends=True) if not line.startswith((b"checked: ", b"run="))]
        write(kept, str(done.returncode).encode() + b"\n" + done.stdout + b"".join(told))
    write(journal, read(kept + ".left"))
    return answer(kept)


def main():
    words, script = sys.argv[1:], sys.stdin.buffer.read()
    sys.exit(over_journal(words, script) if len(words) == 2 and words[0] == "replay" else from_memory(words, script))


if __name__ == "__main__":
    main()
