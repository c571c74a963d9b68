#!/usr/bin/env python3
"""Says whether each example of README.md and docs/ still holds. Needs jq, and the Rattle toolchain or the proved program:

    examples/check_documents.py [PROGRAM]

PROGRAM is the proved program, as crates/n32_replay/out/n32_replay. Without it stand_in.py has `rt try` play the scripts, unproved, which
takes some minutes. What is looked at, by the kind of a block of a page:

    json     each line is, as a document, a line of a stored run or of examples/, a part of one, or a text in one
    console  each `$ COMMAND` is run in a copy of examples/, page by page, and prints the lines that follow it
    rust     the program of docs/USING.md: it is put into a copy of the repository, as told there, and prints the block `text` behind it
    sh       builds or proves, and is not run

Files that a page names are there, each event and each refusal of the program has a row, and README.md has the text of each status.
Prints a line for each kind, or for each example that fails, and then ends with 1."""
import glob
import os
import re
import shutil
import subprocess
import sys
import tempfile

sys.dont_write_bytecode = True
import check_formats  # noqa: E402

TOP = check_formats.TOP
PAGES = ["README.md"] + sorted(os.path.relpath(page, TOP) for page in glob.glob(os.path.join(TOP, "docs", "*.md")))

failures = 0


def fail(text):
    global failures
    failures += 1
    print(text, flush=True)


def read(name):
    with open(os.path.join(TOP, name), encoding="utf-8") as page:
        return page.read()


def blocks(page):
    """Each block of a page: its kind, the number of its first line, and its lines."""
    kind, first, lines = None, 0, []
    for number, line in enumerate(read(page).splitlines(), 1):
        if kind is None and line.startswith("```"):
            kind, first, lines = line[3:].strip(), number + 1, []
        elif kind is not None and line.startswith("```"):
            yield kind, first, lines
            kind = None
        elif kind is not None:
            lines.append(line)


def of_kind(wanted):
    for page in PAGES:
        for kind, first, lines in blocks(page):
            if kind == wanted:
                yield page, first, lines


# ---- documents


def check_json():
    lines = [(page, first + k, line) for page, first, lines in of_kind("json") for k, line in enumerate(lines)]
    for page, number in check_formats.missing(lines):
        fail(f"{page}:{number}: in no stored run")
    print(f"json: {len(lines)} documents", flush=True)


# ---- commands


def commands(lines):
    """Each command of a block, with the lines that it is to print."""
    found = []
    for line in lines:
        if line.startswith("$ "):
            found.append((line[2:], []))
        else:
            found[-1][1].append(line)
    return found


def run_commands(folder, programs):
    """Runs every command, in order, in a new copy of examples/, and gives those that print something else."""
    shutil.rmtree(os.path.join(folder, "examples"), ignore_errors=True)
    shutil.copytree(os.path.join(TOP, "examples"), os.path.join(folder, "examples"))
    path = programs + os.pathsep + os.environ["PATH"]
    how = dict(os.environ, PATH=path, TOP=TOP, ASKED=os.path.join(folder, "asked"), LC_ALL="C")
    wrong = []
    for page, first, lines in of_kind("console"):
        for command, wanted in commands(lines):
            done = subprocess.run(["bash", "-c", command], cwd=os.path.join(folder, "examples"), env=how, stdin=subprocess.DEVNULL, stdout=subprocess.PIPE, stderr=subprocess.STDOUT)
            printed = done.stdout.decode().splitlines()
            if printed != wanted:
                wrong.append((page, first, command, printed))
    return wrong


def play(folder):
    """Has `rt try` play the scripts that were asked for, and says whether there were any."""
    played = False
    for asked in glob.glob(os.path.join(folder, "asked", "*", "cases")):
        words = [word for word in os.path.basename(os.path.dirname(asked)).split(",") if word]
        crate = os.path.join(TOP, "crates", "n32_replay")
        done = subprocess.run(["rt", "try", "--cases", asked, "--", *words], cwd=crate, capture_output=True, text=True)
        keep_answers(os.path.join(os.path.dirname(asked), "answers"), done.stdout, done.stderr)
        shutil.rmtree(asked)
        played = True
    return played


def keep_answers(folder, out, err):
    """Keeps what `rt try --cases` printed: `== NAME` and a case's output; its text on standard error, and its status behind that."""
    os.makedirs(folder, exist_ok=True)
    texts = dict(re.findall(r"^== (\w+)\n((?:(?!== ).*\n)*)", out, re.M))
    for told, name, status in re.findall(r"((?:(?!case=).*\n)*)case=(\w+) run=ended status=(\d+).*\n", err):
        with open(os.path.join(folder, name), "w", encoding="utf-8") as file:
            file.write(status + "\n" + texts.get(name, "") + told)


def check_console(program):
    count = sum(len(commands(lines)) for _, _, lines in of_kind("console"))
    with tempfile.TemporaryDirectory() as folder:
        programs = os.path.join(folder, "programs")
        os.mkdir(programs)
        if program:
            os.symlink(os.path.abspath(program), os.path.join(programs, "n32_replay"))
        else:
            shutil.copy(os.path.join(TOP, "examples", "stand_in.py"), os.path.join(programs, "n32_replay"))
        wrong = run_commands(folder, programs)
        while not program and play(folder):
            wrong = run_commands(folder, programs)
    for page, first, command, printed in wrong:
        fail(f"{page}:{first}: {command}\nprinted:\n" + "\n".join(printed))
    print(f"console: {count} commands, " + ("by the proved program" if program else "unproved"), flush=True)


# ---- the program of docs/USING.md


def check_program():
    page = "docs/USING.md"
    found = list(blocks(page))
    source = [lines for kind, _, lines in found if kind == "rust"][0]
    line = [lines for kind, _, lines in found if kind == "crates"][0]
    wanted = [lines for kind, _, lines in found if kind == "text"][0]
    name = line[0].split(":")[0]
    with tempfile.TemporaryDirectory() as folder:
        shutil.copytree(os.path.join(TOP, "crates"), os.path.join(folder, "crates"), ignore=shutil.ignore_patterns("out", "proofs.out"))
        with open(os.path.join(folder, "crates.txt"), "w", encoding="utf-8") as file:
            file.write(read("crates.txt") + "\n".join(line) + "\n")
        crate = os.path.join(folder, "crates", name)
        os.makedirs(os.path.join(crate, "src"))
        with open(os.path.join(crate, "src", "main.rt"), "w", encoding="utf-8") as file:
            file.write("\n".join(source) + "\n")
        done = subprocess.run(["rt", "try"], cwd=crate, input=read("examples/first.jsonl"), capture_output=True, text=True)
    if done.returncode != 0 or done.stdout.splitlines() != wanted:
        fail(f"{page}: the program ends with {done.returncode}\n{done.stdout}{done.stderr}")
    print("rust: 1 program, unproved", flush=True)


# ---- names


def check_files():
    count = 0
    for page in PAGES:
        text = read(page)
        links = [os.path.join(os.path.dirname(page), link) for link in re.findall(r"\]\(([^)#:]+)\)", text)]
        paths = re.findall(r"`((?:crates|docs|examples)/[\w./-]+)`", text)
        for path in links + [path for path in paths if "NAME" not in path and "/out/" not in path]:
            count += 1
            if not os.path.exists(os.path.join(TOP, path)):
                fail(f"{page}: there is no {path}")
    print(f"files: {count} names", flush=True)


def pairs(source):
    """The number and the name of each refusal of a source file."""
    variant = r"(\w+::\w+)(?:\([^)]*\)| \{[^}]*\})?"
    numbers = dict(re.findall(variant + r" => (\d+),", source))
    names = dict(re.findall(variant + r' => "([A-Z_0-9]+)",', source))
    return {(numbers[variant], name) for variant, name in names.items() if variant in numbers}


def check_rows():
    rows = set(re.findall(r"^\| (\d+) \| `([A-Z_0-9]+)`", read("docs/REFUSALS.md"), re.M))
    refusals = set()
    sources = ["entry_checks/src/refused.rt", "receiving_sepp/src/refused.rt", "sending_sepp/src/fault.rt"]
    for name in sources + ["n32c_handshake/src/refusal.rt", "script_lines/src/refusal.rt"]:
        refusals |= pairs(read(os.path.join("crates", name)))
    for number, name in sorted(refusals ^ rows):
        fail(f"docs/REFUSALS.md: {number} {name} is a row or a refusal, and not both")
    events = re.findall(r'name == "(\w+)"', read("crates/script_lines/src/event_kind.rt"))
    listed = re.findall(r"^\| `(\w+)` \|.*\|.*\|$", read("README.md").split("### The events of `replay`")[1].split("###")[0], re.M)
    for event in sorted(set(events) ^ set(listed) - {"do"}):
        fail(f"README.md: {event} is a row or an event, and not both")
    texts = re.findall(r'f(?:\.write_str\(|, )"([^"]+)"', read("crates/replay_runs/src/status.rt"))
    for text in texts:
        if not re.search(re.escape(text).replace(r"\{number\}", r"\w").replace(r"\|", r"\\?\|"), read("README.md")):
            fail(f"README.md: the text {text} is missing")
    print(f"rows: {len(refusals)} refusals, {len(events)} events, {len(texts)} texts", flush=True)


def main():
    check_json()
    check_files()
    check_rows()
    check_console(sys.argv[1] if len(sys.argv) > 1 else None)
    check_program()
    sys.exit(1 if failures else 0)


if __name__ == "__main__":
    main()
