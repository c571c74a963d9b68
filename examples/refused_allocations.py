#!/usr/bin/env python3
"""Refuses allocations of a run in turn, and says whether what was written is then a front of the answers.

    examples/refused_allocations.py --program PATH [WORD [SCRIPT]]

runs the program that stands at PATH, crates/n32_replay/out/n32_replay say, once for each allocation that the run makes, and refuses that
one by a `malloc` and `realloc` of its own, which is compiled with `cc` and preloaded.

    examples/refused_allocations.py [WORD [FIRST LAST [STEP]]]

needs the toolchain and no built program. `rt try --fail-alloc` refuses one allocation of a program, by its number, and builds for each
number anew. So it is given one number here and many cases (--cases): in case k crates/failing_runs makes NUMBER - k allocations before
it plays. The cases are those from FIRST to LAST (0 and 1400), each STEP-th (1), and one in which none is refused. A case takes half a
second and more, as each is interpreted too.

WORD is `replay` (the default), which plays the first script of crates/failing_runs, or `blocks`, for the first line of
crates/n32_replay. Prints a line for each case that is wrong, and then ends with 1."""
import os
import re
import subprocess
import sys
import tempfile

TOP = os.path.dirname(os.path.dirname(os.path.abspath(__file__)))
CRATE = os.path.join(TOP, "crates", "failing_runs")
NUMBER = 20000
NO_MEMORY = 9


def default_script(word):
    if word == "blocks":
        with open(os.path.join(TOP, "crates", "n32_replay", "stdin"), "rb") as file:
            return file.readline()
    with open(os.path.join(CRATE, "stdin"), "rb") as file:
        return file.read().split(b"\n\n")[0] + b"\n"


def outcomes(word, script, cases):
    """For each case how it ended, its status, and what it wrote."""
    with tempfile.TemporaryDirectory() as folder:
        for k in cases:
            with open(os.path.join(folder, f"{k:05d}"), "wb") as file:
                file.write(script)
            with open(os.path.join(folder, f"{k:05d}.args"), "w") as file:
                file.write(f"{NUMBER - k}\n")
        words = ["rt", "try", "--steps", "1", "--fail-alloc", str(NUMBER), "--cases", folder, "--", word]
        told = subprocess.run(words, cwd=CRATE, stdout=subprocess.PIPE, stderr=subprocess.STDOUT).stdout.decode()
    found = {}
    for part in re.split(r"^== ", told, flags=re.M)[1:]:
        name, text = part.split("\n", 1)
        end = re.search(r"^(?:allocations: .*\n)?(?:checked: .*\n)?case=\d+ run=(\S+)(?: status=(\d+))?", text, flags=re.M)
        found[int(name)] = (end[1], int(end[2] or -1), text[: end.start()])
    if len(found) != len(cases):
        sys.exit(f"{len(cases) - len(found)} cases have no answer:\n" + told[-2000:])
    return found


# Counts allocations, refuses the one with the number REFUSED, and writes their count to the file COUNTED.
PRELOADED = """
#define _GNU_SOURCE
#include <dlfcn.h>
#include <stdio.h>
#include <stdlib.h>
static unsigned long count;
static int is_refused(void) {
    static unsigned long refused;
    if (count == 0 && getenv("REFUSED")) refused = strtoul(getenv("REFUSED"), NULL, 10);
    return ++count == refused;
}
void *malloc(size_t size) {
    static void *(*next)(size_t);
    if (!next) next = dlsym(RTLD_NEXT, "malloc");
    return is_refused() ? NULL : next(size);
}
void *realloc(void *old, size_t size) {
    static void *(*next)(void *, size_t);
    if (!next) next = dlsym(RTLD_NEXT, "realloc");
    return is_refused() ? NULL : next(old, size);
}
__attribute__((destructor)) static void tell(void) {
    unsigned long counted = count;
    FILE *file = getenv("COUNTED") ? fopen(getenv("COUNTED"), "w") : NULL;
    if (file) { fprintf(file, "%lu", counted); fclose(file); }
}
"""


def program_outcomes(program, word, script):
    """How the run without a refusal went, and for each allocation how it went without that one: the status and what was written."""
    with tempfile.TemporaryDirectory() as folder:
        source, library, counted = [os.path.join(folder, name) for name in ["refusing.c", "refusing.so", "counted"]]
        with open(source, "w") as file:
            file.write(PRELOADED)
        subprocess.run(["cc", "-O1", "-shared", "-fPIC", "-o", library, source, "-ldl"], check=True)

        def played(**more):
            run = subprocess.run([program, word], input=script, capture_output=True, env={"LD_PRELOAD": library, **more})
            return run.returncode, run.stdout

        whole = played(COUNTED=counted)
        with open(counted) as file:
            count = int(file.read())
        return whole, {k: played(REFUSED=str(k)) for k in range(1, count + 1)}


def try_program(program, word, script):
    (status, whole), found = program_outcomes(program, word, script)
    if status != 0:
        sys.exit(f"without a refusal: status {status}")
    refused = [k for k, (status, text) in found.items() if status == NO_MEMORY and whole.startswith(text)]
    complete = [k for k, outcome in found.items() if outcome == (0, whole)]
    for k in sorted(set(found) - set(refused) - set(complete)):
        print(f"allocation {k}: status {found[k][0]}, {len(found[k][1])} bytes that are {'a' if whole.startswith(found[k][1]) else 'no'} front")
    wrong = len(found) - len(refused) - len(complete)
    fronts = len({found[k][1] for k in refused})
    print(f"{len(found)} allocations: {len(refused)} refused ended with status {NO_MEMORY}, after {fronts} fronts of {len(whole.splitlines())} answers")
    print(f"{len(complete)} ended with all answers, {wrong} were wrong")
    return 1 if wrong else 0


def main():
    if sys.argv[1:2] == ["--program"]:
        word = sys.argv[3] if len(sys.argv) > 3 else "replay"
        if len(sys.argv) > 4:
            with open(sys.argv[4], "rb") as file:
                return try_program(sys.argv[2], word, file.read())
        return try_program(sys.argv[2], word, default_script(word))
    word = sys.argv[1] if len(sys.argv) > 1 else "replay"
    first, last, step = ([int(number) for number in sys.argv[2:]] + [0, 1400, 1][len(sys.argv[2:]) :])[:3]
    found = outcomes(word, default_script(word), [*range(first, last + 1, step), NUMBER])
    ended, status, whole = found.pop(NUMBER)
    if (ended, status) != ("ended", 0):
        sys.exit(f"the case without a refusal: {ended}, status {status}")
    wrong = 0
    for k, (ended, status, text) in sorted(found.items()):
        front = whole.startswith(text) if status == NO_MEMORY else status == 0 and text == whole
        if ended != "ended" or not front:
            wrong += 1
            print(f"case {k}: {ended}, status {status}, {len(text)} bytes that are {'a' if whole.startswith(text) else 'no'} front")
    refused = [k for k in found if found[k][1] == NO_MEMORY]
    fronts = len({found[k][2] for k in refused})
    print(f"{len(found)} cases: {len(refused)} ended with status {NO_MEMORY}, those from {min(refused, default=None)} to {max(refused, default=None)}, after {fronts} fronts of {len(whole.splitlines())} answers")
    print(f"{len(found) - len(refused) - wrong} ended with all answers, {wrong} were wrong")
    return 1 if wrong else 0


if __name__ == "__main__":
    sys.exit(main())
