"""What the test scripts share: steps that say when they begin, show what their command prints as it comes, and say at their end how long
they took; and the count of what passed and failed. What counts as passed is what was compared, by the number that the command printed,
and not what it was asked for.
"""
import os
import re
import subprocess
import sys
import time

ROOT = os.path.join(os.path.dirname(os.path.abspath(__file__)), "..")
RUST = os.path.join(ROOT, "rust")
ARCHIVE = os.path.join(ROOT, "target", "lib", "libzunidelo.a")

passed = failed = 0


def say(line):
    # in one piece, so that lines of two threads do not mix
    print(line + "\n", end="", flush=True)


def fail(what):
    global failed
    failed += 1
    say(f"FAILED: {what}")


def count(good, what):
    """One comparison, which passed, or failed and is named."""
    global passed
    if good:
        passed += 1
    else:
        fail(what)


def all_shown(line):
    return True


def run(name, command, folder=ROOT, shown=all_shown):
    """Runs one step: answers whether its status is 0, and all its lines. Those that are not shown as they come are shown if it fails."""
    say(f"{name} ..")
    began = time.monotonic()
    lines = []
    try:
        process = subprocess.Popen(command, cwd=folder, stdout=subprocess.PIPE, stderr=subprocess.STDOUT, text=True, errors="replace")
    except OSError as error:
        say(f"{name}: {error}")
        return False, lines
    for line in process.stdout:
        lines.append(line.rstrip("\n"))
        if shown(line):
            say("    " + lines[-1])
    good = process.wait() == 0
    for line in lines:
        if not good and not shown(line):
            say("    " + line)
    say(f"{name}: {'ended' if good else f'status {process.returncode}'}, {time.monotonic() - began:.1f} s")
    return good, lines


def step(name, command, folder=ROOT):
    """A step that has nothing to count: answers whether it ended well."""
    good, _ = run(name, command, folder)
    if not good:
        fail(name)
    return good


def counted(name, least, command, shown=all_shown):
    """A step whose last line begins with how many it compared: each counts as passed, and there must be at least so many."""
    global passed
    good, lines = run(name, command, RUST, shown)
    number = re.match(r"[0-9]+\b", lines[-1] if lines else "")
    compared = int(number.group()) if number else 0
    if not good:
        fail(name)
    elif compared < max(least, 1):
        fail(f"{name}: {compared} compared, which are fewer than {max(least, 1)}")
    else:
        passed += compared


def cargo_tests(name, command):
    """The tests of cargo, which prints 'test result: ok. N passed; M failed; ..' for each binary. None at all is a failure."""
    global passed, failed
    good, lines = run(name, command, RUST, lambda line: re.match(r" *(Compiling|Running|Doc-tests|error|test result|test .*FAILED)", line))
    results = [re.match(r"test result: \w+\. (\d+) passed; (\d+) failed;", line) for line in lines]
    numbers = [(int(result.group(1)), int(result.group(2))) for result in results if result]
    passed += sum(number for number, _ in numbers)
    failed += sum(number for _, number in numbers)
    if not good or not any(number for number, _ in numbers):
        fail(name)


def archive():
    """Has the archive that C and Rust link, made again where a source is newer: answers whether it stands."""
    sources = [os.path.join(ROOT, "crates.txt")]
    for folder, folders, files in os.walk(os.path.join(ROOT, "crates")):
        # (what rt makes of a crate holds copies of its files)
        folders[:] = [name for name in folders if name != "out"]
        sources += [os.path.join(folder, file) for file in files if file.endswith(".rt")]
    if os.path.exists(ARCHIVE) and max(map(os.path.getmtime, sources)) <= os.path.getmtime(ARCHIVE):
        return True
    return step("tests/library", ["tests/library"])


def programs(*names):
    """Has these programs, each proved and linked where it is missing or a source is newer: answers whether they stand."""
    return step("tests/build " + " ".join(names), ["tests/build", *names])


def numbers_asked(name):
    """What the environment asks for under this name."""
    words = os.environ.get(name, "").split()
    if not all(word.isdigit() for word in words):
        sys.exit(f"{name} takes numbers, and not {' '.join(words)}")
    return [int(word) for word in words]


def tell_smaller(name, asked, usual):
    say(f"A SMALLER RUN THAN THE USUAL ONE: {name} is {asked}, usually {usual}")


def asked(name, usual):
    """The number that the environment asks for under this name, or the usual one; a smaller one is told."""
    number = (numbers_asked(name) or [usual])[0]
    if number < usual:
        tell_smaller(name, number, usual)
    return number


def seeds_asked(usual):
    """The seeds that the environment asks for, or the usual ones; fewer are told."""
    seeds = numbers_asked("SEEDS") or usual
    if len(seeds) < len(usual):
        tell_smaller("SEEDS", seeds, usual)
    return seeds


def finish():
    """The last line, and the status: 0 only if something passed and nothing failed."""
    say(f"{passed} passed, {failed} failed")
    sys.exit(0 if passed and not failed else 1)
