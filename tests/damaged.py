#!/usr/bin/env python3
"""Damages the scripts of the repository, and runs the built program on each of what comes out.

Build it first: (cd crates/tuvshorad && rt run < stdin). Then, at the top of the repository:

    python3 tests/damaged.py [COUNT] [--seed N]        runs COUNT damaged scripts, 2000 where none is given
    python3 tests/damaged.py --write I [--seed N]      writes script I of this seed to standard output

Each run is a process of its own, with 256 MiB of memory and ten seconds. It must end with status 0 and print nothing
but lines of the forms in docs/SCRIPT.md, with numbers that can come there: one for each line of the script that prints,
with its words where it is a line of drawing. At the end it says what was printed how often. The same seed gives the
same scripts. Status 1 if a script failed. 300,000 scripts take about five minutes on four processors.
"""
import argparse
import collections
import multiprocessing
import os
import random
import re
import resource
import subprocess
import sys
import time
from pathlib import Path

TOP = Path(__file__).resolve().parent.parent
PROGRAM = TOP / "crates/tuvshorad/out/tuvshorad"
MEMORY = 256 * 2**20
SECONDS = 10
PROCESSES = 4
LIMIT = 2_000_000_000

NUMBERS = [0, 1, 2, 3, 15, 16, 17, 31, 32, 127, 128, 129, 223, 224, 225, 1000, 1001, 4095, 4096, 4097, 1_000_000,
           1_000_001, LIMIT - 1, LIMIT, LIMIT + 1, 2**31, 2**32 - 1, 2**32, 2**63, 2**64 - 1, 2**64, 10**100]
WORDS = [b"task", b"edge", b"machine", b"switch", b"link", b"routes", b"route", b"bookings", b"answer", b"row", b"starts",
         b"mark", b"place", b"try", b"keep", b"strike", b"back", b"fill", b"show", b"hops", b"slowness", b"written",
         b"hand", b"in", b"timetable", b"roll", b"bits", b"#", b""]


def sources():
    paths = sorted(TOP.glob("examples/*.script")) + sorted(TOP.glob("crates/*/stdin"))
    return [path.read_bytes() for path in paths]


SOURCES = sources()


# Damage to bytes.

def flip_bit(rng, text):
    at = rng.randrange(len(text))
    return text[:at] + bytes([text[at] ^ 1 << rng.randrange(8)]) + text[at + 1:]


def put_bytes(rng, text):
    at = rng.randrange(len(text))
    return text[:at] + rng.randbytes(rng.randrange(1, 9)) + text[at:]


def drop_bytes(rng, text):
    at = rng.randrange(len(text))
    return text[:at] + text[at + rng.randrange(1, 9):]


def cut_off(rng, text):
    return text[:rng.randrange(len(text))]


# Damage to lines.

def drop_line(rng, lines):
    del lines[rng.randrange(len(lines))]


def double_line(rng, lines):
    at = rng.randrange(len(lines))
    lines[at:at] = [lines[at]] * rng.choice([1, 1, 1, 2, 20, 300])


def swap_lines(rng, lines):
    a, b = rng.randrange(len(lines)), rng.randrange(len(lines))
    lines[a], lines[b] = lines[b], lines[a]


def cut_line(rng, lines):
    at = rng.randrange(len(lines))
    lines[at] = lines[at][:rng.randrange(len(lines[at]) + 1)]


def take_line(rng, lines):
    lines.insert(rng.randrange(len(lines) + 1), rng.choice(rng.choice(SOURCES).split(b"\n")))


def leave_little_room(rng, lines):
    lines.insert(0, b"bookings %d" % rng.randrange(12))


def end_early(rng, lines):
    lines.insert(0, b"timetable bits %d" % rng.choice([0, 1, 1, 1, 2, 3, 1024]))


def ask_sheet(rng, lines):
    """Some calls on the sheet, mostly with small numbers, near the end."""
    for _ in range(rng.choice([1, 3, 10])):
        word = rng.choice([b"place", b"place", b"try", b"keep", b"strike", b"back", b"fill", b"show", b"hand in"])
        if word in (b"place", b"try"):
            word += b" %d %d" % (rng.randrange(5), rng.randrange(4))
        lines.insert(rng.randrange(3 * len(lines) // 4, len(lines) + 1), word)


# Damage to words.

def blow_up(rng, words):
    places = [at for at, word in enumerate(words) if word.isdigit()]
    if places:
        at = rng.choice(places)
        words[at] = rng.choice([b"%d" % rng.choice(NUMBERS), words[at] * 2, b"0" * rng.randrange(40) + words[at]])


def change_word(rng, words):
    words[rng.randrange(len(words))] = rng.choice(WORDS)


def add_word(rng, words):
    words.insert(rng.randrange(len(words) + 1), rng.choice([b"%d" % rng.randrange(20), rng.choice(WORDS)]))


def drop_word(rng, words):
    del words[rng.randrange(len(words))]


def mix_words(rng, words):
    rng.shuffle(words)


BYTE_DAMAGE = [flip_bit, put_bytes, drop_bytes, cut_off]
LINE_DAMAGE = [drop_line, double_line, swap_lines, cut_line, take_line, leave_little_room, end_early, ask_sheet, ask_sheet]
WORD_DAMAGE = [blow_up, blow_up, blow_up, change_word, add_word, drop_word, mix_words]


def damage_lines(rng, text):
    lines = text.split(b"\n")
    if rng.random() < 0.5:
        rng.choice(LINE_DAMAGE)(rng, lines)
    else:
        at = rng.randrange(len(lines))
        words = lines[at].split(b" ")
        rng.choice(WORD_DAMAGE)(rng, words)
        lines[at] = b" ".join(words)
    return b"\n".join(lines)


def damaged(seed, index):
    """Script `index` of this seed. Damage to bytes mostly ends a script early, so two of three scripts have none."""
    rng = random.Random(f"{seed} {index}")
    text = rng.choice(SOURCES)
    with_bytes = rng.random() < 1 / 3
    for _ in range(rng.choice([1, 1, 2, 3, 5, 10])):
        if text:
            damage = rng.choice(BYTE_DAMAGE) if with_bytes else damage_lines
            text = damage(rng, text)
    return text


# What the program may print.

N = r"(0|[1-9]\d*)"
REFUSED_PLACE = rf"refused (11|12|13|14|16|17|18) {N}"
NOT_MADE = re.compile(rf"job refused (1|4|6) {N}|network refused (1|4|7) {N}|network refused 8 0|routes refused 9 {N}")
MADE = re.compile(rf"job of {N} tasks and {N} edges, network of {N} stations and {N} links, routes (by hops|by slowness|as written)")
NOT_UNDERSTOOD = re.compile(rf"line {N} not understood")
LAWFUL = re.compile(rf"lawful placed {N} of {N} length {N}")
BROKEN = re.compile(rf"broken ([A-I]) {N} {N}")
BOOKING = re.compile(rf"(task|edge) {N} on (machine|link) {N} from {N} to {N}")
# The lines of a script that print one line, or for `show` the bookings and a line.
PRINTING = ("mark", "place", "try", "keep", "strike", "back", "fill", "hand", "show")
# A sheet whose steps were all drawn is in order, so that no call gives 20, and strike has a step to take back.
CALLS = [
    re.compile(rf"(place|try) \d+ \d+: (finish {N}|{REFUSED_PLACE}|not allowed)"),
    re.compile(r"keep: (kept|not allowed)"),
    re.compile(rf"strike: (task {N}|not allowed)"),
    re.compile(rf"back: (task {N}|refused 15 0|not allowed)"),
    re.compile(rf"fill: (length {N}|refused 19 {N}|not allowed)"),
    re.compile(r"hand in: not allowed"),
]


def broken_names(rule, x, y, tasks, edges):
    """Whether the two numbers can be those of the rule, in a job of so many tasks and edges."""
    if rule == "A":
        return x == 0 and y < 128 or x == 1 and edges <= y < 224
    if rule == "D":
        return x == 0 and y < tasks or x == 1 and y < edges
    if rule == "F":
        return x < edges and 1 <= y < 15
    if rule in "HI":
        return x < y < (tasks if rule == "H" else edges)
    return x < edges and y == 0


def booking_fits(kind, number, where, resource_number, start, finish, sizes):
    tasks, edges, stations, links = sizes
    placed = kind == "task" and where == "machine" and number < tasks and resource_number < stations
    sent = kind == "edge" and where == "link" and number < edges and resource_number < links
    return (placed or sent) and start < finish <= LIMIT


def line_kind(line, sizes, drawn):
    """What a line after the first is, or None; `drawn` says whether the line before it was of a booking."""
    tasks, edges = sizes[:2]
    if match := BOOKING.fullmatch(line):
        kind, number, where, place, start, finish = match.groups()
        fits = booking_fits(kind, int(number), where, int(place), int(start), int(finish), sizes)
        return "booking" if fits else None
    if match := LAWFUL.fullmatch(line):
        placed, of, length = map(int, match.groups())
        return "lawful" if placed <= of == tasks and length <= LIMIT and (placed > 0) == (length > 0) else None
    # What is shown ends in its verdict, which is lawful.
    if drawn:
        return None
    if match := BROKEN.fullmatch(line):
        rule, x, y = match.groups()
        return f"broken {rule}" if broken_names(rule, int(x), int(y), tasks, edges) else None
    if any(call.fullmatch(line) for call in CALLS):
        return call_kind(line)
    return None


def call_kind(line):
    """The word of a line of drawing and what it was answered, with the number of a refusal but no other."""
    asked, answer = line.split(": ")
    first, *others = answer.split()
    return f"{asked.split()[0]}: {first} {others[0] if first in ('refused', 'not') else ''}".rstrip()


def words_of(line):
    """The words of a line of the script, as they are printed."""
    return b" ".join(re.split(rb"[ \t\r]+", line.split(b"#")[0].strip(b" \t\r")))


def check_order(text_lines, lines):
    """That each line of the script prints what a line of its kind prints: a verdict, or its words and an answer."""
    wanted = [words_of(line).decode("latin-1") for line in text_lines]
    wanted = [words for words in wanted if words.split(" ")[0] in PRINTING]
    printed = [line.split(": ")[0] for line in lines if not BOOKING.fullmatch(line)]
    alike = (a == b or a in ("mark", "show", "hand in") and b.startswith(("lawful ", "broken ")) for a, b in zip(wanted, printed))
    if len(wanted) != len(printed) or not all(alike):
        raise ValueError(f"printed {len(printed)} lines for {len(wanted)}, or others")


def check_rest(text_lines, lines, sizes):
    """The kinds of the lines after the first."""
    kinds = []
    last = NOT_UNDERSTOOD.fullmatch(lines[-1]) if lines else None
    if last:
        text_lines, lines = text_lines[:int(last[1]) - 1], lines[:-1]
    for at, line in enumerate(lines):
        kind = line_kind(line, sizes, kinds[-1:] == ["booking"])
        if kind is None:
            raise ValueError(f"line {at + 2}: {line[:200]}")
        kinds.append(kind)
    if kinds[-1:] == ["booking"]:
        raise ValueError("a shown plan without a verdict")
    check_order(text_lines, lines)
    return kinds + ["not understood, after the setting" if last else "followed to its end"]


def check(text, output):
    """The kinds of the lines printed of a script; an error if one cannot come there."""
    *lines, end = output.decode("ascii").split("\n")
    if end or not lines:
        raise ValueError("the last line is not ended, or there is none")
    text_lines = text.split(b"\n")
    match = NOT_UNDERSTOOD.fullmatch(lines[-1])
    if match and not 1 <= int(match[1]) <= len(text_lines):
        raise ValueError(lines[-1])
    if match and len(lines) == 1:
        return ["not understood, in the setting"]
    if NOT_MADE.fullmatch(lines[0]) and len(lines) == 1:
        return [" ".join(lines[0].split()[:3])]
    match = MADE.fullmatch(lines[0])
    if not match:
        raise ValueError(f"line 1: {lines[0][:200]}")
    sizes = tuple(int(size) for size in match.groups()[:4])
    tasks, edges, stations, links = sizes
    if not (1 <= tasks <= 128 and edges <= 224 and 1 <= stations <= 16 and links <= 32):
        raise ValueError(f"line 1: {lines[0]}")
    return [f"routes {match[5]}"] + check_rest(text_lines, lines[1:], sizes)


# Running.

def run(text):
    """What the program prints of a script, or an error."""
    with os.fdopen(os.memfd_create("script"), "wb+") as script:
        script.write(text)
        script.seek(0)
        done = subprocess.run([PROGRAM], stdin=script, stdout=subprocess.PIPE, stderr=subprocess.STDOUT,
                              timeout=SECONDS, close_fds=False)
    if done.returncode != 0:
        raise ValueError(f"status {done.returncode}, printed {done.stdout[:200]!r}")
    return done.stdout


def try_script(job):
    seed, index = job
    text = damaged(seed, index)
    began = time.monotonic()
    try:
        kinds, failure = check(text, run(text)), None
    except (ValueError, subprocess.TimeoutExpired) as error:
        kinds, failure = [], f"script {index}: {error}"
    except MemoryError:
        kinds, failure = [], f"script {index}: more is printed than there is memory for"
    return kinds, failure, time.monotonic() - began, resource.getrusage(resource.RUSAGE_CHILDREN).ru_maxrss


def limit_memory():
    resource.setrlimit(resource.RLIMIT_AS, (MEMORY, MEMORY))


def main():
    parser = argparse.ArgumentParser()
    parser.add_argument("count", nargs="?", type=int, default=2000)
    parser.add_argument("--seed", type=int, default=1)
    parser.add_argument("--write", type=int, metavar="I")
    args = parser.parse_args()
    if args.write is not None:
        sys.stdout.buffer.write(damaged(args.seed, args.write))
        return 0
    found, failures, slowest, largest = collections.Counter(), [], 0, 0
    began = time.monotonic()
    with multiprocessing.Pool(PROCESSES, limit_memory) as pool:
        jobs = ((args.seed, index) for index in range(args.count))
        for kinds, failure, took, memory in pool.imap_unordered(try_script, jobs, 64):
            found.update(kinds)
            slowest, largest = max(slowest, took), max(largest, memory)
            if failure:
                failures.append(failure)
                print(failure)
    for kind, times in sorted(found.items()):
        print(f"{times:9}  {kind}")
    print(f"{args.count} scripts of seed {args.seed} in {time.monotonic() - began:.0f} s; the slowest took {slowest * 1000:.0f} ms, "
          f"the largest {largest // 1024} MiB; {len(failures)} failed")
    return 1 if failures else 0


if __name__ == "__main__":
    sys.exit(main())
