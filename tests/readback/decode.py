#!/usr/bin/env python3
"""What 'octalmure show' and 'octalmure say' print, read back and held to the numbers of the file: the examples, cases by seed, runs
of any numbers, and files that are cut off. What 'octalmure why' and 'octalmure explain' print, of the examples and the cases.

  decode.py [SEED COUNT]
"""
import collections
import concurrent.futures
import os
import pathlib
import random
import re
import struct
import subprocess
import sys
import tempfile

sys.dont_write_bytecode = True
ROOT = pathlib.Path(__file__).resolve().parents[2]
sys.path[:0] = [str(ROOT / "tests" / part) for part in ("interface", "files", "readback")]
from counts import finish
from pictured import hold_picture
from ready import command, generated
from reread import reasons_read_back
from said import hold_sentences
from shown import File, Shown, Wrong, hold, hold_said, hold_tables

SEED, COUNT = (int(word) for word in sys.argv[1:]) if len(sys.argv) == 3 else (5, 300)
WIDTHS = (80, 240, 1000)
WILD, LEAST_FINE, EXPLAINED, TOP = 90, 100, 150, 2**32 - 1
FINER = "a picture that is finer where there is more room"
TO_MEET = {FINER, *(f"rule {number}" for number in range(1, 10)), *(f"refusal {number}" for number in range(1, 9))}


def cut_off(room):
    """C1 at lengths around the borders of its counts and entries, and with bytes behind it."""
    run = (ROOT / "examples" / "c1.run").read_bytes()
    for length in (0, 3, 4, 11, 12, 15, 16, 35, 36, 95, 96, 99, 100, 123, 124, 219, 221, 13000):
        path = room / f"cut-{length}.run"
        path.write_bytes((run + bytes(length))[:length])
        yield path


def wild_numbers(chance):
    """An allowed setting and allowed tasks, and records of any numbers: near each other, far from each other, before H or long
    after, due before they start, at the top."""
    if chance.randrange(3):
        period, horizon = 1, chance.randrange(1, 100)
        near, spread = chance.choice((0, 0, 30, 10**6, TOP - 500)), chance.choice((5, 60, 300, 10**6))
    else:
        period, horizon = 20000, 10**6
        near, spread = 10**6 - 200, 300
    tasks = [(period * chance.randrange(1, 50), 1, 9, chance.randrange(40), 0) for _ in range(3)]
    records = []
    for _ in range(chance.randrange(9)):
        start = min(TOP, near + chance.randrange(spread))
        end = min(TOP, start + chance.choice((0, 1, 2, chance.randrange(spread))))
        job = chance.choice((0, 1, chance.randrange(9), TOP))
        records.append((chance.randrange(4), job, start, start, end, chance.randrange(5)))
    return (2, chance.randrange(1, 4), horizon, len(tasks), *sum(tasks, ()), len(records), *sum(records, ()))


def wild(room):
    chance = random.Random(SEED)
    for number in range(WILD):
        numbers = wild_numbers(chance)
        path = room / f"wild-{number}.run"
        path.write_bytes(struct.pack(f"<{len(numbers)}I", *numbers))
        yield path


def run(words, word, path, width):
    """What a word prints of a file, and its exit status."""
    ended = subprocess.run([*words, word, str(path)], capture_output=True, env={**os.environ, "COLUMNS": str(width)})
    hold(ended.returncode in (0, 1, 3) and not ended.stderr, f"status {ended.returncode}, {ended.stderr!r}")
    return ended.stdout.decode("ascii"), ended.returncode


def say(words, path):
    """The sentences held to the file; gives which rule or refusal they name."""
    text, status = run(words, "say", path, WIDTHS[0])
    hold_sentences(File(path.read_bytes()), text.splitlines(), status)
    return set(re.findall(r"(?:rule|refusal) \d+", text.splitlines()[0]))


def show(words, path, width):
    """One picture held to its file; gives its scale in columns for a tick, None if there is none."""
    text, status = run(words, "show", path, width)
    file, shown, accepted = File(path.read_bytes()), Shown(text), status == 0
    hold_said(file, shown, path, status)
    if not accepted:  # show leaves the late records to its table
        hold_sentences(file, shown.said, status)
    hold_tables(file, shown, status)
    if status == 3:
        hold(shown.picture == [], "a picture of a file that is refused")
        return None
    scale = hold_picture(file, shown, accepted)
    hold(all(len(line) <= width for line in shown.picture[: 3 + 2 * file.setting[0]]), "the picture is too wide")
    return scale.wide / scale.ticks


def try_file(words, path, met):
    """What is said, and what is shown at each width: a verdict, and the scale. A wider picture shows no less."""
    scales = []
    try:
        met |= say(words, path)
        yield (f"say {path.name}", True), None
    except Wrong as why:
        yield (f"say {path.name}: {why}", False), None
    for width in WIDTHS:
        try:
            scales.append(show(words, path, width))
            yield (f"{path.name} at {width}", True), scales[-1]
        except Wrong as why:
            yield (f"{path.name} at {width}: {why}", False), None
    told = [scale for scale in scales if scale is not None]
    met |= {FINER} if told and told[0] < told[-1] else set()
    yield (f"{path.name}: coarser where there is more room: {told}", told == sorted(told)), None


def verdicts(room):
    words = command(room)
    by_seed = [path for path, _ in generated(room, SEED, 0, COUNT)]
    examples = sorted((ROOT / "examples").glob("*.run"))
    paths = [*examples, *cut_off(room), *wild(room), *by_seed]
    met = set()
    with concurrent.futures.ThreadPoolExecutor(max(2, os.cpu_count() or 2)) as pool:
        held = [each for all_of in pool.map(lambda path: [*try_file(words, path, met)], paths) for each in all_of]
    kinds = collections.Counter("coarse" if scale < 1 else "fine" for _, scale in held if scale is not None)
    print(f"decode: {len(paths)} files; {kinds['fine']} pictures with a column or more for each tick, {kinds['coarse']} others")
    yield from (verdict for verdict, _ in held)
    yield from ((f"{what} was not met", what in met) for what in sorted(TO_MEET))
    yield "too few pictures were read back", kinds["fine"] >= LEAST_FINE and kinds["coarse"] > 0
    yield from reasons_read_back(words, room, [*examples, *by_seed[:EXPLAINED]])


with tempfile.TemporaryDirectory() as folder:
    finish(verdicts(pathlib.Path(folder)))
