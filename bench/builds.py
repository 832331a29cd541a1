"""Compiles the targets of examples/scenes over whole books, and holds each answer against what a planner and scheduler outside this program said of it.

`bench/expected/SCENE.BOOK.expected` has a plan's turns and hits, and then the number of gliders, the cells of the pattern and the number of generations; or one line
`no recipe ISLAND X Y`.
"""

import os
import re
import shutil
import subprocess
import tempfile
import time

# The longest that a pattern is run for by the program itself.
MOST_REPLAYED = 30_000


def cells_of(text):
    """The live cells that an RLE text means."""
    place = re.search(r"^#CXRLE Pos=(-?\d+),(-?\d+)", text, re.M)
    left, y = (int(place[1]), int(place[2])) if place else (0, 0)
    body = re.sub(r"^(#|x).*$", "", text, flags=re.M)
    x, cells = left, set()
    for count, tag in re.findall(r"(\d*)([bo$!])", body):
        number = int(count or 1)
        if tag == "!":
            break
        if tag == "$":
            x, y = left, y + number
        else:
            if tag == "o":
                cells.update((x + k, y) for k in range(number))
            x += number
    return cells


def expected_of(path):
    """What must come: the plan's lines, the numbers by their names, and the refusal, or none."""
    with open(path) as file:
        lines = file.read().splitlines()
    refusal = next((line for line in lines if line.startswith("no ")), None)
    numbers = {word: int(number) for word, number in (line.split() for line in lines if re.match(r"(gliders|cells|generations) \d+$", line))}
    return lines, numbers, refusal


def events_of(lines):
    """The turns and hits of an expected plan as the program of cases shows them: without names and times."""
    events = []
    for line in lines:
        words = line.split()
        if words[0] == "turn":
            events.append(f"turn {words[1]} at {words[4]}")
        elif words[0] == "hit":
            events.append(" ".join(words[:2] + words[3:8]))
    return events


def most_in_flight(lines, book):
    """The greatest number of thrown gliders that are on their way, or whose hit is not over, at one moment of an expected plan."""
    with open(book) as file:
        lengths = {words[1]: int(words[6]) for words in (line.split() for line in file) if words[:1] == ["turn"] and words[3] == "emit"}
    moments, thrown = [], 0
    for words in (line.split() for line in lines):
        if words[0] == "turn" and words[2] in lengths:
            thrown = int(words[6]) + lengths[words[2]]
        elif words[0] == "hit":
            moments += [(thrown, 1), (int(words[9]), -1)]
    most = now = 0
    for _, change in sorted(moments):
        now += change
        most = max(most, now)
    return most


def compiled(program, book, target):
    """The answer, the line of refusal, the seconds and the most kilobytes."""
    with tempfile.TemporaryFile("w+") as out, tempfile.TemporaryFile("w+") as err:
        begin = time.monotonic()
        child = subprocess.Popen([program, "compile", book, target], stdout=out, stderr=err)
        _, status, usage = os.wait4(child.pid, 0)
        seconds = time.monotonic() - begin
        child.returncode = os.waitstatus_to_exitcode(status)
        out.seek(0)
        err.seek(0)
        return out.read(), err.read().strip().removeprefix("life: "), seconds, usage.ru_maxrss


def fault_of(text, said, numbers, refusal):
    """What of an answer is other than expected, or nothing."""
    if refusal is not None:
        return "" if said == refusal else f"it says {said!r}, not {refusal!r}"
    if said:
        return f"it says {said!r}"
    generations = int(re.search(r"^#C generations (\d+)$", text, re.M)[1])
    found = {"cells": len(cells_of(text)), "generations": generations}
    return "; ".join(f"{found[word]} {word}, not {numbers[word]}" for word in found if found[word] != numbers[word])


def replayed(program, path, generations, wanted):
    """What running a pattern by the program comes to."""
    begin = time.monotonic()
    text = subprocess.run([program, "replay", path, str(generations)], stdout=subprocess.PIPE, text=True).stdout
    return cells_of(text) == wanted, time.monotonic() - begin


def shape_of(cells):
    """Cells, moved to (0,0)."""
    left, top = min((x for x, _ in cells), default=0), min((y for _, y in cells), default=0)
    return {(x - left, y - top) for x, y in cells}


def run_by_golly(golly, folder, path, generations, wanted):
    """What running a pattern by Golly's HashLife comes to; bgolly doesn't say at which place."""
    out = os.path.join(folder, "golly.rle")
    begin = time.monotonic()
    words = [golly, "-q", "-q", "-a", "HashLife", "-m", str(generations), "-o", out, path]
    subprocess.run(words, stdout=subprocess.DEVNULL, stderr=subprocess.DEVNULL)
    seconds = time.monotonic() - begin
    with open(out) as file:
        return shape_of(cells_of(file.read())) == shape_of(wanted), seconds


def word_of(run):
    exact, seconds = run
    return f"{'exactly the target' if exact else 'NOT THE TARGET'} in {seconds:.2f} s"


def checked(program, book):
    """The seconds of checking a book alone."""
    begin = time.monotonic()
    subprocess.run([program, "check", book], stdout=subprocess.DEVNULL)
    return time.monotonic() - begin


def tell(scene, book, seconds, memory, checking, said):
    """A compile's seconds and memory, and how much of the time is beside the book's check: planning, timing, laying out and writing."""
    beside = f"{seconds - checking:.3f} s beside its check of {checking:.3f} s"
    print(f"{f'compile of {scene} over {book}.book':<58} {seconds:8.3f} s {memory / 1024:8.1f} MiB  {beside}; {said}", flush=True)


def scenes(top, program, folder):
    """Each target that has an expected answer, and a grid of 400 blocks."""
    golly = shutil.which("bgolly")
    paths = {book: os.path.join(top, "examples", "books", f"{book}.book") for book in ("mini", "mid", "hub")}
    checking = {book: checked(program, path) for book, path in paths.items()}
    text, said, seconds, memory = compiled(program, paths["hub"], os.path.join(top, "examples", "scenes", "grid400.rle"))
    tell("grid400", "hub", seconds, memory, checking["hub"], said or re.search(r"^#C (generations \d+)$", text, re.M)[1])
    for name in sorted(os.listdir(os.path.join(top, "bench", "expected"))):
        scene, book, _ = name.split(".")
        target = os.path.join(top, "examples", "scenes", f"{scene}.rle")
        lines, numbers, refusal = expected_of(os.path.join(top, "bench", "expected", name))
        text, said, seconds, memory = compiled(program, paths[book], target)
        fault = fault_of(text, said, numbers, refusal)
        tell(scene, book, seconds, memory, checking[book], fault or refusal or "as expected")
        if fault or refusal:
            continue
        path = os.path.join(folder, "built.rle")
        with open(path, "w") as file:
            file.write(text)
        with open(target) as file:
            wanted = cells_of(file.read())
        runs = []
        if numbers["generations"] <= MOST_REPLAYED:
            runs.append("replay: " + word_of(replayed(program, path, numbers["generations"], wanted)))
        if golly:
            runs.append("bgolly: " + word_of(run_by_golly(golly, folder, path, numbers["generations"], wanted)))
        flying = most_in_flight(lines, paths[book])
        print(f"    {numbers['generations']} generations, {numbers['gliders']} gliders, {flying} thrown ones in flight at once; " + "; ".join(runs), flush=True)
