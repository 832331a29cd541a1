"""Books that grow by `extend`: whole realistic books, and a small book from which all salvos were taken.

A realistic book has kinds of a block and a small still life; what the finder adds to it are turns that begin at such a kind, one of which throws a glider and leaves a
block. With that turn's kind as its start the book builds one block at some corners. What each book must come to was found by searches outside this program.
"""

import os
import re
import subprocess
import time

import builds

SETTINGS = "scbook 1\napproach 40\nwall 10\nreach 40\ncorner 60 -60\nroom 40\nspan 4096\nlanes 0 0 1\ndelays 50 50 1\n"
HAND = "hand 20b2o$20b2o19$2o$2o!\n"
ENTRIES = "turn fold block close 30 : 0\nsalvo drop : 21 : 20 0 2o$2o! : none\n"
BLOCK = "x = 2, y = 2, rule = B3/S23\n2o$2o!\n"



def turned(rows):
    """The pattern, and the three that come of it by quarter turns."""
    found = [rows]
    for _ in range(3):
        found.append(tuple("".join(column) for column in zip(*found[-1][::-1])))
    return found


BOAT = ("oo.", "o.o", ".o.")
EATER = ("oo..", "o.o.", "..o.", "..oo")
LONG_BOAT = ("oo..", "o.o.", ".o.o", "..o.")

# The still life's name, its images in their order, how many candidates are tried, the turn that must be found, and at which corner, counted from (120,-120) down, the book
# then builds a block.
BOOKS = (
    ("boat", [turned(BOAT)[k] for k in (0, 1, 3, 2)], 200, "found48", -8),
    ("eater", turned(EATER) + turned(tuple("".join(column) for column in zip(*EATER))), 300, "found164", -6),
    ("longboat", turned(LONG_BOAT), 300, "found74", -6),
)
CORNERS = range(-30, 30)


def body(rows, left):
    """Items of the pattern with its box's left column at `left`, and of a block with its top left at (64,64)."""
    lines = [re.sub(r"\.", "b", row.rstrip(".")) for row in rows]
    return "$".join(lines) + f"{65 - len(rows)}${64 - left}b2o${64 - left}b2o!"


def realistic(name, images):
    """The book with these images, each in 16 places."""
    kinds = [f"elbow {name}{r}_{k} {k - 8} 0 {body(image, k - 8)}\n" for r, image in enumerate(images, 1) for k in range(16)]
    return SETTINGS + HAND + "elbow block 0 0 2o$2o!\n" + "".join(kinds) + "start block\n" + ENTRIES


def answered(words):
    """The answer, standard error and the seconds of a run."""
    begin = time.monotonic()
    run = subprocess.run(words, capture_output=True, text=True)
    return run.stdout, run.stderr.strip(), time.monotonic() - begin


def thrown(book):
    """The turns with the one delay 0 that throw a glider and leave a block further on by 64: the name of each, and of its kind."""
    return re.findall(r"^turn (\S+) (\S+) emit block 64 \S+ \S+ \S+ : 0$", book, re.M)


def corners(program, folder, book, kind, target):
    """The corners at which the book, with this start, builds the target; each answer is run for its n."""
    good = []
    for k in CORNERS:
        moved = re.sub(r"^start .*$", f"start {kind}", re.sub(r"^corner .*$", f"corner 120 {k - 120}", book, flags=re.M), flags=re.M)
        path = os.path.join(folder, "moved.book")
        with open(path, "w") as file:
            file.write(moved)
        text, refusal, _ = answered([program, "compile", path, target])
        if not text:
            assert refusal == "life: no recipe 1 0 0" or refusal.startswith("life: no closing"), refusal
            continue
        count = re.search(r"^#C generations (\d+)$", text, re.M)[1]
        pattern = os.path.join(folder, "moved.rle")
        with open(pattern, "w") as file:
            file.write(text)
        built, _, _ = answered([program, "replay", pattern, count])
        good.append((k, builds.cells_of(built) == builds.cells_of(BLOCK)))
    return good


def books(program, folder):
    """The realistic books: what they grow to, and where they build a block."""
    target = os.path.join(folder, "block.rle")
    with open(target, "w") as file:
        file.write(BLOCK)
    for name, images, budget, wanted, corner in BOOKS:
        path = os.path.join(folder, f"{name}.book")
        with open(path, "w") as file:
            file.write(realistic(name, images))
        text, refusal, seconds = answered([program, "extend", path, str(budget)])
        found = thrown(text)
        good = [turn for turn, _ in found] == [wanted]
        print(f"{f'extend of the {name} book by {budget} candidates':<58} {seconds:8.3f} s  {refusal}{'' if good else f'OTHER THAN EXPECTED: {found}'}")
        for turn, kind in found:
            built = corners(program, folder, text, kind, target)
            said = "as expected" if built == [(corner, True)] else f"OTHER THAN EXPECTED: {built}"
            print(f"  {turn} at {kind} builds a block at the corners {[k for k, _ in built]}, {said}", flush=True)


def grown(program, top, folder):
    """A book without salvos: from an elbow and a hand to a build."""
    path, target = os.path.join(top, "examples", "books", "bare.book"), os.path.join(top, "examples", "scenes", "block.rle")
    for budget, salvos, wanted in ((156, None, None), (1884, 50, 3782)):
        text, _, seconds = answered([program, "extend", path, str(budget)])
        added = len(re.findall(r"^salvo", text, re.M))
        name = f"extend of bare.book by {budget} candidates"
        print(f"{name:<58} {seconds:8.3f} s  {added} salvos{'' if salvos in (None, added) else ', OTHER THAN EXPECTED'}, {budget / seconds:.0f} candidates a second")
        grown_path = os.path.join(folder, "grown.book")
        with open(grown_path, "w") as file:
            file.write(text)
        told, _, _ = answered([program, "check", grown_path])
        built, refusal, _ = answered([program, "compile", grown_path, target])
        count = re.search(r"^#C generations (\d+)$", built, re.M)
        n = int(count[1]) if count else None
        good = n == wanted and " no " not in told
        print(f"  its check says: {told.splitlines()[-1]}; a block: {n if count else refusal}{'' if good else ', OTHER THAN EXPECTED'}", flush=True)


def delays(program, top, folder):
    """Candidates a second for delays: the first book, with more gaps to try."""
    with open(os.path.join(top, "examples", "first", "first.book")) as file:
        text = re.sub(r"^delays .*$", "delays 20 60 2", re.sub(r"^lanes .*$", "lanes 0 0 1", file.read(), flags=re.M), flags=re.M)
    path = os.path.join(folder, "delays.book")
    with open(path, "w") as file:
        file.write(text)
    _, _, short = answered([program, "extend", path, "1"])
    book, _, seconds = answered([program, "extend", path, "1700"])
    added = len(re.findall(r"^turn", book, re.M)) - 1
    print(f"{'extend of the first book by 1,700 lists of delays':<58} {seconds:8.3f} s  {added} turns, {1699 / (seconds - short):.0f} candidates a second", flush=True)


def all_of(program, top, folder):
    grown(program, top, folder)
    delays(program, top, folder)
    books(program, folder)
