"""Words that are at fault, of which the least is told, and options in any order."""

import program
from cases.case import Case, build, int4_heap, int4_leaf, refused

TABLE = program.TABLE
INDEX = program.INDEX

# Lines, and the number of the least word at fault.
FAULTY_LINES = [
    ("no word", [], 1),
    ("another word than build", ["verify", "index", TABLE, INDEX], 1),
    ("no heap", ["build"], 2),
    ("an empty heap", ["build", "", "index", TABLE, INDEX], 2),
    ("no index", ["build", "heap"], 3),
    ("an empty index", ["build", "heap", "", TABLE, INDEX], 3),
    ("the heap for the index", ["build", "heap", "heap", TABLE, INDEX], 3),
    ("the heap for the index, and no statements", ["build", "heap", "heap"], 3),
    ("no statements", ["build", "heap", "index"], 4),
    ("one statement", ["build", "heap", "index", TABLE], 5),
]

# Options behind the five words of a build, and the number of the least word at fault.
FAULTY_OPTIONS = [
    (["--workers=32"], 6),
    (["--workers=00"], 6),
    (["--workers=+0"], 6),
    (["--workers=-0"], 6),
    (["--workers="], 6),
    (["--workers"], 6),
    (["--workers= 0"], 6),
    (["--run-rows=0"], 6),
    (["--run-rows=01"], 6),
    (["--run-rows=16777217"], 6),
    (["--run-rows=4294967297"], 6),
    (["--claims=1"], 6),
    (["--CLAIMS"], 6),
    ([""], 6),
    (["--claims", "--claims"], 7),
    (["--workers=0", "--workers=0"], 7),
    (["--run-rows=1", "--run-rows=2"], 7),
    (["--claims", "--run-rows=1x"], 7),
    (["--claims", "--workers=0", "--claims"], 8),
    (["--claims", "--workers=0", "--run-rows=7", "more"], 9),
    (["--run-rows=7", "--workers=0", "--claims", "--run-rows=7"], 9),
]

# The claims of the leader alone, and those of a leader with workers, who share them as it happens.
ALONE = "claim 0 0 1\nclaim 0 1 1\n"
SHARED = None

# Options that are in order, and the claims that are told.
SOUND_OPTIONS = [
    ([], ""),
    (["--workers=0"], ""),
    (["--workers=1"], ""),
    (["--workers=31"], ""),
    (["--run-rows=1"], ""),
    (["--run-rows=16777216"], ""),
    (["--claims"], SHARED),
    (["--workers=0", "--run-rows=65536", "--claims"], ALONE),
    (["--claims", "--run-rows=2", "--workers=0"], ALONE),
    (["--run-rows=10", "--claims"], SHARED),
]

HEAP = int4_heap([30, 10, 20])
LEAF = int4_leaf((10, 2), (20, 3), (30, 1))


CASES = [Case(f"words: {name}", words, 2, f"usage: word {word}\n", HEAP) for name, words, word in FAULTY_LINES]

CASES += [
    refused(f"words: options at fault, {options}", HEAP, 2, f"usage: word {word}", options=options)
    for options, word in FAULTY_OPTIONS
]

CASES += [
    Case(f"words: options in order, {options}", build(options=options), 0, heap=HEAP,
         output=f"{claims}built btree: 3 rows, 2 blocks\n", left={"index": LEAF},
         output_to="/dev/null" if claims is SHARED else None)
    for options, claims in SOUND_OPTIONS
]
