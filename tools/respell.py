#!/usr/bin/env python3
"""Bring the repository's own definitions and lemmas to today's spelling: words in snake case, a dash only between
two names of which each stands for something, facts and types in camel case. Run once at the top, after the kit's
port.py. It touches .rt and .antt files below crates/ and the pages, but not docs/PORT.md, which has the old names; names
of functions in src/ stay."""
import pathlib
import re

# words of specs/ and proofs/ that were in camel case
WORDS = """
allBack allGiven allTaken answeredAt bodyLength contentOf encodeAll finishedBy finishedWith handedBack lastArrival
littleEndian recordLine recordLines refusalAt requestsOf rowRecord startedBy stopOf summaryLine ticksGiven ticksLeft
timesOf waitingWith
""".split()

# lemmas whose dash joined plain words
LEMMAS = """
all-below all-unfinished allowed-not-unlawful allowed-or-not at-end begins-more begins-or-not begins-readable
begins-request begins-row begins-same begins-stop bytes-long bytes-parts calls-kept comes-before encode-front
encode-more encode-next encode-parts ends-halted few-wait file-long file-parts file-says front-within goes-append
last-push latest-within lawful-extend lawful-goes least-all least-keeps least-none least-takes least-unique less-room
next-front no-farther not-admitted not-falling-push nothing-begins nothing-wrong one-run other-many overwrite-copy
overwrite-more overwrite-next overwrite-none overwrite-three place-grows placed-err placed-ok record-long refused-same
request-at requests-fit requests-go requests-kept requests-long rows-go rows-push same-calls same-fields same-request
says-not-refused served-kept served-last served-more shorter-is shorter-within shortest-is shortest-some
shortest-within stays-first step-answers ticks-kept transcript-more transcript-push two-same unfinished-set
unfit-not-fit unfit-same unlawful-same unreadable-same with-one wrong-same
""".split()

# the rest, each for its own reason: a type, a name inside a lemma's name, a word that std has renamed, or one that
# would fall together with a function
OTHERS = {
    "Some-answer": "SomeAnswer",
    "AllByRecursion as All": "AllByRecursion",
    "length-requestsOf": "length-requests_of",
    "length-rowsOf": "length-rows_of",
    "sumBy-joined": "sum_by-flat_map",
    "sumBy-removed": "sum_by-remove",
    "joined-append": "flat_map-append",
    "joined-push": "flat_map-push",
    "take-removed": "take-remove",
    "refusalLine": "refused_line",
}


def snake(word):
    return re.sub(r"[A-Z]", lambda m: "_" + m.group(0).lower(), word)


NAMES = {w: snake(w) for w in WORDS}
NAMES.update({w: w.replace("-", "_") for w in LEMMAS})
NAMES.update(OTHERS)

PART = r"[A-Za-z0-9_'?\-]"
OLD = re.compile(
    "(?<!" + PART + ")(" + "|".join(re.escape(n) for n in sorted(NAMES, key=len, reverse=True)) + ")(?!" + PART + ")"
)


def respelled(path, text):
    imported = "AllByRecursion as All" in text
    text = OLD.sub(lambda m: NAMES[m.group(1)], text)
    if imported:
        text = re.sub(r"(?<![A-Za-z0-9_'\-.])All(?![A-Za-z0-9_'\-])(?= )", "AllByRecursion", text)
    return text


def main():
    files = [p for p in pathlib.Path("crates").rglob("*") if p.suffix in (".rt", ".antt")]
    files += [p for p in [pathlib.Path("README.md"), *pathlib.Path("docs").glob("*.md")] if p.exists()]
    for path in files:
        if "out" in path.parts or path.name == "PORT.md":
            continue
        old = path.read_text()
        new = respelled(path, old)
        if new != old:
            path.write_text(new)
            print(path)


main()
