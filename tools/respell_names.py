#!/usr/bin/env python3
"""Brings the repository's own definitions and lemmas to the spelling of today's Rattle: words in snake case.

usage: python3 tools/respell_names.py [FOLDER]     once, right after the kit's port script

The crate `log` becomes `access_log`, since Rattle has a library named log.

It names each word that it turns, so that names which Rattle makes (loop-line-preserved) and those of the library
(length-take) stay. In docs/ and README.md it turns words between backticks only.
"""

import os
import re
import sys

WORDS = """
above-both above-start absorbs-left absorbs-right admitted-both and-bits and-half and-over-or and-swap and-then-ok
at-record back-written base16-more batch-of be2-same be2-two be4-four be4-same be8-eight be8-same before-unknown
below-high bit-marked bit-of blank-entry blank-places blank-row blank-rows both-decide breaks-at by-class by-fields
by-start by-test cause-refusal class-dominance class-join class-meet class-order close-after close-answer close-record
close-word combined-ruled digits-end digits-stop eight-be8 eight-octets eight-zip empty-octets enrol-after
enrol-answer field-none field-refusal field-some fields-first fields-of fields-step first-line flow-reflexive
flow-transitive four-be4 four-octets four-zip free-no free-yes fresh-from from-below from-choice from-decide
from-loaded gathered-lowest grade-dominance grade-order has-label-of has-shared has-worded hex-digit hex-value
high-proper history-of in-each in-first in-map-marked integrity-begin integrity-marks integrity-model integrity-range
is-hex join-left join-lowest join-proper join-right joined-more judged-within kept-decides kept-fault kept-meaning
kept-model known-type label-fault label-field label-in label-label label-map label-of-same length-end length-map
length-stop length-written level-order line-answer line-length list-of-more list-reads loaded-of loading-more
loading-starts long-back lost-both low-proper made-over map-all map-label map-marks map-octets map-ok map-reads
map-worded marked-octets marks-after marks-ruled mask-bits mask-octet meet-highest meet-proper more-at needed-both
needed-reversed no-c no-comma no-grant no-here no-octets not-decided not-started number-field object-after
object-answer object-free object-limit object-places object-record object-word octet-bits octets-left only-decide
only-start only-tag open-marks open-within or-bit or-half or-implied or-last or-none output-of pair-order permits-is
permitted-admitted permitted-both place-limit policy-of policy-record policy-word product-meaning product-model
put-rows range-decide range-meaning range-model range-start read-admits read-admitted reads-reversed record-at
refusal-number refused-by-second request-after request-answer request-record request-word rest-same rest-suc
rest-written reversed-decides reversed-meaning reversed-model rival-of rival-order row-answer row-limit same-octet
same-words secrecy-begin secrecy-marks secrecy-model secrecy-range serve-after serve-answer serving-first serving-more
session-record session-word sessions-of set-order start-answer starts-keeps stays-ordered stray-end stray-found
stray-from stray-more sum-bits tag-of-list tag-of-listed tag-of-map tags-of take-at-most two-be2 two-octets two-zip
unless-stray up-to-comma verdict-word waiting-chosen waiting-line waiting-more whole-record with-closed with-entry
with-labels with-one with-session with-two with-word with-words without-word word-err write-admits write-admitted
writes-reversed written-label wrong-length yes-here
""".split()

# Names that the kit's script turned itself; the pages still had the old ones.
PAGES = """
above-low add-row and-assoc and-last and-then at-field at-of below-both blank-of body-of both-ok by-bits by-call
by-word digits-from digits-more field-of from-start goes-on in-map in-order label-of length-more line-after
line-at lines-left lines-of list-of load-after map-of mask-is meet-left meet-right no-test none-of number-digits
number-of of-fields open-row or-assoc placed-of places-of record-of refused-as rest-all rest-from rest-more same-bit
same-place spare-of tag-of went-on with-classes with-two word-of word-ok
""".split()

# Names of the library that the kit's script left, since one file had both spellings of them, and one that it garbled.
LEFT = {"bit-and": "bit_and", "bit-or": "bit_or", "bitAnd": "bit_and", "bitOr": "bit_or", "get_d_zip": "get_or_zip"}

TURNED = {w: w.replace("-", "_") for w in WORDS + PAGES} | LEFT
WHOLE = re.compile(r"(?<![\w'-])(" + "|".join(sorted(map(re.escape, TURNED), key=len, reverse=True)) + r")(?![\w'-])")
TICKED = re.compile(r"`[^`\n]*`")


# What stood for the crate `log`, in paths of definitions and of code.
CRATE = re.compile(r"(?<![\w.])Rattle\.log\.|(?<=^use )log::", re.M)


def turned(text):
    return WHOLE.sub(lambda m: TURNED[m[1]], text)


def moved(text):
    return CRATE.sub(lambda m: m[0].replace("log", "access_log"), text)


def rename_crate(root):
    old, new, listed = (os.path.join(root, *p) for p in (("crates", "log"), ("crates", "access_log"), ("crates.txt",)))
    if os.path.isdir(old):
        os.rename(old, new)
        with open(listed, encoding="utf-8") as f:
            lines = f.readlines()
        with open(listed, "w", encoding="utf-8") as f:
            f.writelines(l if l.startswith("#") else re.sub(r"\blog\b", "access_log", l) for l in lines)


def files(root):
    for folder, dirs, names in os.walk(root):
        skipped = ("out", "target", ".git", "must-fail") + (("reference", "examples") if folder == root else ())
        dirs[:] = sorted(d for d in dirs if d not in skipped)
        yield from (os.path.join(folder, n) for n in sorted(names) if n.endswith((".rt", ".antt", ".md")))


def main():
    root = sys.argv[1] if len(sys.argv) > 1 else "."
    rename_crate(root)
    for path in files(root):
        with open(path, encoding="utf-8") as f:
            old = f.read()
        new = TICKED.sub(lambda m: turned(m[0]), old) if path.endswith(".md") else moved(turned(old))
        if new != old:
            with open(path, "w", encoding="utf-8") as f:
                f.write(new)


main()
