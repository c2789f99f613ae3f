#!/usr/bin/env python3
"""Spells the definitions and lemmas of this repository as today's Rattle does: in snake case, with no dash.

Run it once, at the top, after /opt/rattle/port/port.py: python3 tools/snake_names.py
It changes the names below, as whole words, in crates/**/*.rt and crates/**/*.antt, but for comments and for the strings of code. It
refuses to run where a new name stands in an .antt file already, since two definitions would fall together. It does not look at the
names of code: functions, fields and parameters may be called as a definition is.
"""

import os
import re
import sys

NAMES = """
a-size above-l above-pow above-r absent-checked absent-product absent-quotient accepted-by add-no-bench add-on add-spare adopt-at
adopt-bench adopt-bench-at adopt-core adopt-goes adopt-hall adopt-keeps adopt-proper adopt-sheet adopt-starts adopt-wider
adopt-windows adopted-lower advance-decides advance-goes after-1 after-2 after-3 after-4 after-left after-lefts after-right
all-windows alter-at alter-set altered-sound and-false and-true answered-through arrival-value arrivals-mono arrivals-row
arrives-l arrives-r asked-end asked-row at-below at-bench at-ordinary at-values at-void at-window below-pow bench-checked bench-of
bench-refused benches-size body-by body-laid body-lays body-written breaks-read by-arrivals by-kind-value by-latest by-quotient
by-writing byte-kind byte-laid byte-lays bytes-value call-of calls-of came-through carriage-checks carriage-lawful carriage-of
carriage-same ceiling-above ceiling-checks ceiling-up cell-of cells-laid cells-lay cells-none cells-some change-at change-by
change-same checked-bad checked-both checked-end checked-fault checked-laid checked-lays checked-ok clamped-above clamped-below
clamped-same coefficient-at coefficient-checks complement-below complement-laid complement-lays complement-signed cond-not
core-greatest count-taken counted-coefficient counted-twice cut-above cut-falls cut-fell cut-limit cut-nil cut-spare cut-start
cut-stayed cut-stays cut-values cut-windows decided-laid decided-lays decided-state divided-row done-told early-fault
exchange-accepted exchange-answer exchange-checks exchange-goes exchange-sound fails-laid fallen-all fallen-here fallen-next
fallen-none fell-here fell-impossible fell-possible fell-step fell-there few-cells field-err field-fault field-more field-ok
field-written fields-end fields-short fields-whole file-laid file-lays file-of file-read fill-all finds-first fitting-round
flip-core flip-fits flip-plan flip-sheet floor-below floor-checks floor-down found-accepted found-checks found-sound fresh-above
fresh-again fresh-bench fresh-core fresh-hall fresh-sheet fresh-windows from-floor gives-laid grades-product grades-quotient
granted-decides greatest-coefficient greatest-coefficient-limit greatest-unique greatest-window half-above half-arrives half-row
hall-of hall-sheet handed-on handed-same has-ceiling has-floor head-and-body head-fault head-laid head-lays head-then head-written
held-value highest-limit highest-value impossible-none in-part in-state in-step-greatest in-time is-next keeps-length keeps-row
keeps-spare keeps-values kind-byte largest-bounds largest-least largest-more largest-over largest-same latest-row latest-start
latest-value law-stands lays-read le-leZ leZ-true least-coefficient least-coefficient-limit least-window left-all left-benches
left-falls left-fault left-first left-keeps left-last left-more left-part left-proper left-reply left-rows left-told left-windows
lefts-of lefts-part length-alter length-bytes length-listed length-under less-start limit-laid limit-lays limits-laid limits-lay
limits-row listed-all listed-row loosen-accepted loosen-checks loosen-goes loosen-proper loosen-sound lower-above lower-accepted
lower-bench lower-checks lower-core lower-goes lower-keeps lower-left lower-proper lower-same lower-wider lowest-limit
lowest-value lt-false lt-true map-ceiling map-floor map-known map-number map-renew map-under max-left max-right min-above min-is
min-left min-right minutes-lawful minutes-product minutes-quotient more-bits more-checks more-row more-size multiplied-row
narrow-coefficients narrow-windows new-sheet no-bench no-window not-cut not-less not-lt not-past number-err number-laid
number-lays numbers-two of-complement of-grades of-minutes of-scale of-scale-high of-scale-low on-from one-to open-not-step
open-possible opened-impossible opened-step or-false or-true other-state own-sheet padded-part padded-row padded-same part-lays
part-read part-written passed-row place-checks place-within present-checked present-is product-of product-of-value put-ceiling
put-ceilings put-floor put-left put-network put-none quotient-of quotient-of-value quotient-value raise-accepted raise-bench
raise-checks raise-core raise-goes raise-keeps raise-left raise-none raise-proper raise-starts raise-wider read-fault read-written
reads-fails reads-gives reads-told reads-what-is-written reads-written refused-by refused-row renew-bench replay-more replay-none
replies-of reply-of residuated-of retold-ended retold-outcome rewrite-at right-back right-benches right-falls right-first
right-keeps right-part right-proper right-reply right-rows right-told right-windows rights-of rights-part room-padded round-core
round-falls round-good round-made round-sheet rounds-good rounds-more rounds-on rounds-open rounds-sheet rounds-slack row-arrives
row-l row-lays row-lowers row-r row-r' row-size rows-laid rows-lay rows-part same-list same-list-same same-list-true
same-number-apart same-number-false same-number-same same-number-true scale-byte scale-some series-chained series-lawful series-of
sheet-change sheet-unique size-checks slack-in slack-is slack-least smallest-bounds smallest-more smallest-most smallest-same
smallest-under solving-again spare-all split-field stage-1 stage-2 stage-3 stage-4 stage-5 starts-are starts-checks starts-read
state-is stations-size step-possible straight-lawful straight-of table-checks table-lawful take-front take-set take-written
takes-unique the-left the-right the-slack the-starts the-state the-window then-laid then-lays then-reached to-ceiling told-fault
told-laid told-lays told-lists told-reads told-reply told-starts told-window true-not-false turned-away value-below value-bytes
values-at verdict-impossible verdict-open verdict-possible verdict-step wider-checks window-answer window-check window-checks
window-fault window-is window-laid window-last window-lays window-next window-of window-read window-value-checks window-values
window-written windows-alter windows-in windows-laid windows-lay windows-next windows-none windows-of windows-part windows-proper
windows-written word-short writes-unique written-more
≤-refl ≤-antisym ≼-antisym ≼-of-eq
"""

OLD = sorted(NAMES.split(), key=len, reverse=True)
NEW = {n: n.replace("-", "_") for n in OLD}
WORD = re.compile(r"(?<![\w'-])(" + "|".join(map(re.escape, OLD)) + r")(?![\w'-])")
# What stays as it is: a comment, or a string of the code.
KEPT = {".antt": re.compile(r"--.*$"), ".rt": re.compile(r"//.*$|\"(?:\\.|[^\"\\])*\"")}


def spelled(line, kept):
    out, at = [], 0
    for m in kept.finditer(line):
        out += [WORD.sub(lambda w: NEW[w.group(1)], line[at : m.start()]), m.group(0)]
        at = m.end()
    return "".join(out) + WORD.sub(lambda w: NEW[w.group(1)], line[at:])


def files():
    for folder, dirs, names in os.walk("crates"):
        dirs[:] = sorted(d for d in dirs if d != "out")
        for name in sorted(names):
            if name.endswith((".rt", ".antt")):
                yield os.path.join(folder, name)


def main():
    texts = {p: open(p, encoding="utf-8").read() for p in files()}
    present = set()
    for p, t in texts.items():
        if p.endswith(".antt"):
            present |= set(re.findall(r"[A-Za-z_][\w'-]*", re.sub(r"(?m)--.*$", "", t)))
    both = sorted(n for n in OLD if NEW[n] in present)
    if both or len(set(NEW.values())) != len(OLD):
        sys.exit("these names would fall together with others: " + ", ".join(both))
    changed = 0
    for p, t in texts.items():
        kept = KEPT[os.path.splitext(p)[1]]
        new = "\n".join(spelled(line, kept) for line in t.split("\n"))
        if new != t:
            changed += 1
            with open(p, "w", encoding="utf-8") as f:
                f.write(new)
    print(f"{len(OLD)} names, {changed} files changed")


main()
