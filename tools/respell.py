#!/usr/bin/env python3
"""Respells the names of this repository that port.py leaves: words are in snake case.

    python3 tools/respell.py        at the top of the repository, once, after port.py

A name is replaced where it stands as a whole word: in .rt, .antt and .edit files below crates/, and in the documents.
"""
import os
import re

# Names whose snake case is a name of the library get another one.
OTHERS = {"bit-and": "bit-bit_and", "bit-or": "bit-bit_or", "bit-xor": "bit-bit_xor"}

NAMES = """
a-is a-record-of-another-number-is-not-found a-search-goes-into-pages-that-do-not-match
a-search-in-three-levels-finds-in-order a-wide-key-may-grow-less above-all above-leaf adds-from adds-root
after-give-back after-within all-below all-clean all-cond all-fives all-free all-from-mem all-joined all-joins
all-map-to all-map₂ all-marked all-mem all-nth all-numbers all-perm all-with allowed-held allowed-within answer-free
answer-held answer-outside answer-same apart-put append-on-page area-le as-root at-class at-end at-match at-over
at-pages at-pages-seen at-word b-is bag-by before-is below-add below-is below-mono below-most below-pages below-push
bit-op both-length both-tests by-cover by-node by-slot by-words cast-via change-ok change-refused changed-below
changed-free changed-held changed-in-use changed-over child-is clean-keeps cleared-mark cleared-page cleared-pages
come-is come-to contains-itself contains-tells contains-through count-below count-in count-is count-joins count-le
count-with covers-ends covers-itself covers-points covers-through cursor-in dealt-all dealt-gone dealt-none dealt-stayed
differ-as differ-beside differ-more differ-not differ-numbers done-leaf e-is e-rule edited-other edited-pages
edited-past edits-are edits-below edits-by edits-is edits-of edits-under either-least either-some empty-is empty-ledger
empty-slot ends-covered ends-meet enough-free entries-are entries-back entries-in entries-told entry-for entry-is
entry-links entry-ruled entry-steps entry-to entry-words eqb-suc every-key every-link every-set-has-all-of-the-empty-one
every-zero f-rule fair-at feeder-on few-free few-split fewer-above fewer-below fewer-first fewer-on-page fewer-zeros
fill-edits fill-fits filled-one finds-at first-apart first-at first-is first-link first-none first-pages first-pair
first-removed first-such fit-one fit-two fits-at fits-cond fits-from-node fits-from-none fits-max fits-min five-alone
five-at found-answers four-at four-go four-le four-least four-only four-root four-stay four-words free-apart free-before
free-by-err free-left free-most free-over free-pages free-set free-unkept freed-free fresh-both fresh-free fresh-numbers
from-10-to-20 from-20-to-25 from-21-to-25 from-30-to-40 from-within gave-unkept give-ok give-refused given-free go-nil
go-on-page go-stands goes-next gone-from groups-joined groups-more grown-root grows-go grows-stay growth-first
growth-here growth-is growth-on-page half-bit has-member head-free held-above held-by-ok held-mark held-numbers
held-over held-within here-from here-held here-pending hold-edits holds-above holds-match holds-point holds-some
holds-still i-is if-unused in-hand in-word inner-runs insert-refusal insert-under insert-writes inserted-on inside-meets
interval-class interval-coded interval-does-not-meet-past-its-end interval-growing interval-if interval-meets-at-its-end
into-two is-changed is-empty is-it is-record is-this it-is join-edits join-pages joined-all joined-append joined-map
joined-onto joined-perm joined-stay-go just-made keeps-clash keeps-fresh keeps-listed keeps-only keeps-own keeps-page
keeps-written kept-hit kept-is kept-joined kept-miss kept-none kept-other kept-root key-at key-if key-is key-on-page
key-part key-read keys-at keys-fit keys-on-page keys-squeezed knows-below lacking-is laid-again laid-append larger-at
larger-growth last-is last-number lay-kept lay-none lay-one lay-some le-at le-true leads-to leaf-on leaf-runs least-all
least-below least-from least-from-within least-growth least-is least-of least-pages least-place least-within leb-one
left-now left-to-do length-cleared length-entries length-entry length-go length-groups length-keys length-lows
length-marks length-on-page length-pages length-perm length-permᴰ length-ranks length-sets length-stay length-with
less-here less-pages less-told level-fits level-is levels-are lies-below lies-loaded lies-node lies-none lies-root
link-in link-is link-number link-on-page link-part link-read links-fit links-in listed-page listing-kept listing-more
listing-rest listing-same long-is look-below look-closed look-match look-no-key look-no-link look-no-match look-past
looking-none lost-edits lost-gone lost-new lost-old low-enough low-is lows-squeezed map-joined map-perm mapped-none
mapped-some marks-from marks-kept marks-more match-above match-held matches-not matches-points max-first max-second
max-via may-hold may-hold-a-match may-hold-above meet-is meets-above meets-ends meets-points mem-found mem-or-not
member-either members-of mend-edits mend-pages mended-is mended-size merged-edits merged-is merges-at mid-after
mid-before mid-inside mid-length min-first min-least min-max min-second min-via more-apart more-pages more-push
more-spare more-zeros new-key new-root new-table next-first next-is next-other next-second next-size no-bit no-child
no-less-here no-link no-match no-members no-other-keeps no-set-lies-within-the-empty-one no-union node-fine
node-from-fits node-laid node-words none-again none-from-fits none-some none-there none-value not-a-tree not-below
not-by-link not-by-words not-given not-gone not-held not-loaded not-merged not-not not-shared not-stayed not-this
not-unread nth-first nth-map nth-there nth-within numbers-in numbers-joined numbers-parts o-some o-stands of-full
of-thirteen-equal-sets-even-places-stay of-twelve-and-another-nine-stay ok-over on-a-tie-the-lowest-place on-f on-leaf
on-other-page on-p on-page on-same-page once-below once-both once-from once-gone once-one one-if-free one-keeps
one-pages one-two-three ones-bits only-corners only-squeezed only-words onto-covers onto-covers-first option-set
or-keeps other-link other-page outcome-below over-at over-held over-kept over-other over-sets owed-made own-apart
own-last own-pages page-at page-edit page-free page-held page-is page-same page-whole pages-added pages-are pages-at
pages-below pages-changed pages-differ pages-held pages-in pages-now pages-of pages-set pages-taken pages-used
pages-written pages-written-at passed-by-link passed-by-words perm-cancel perm-eq perm-swap place-perm place-some
places-edits places-holding places-in point-above pooled-all pooled-if pooled-more pooled-one pushed-fits pushed-full
pushed-if pushed-on pushed-words put-there put-words q-held quadratic-shares query-in rank-parts rank-shares ranks-from
read-corners read-interval read-key read-point read-rectangle read-refused record-numbers records-at records-less
records-more records-of records-pair records-same rectangle-class rectangle-coded rectangle-does-not-hold-past-its-edge
rectangle-growing rectangle-grows-by-area rectangle-holds-its-corner rectangle-if refilled-cleared refilled-edits
refusal-of refused-below refused-leaf regrown-joined regrown-one regrown-two relaid-by remove-edits remove-under
removed-on removes-editing removes-under rest-is-zero rest-length room-same root-edits root-least root-page root-writes
row-key row-link same-as-itself same-below same-err same-interval same-level same-listed same-node same-page same-pages
same-records same-rectangle same-slot same-tree same-words same-words-decides saved-held saved-none saved-pages saves-at
seeds-at seeds-first-worst seeds-of seeds-within set-class set-growing set-grows-by-what-it-lacks set-held set-on-page
set-pages set-under sets-absorb sets-absorb-all sets-perm sets-permᴰ seventy-eight-points-have-two-levels shape-in
shared-edits shared-filled shared-is shares-above shares-by shares-within signed-fits size-last size-more size-tail
some-free some-joins some-levels some-steps some-tells some-there some-value sorted-perm sound-below sound-root span-le
spare-first split-entry split-fine split-fits split-is split-off split-shares split-sizes splits-next splits-push
splits-within squeezed-at squeezed-keys stands-over stands-there stay-go stay-left stay-nil stay-on-page stay-or-go
stay-stands staying-cons staying-going staying-under step-up steps-ahead steps-left still-long swap-first takes-over
ten-by-ten test-via the-next-needs-three-pages the-partner-is-chosen-by-the-key-formed-anew
the-thirteenth-needs-two-pages then-0-to-5-stay-and-6-to-12-go then-there-are-three-levels-on-sixteen-pages this-is
three-leaves tied-same tied-set to-list told-rest took-given took-words took-written twelve-points-lie-on-one-page
two-pages under-high under-is under-refused union-covers union-covers-first union-covers-second union-first union-least
union-of union-second union-there unless-none unlisted-first unlisted-kept unused-kept unused-ok unused-passed
used-pages view-answer view-below view-kept view-whole way-is way-under whole-put with-entry with-key with-others
with-partner with-points within-tells without-0-1-and-2-one-leaf-is-left without-0-1-and-2-one-page-fewer
without-0-the-key-above-is-formed-anew without-first without-on-page without-past word-either words-before words-behind
words-fit words-fix words-from words-in words-of-keys words-past words-there worse-keeps worse-takes worse-within
worst-after worst-from write-ok write-refused writes-adding writes-under writes-up written-again written-free x-count
x-some y-count y-stands ys-xs zero-alone zero-and-one zeros-behind
""".split()

NEW = {name: name.replace("-", "_") for name in NAMES} | OTHERS
WORD = re.compile(r"[^\s(){}\[\];,.@\"`]+")


def respelled(text):
    return WORD.sub(lambda word: NEW.get(word.group(0), word.group(0)), text)


def main():
    paths = ["README.md"] + ["docs/" + name for name in os.listdir("docs") if name.endswith(".md")]
    for folder, folders, names in os.walk("crates"):
        folders[:] = [name for name in folders if name != "out"]
        paths += [os.path.join(folder, name) for name in names if name.endswith((".rt", ".antt", ".edit"))]
    for path in paths:
        with open(path, encoding="utf-8") as file:
            old = file.read()
        new = respelled(old)
        if new != old:
            with open(path, "w", encoding="utf-8") as file:
                file.write(new)


if __name__ == "__main__":
    main()
