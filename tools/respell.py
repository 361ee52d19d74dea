#!/usr/bin/env python3
"""Respells this repository's own definitions and lemmas as today's Rattle spells names.

It runs once, at the top of the repository, right after port.py. Words are in snake case;
a dash joins two names of definitions, and a plain word is added with an underscore; a fact
keeps its capital. The table is whole: it names every definition, field, alias and lemma
that changes, so that no two names fall together (it stops where two would).
"""
import glob
import re

TABLE = """
Opens opens
above-0 above_0
above-div above_div
abs-few abs_few
abs-left abs_left
abs-minus abs_minus
abs-plus abs_plus
abs-right abs_right
accepted-closed accepted_closed
accepted-one accepted_one
accepted-open accepted_open
across-few across_few
across-none across_none
across-some across_some
after-join After-append
after-said after_said
after_none After_none
all-dots all_dots
all-in-join AllIn-append
all-rows all_rows
along-apart along_apart
along-back along_back
along-spans along_spans
along-wide along_wide
and-true and_true
asMany as_many
ask-closed ask_closed
ask-open ask_open
at-0 lighted_at_0
at-flat lighted_at_flat
at-round lighted_at_round
axis-bounds axis_bounds
axis-few axis_few
axis-out axis_out
bare-laws bare_laws
before-apart Before_apart
below-mod below_mod
bit-hit bit_hit
bit-missed bit_missed
bit-other bit_other
bitmap-after bitmap_after
bitmap-join bitmap_join
bitmap-laws bitmap_laws
bitmap-length bitmap_length
bitmap-none bitmap_none
bitmap-window bitmap_window_kept
bitmapLit bitmap_lit
bitmapMeaning bitmap_meaning
bitmapNumber bitmap_number
bitmapWindow bitmap_window
bits-decide bits_decide
bounded-empty Bounded-empty
burn-lit burn_lit
burnt-join burnt-append
burnt-lit burnt_lit
byParts by_parts
byte-lt byte_lt
cachedMeaning cached_meaning
call-total call_total
can-add-is can_add_is
can-negate-is can_negate_is
can-turn-is can_turn_is
canonical-twice canonical_twice
canonicalOf canonical_of
carried-beside carried_beside
carried-far carried_far
carriedLine carried_line
carry-deep carry_deep
carry-true carry_true
causeOf cause_of
centre-out centre_out
clippedOf clipped_of
closed-view closed_view
column-cut column_cut
column-few column_few
column-none column_none
column-ordered column-Ordered
column-sound column_sound
column-under column-Under
column-whole column_whole
columns-few columns_few
columns-from columns_from
columns-ordered columns-Ordered
columns-sound columns_sound
columns-whole columns_whole
coming-start coming_start
cond-few cond_few
corner-pair corner_pair
cornerDots corner_dots
cornersFrom corners_from
count-dots count_dots
counter-laws counter_laws
covered-not covered_not
covered-to covered_to
digit-back digit_back
distinct_append Distinct-append
distinct_from Distinct_from
dotCount dot_count
dots-length dots_length
dotsFrom dots_from
dotsOf dots_of
dotsThen dots_then
down-one down_one
ellipseCause ellipse_cause
exchanges-odd exchanges_odd
exchangesAxes exchanges_axes
facingBy facing_by
facingNumber facing_number
facingOf facing_of
figureAnswer figure_answer
figureNumber figure_number
figureStrikes figure_strikes
fillRow fill_row
fillRows fill_rows
filled-few filled_few
filled-not filled_not
filled-to filled_to
filledDots filled_dots
filledPair filled_pair
fits-handable fits_handable
fits-handable-dot fits_handable_dot
fits-list fits_list
flippedOf flipped_of
framed-bitmap Framed_bitmap
framed-bounded Framed-Bounded
framed-canonical Framed-canonical
framed-clipped Framed-clipped
framed-empty Framed-empty
framed-frame Framed-frame
framed-windowOf Framed-window_of
full-turned full_turned
gap-few gap_few
go-down go_down
go-end go_end
go-side go_side
ground framed_below
handable-fits handable_fits
handable-near handable_near
handable-orders handable_orders
handable-parts handable_parts
handableDot handable_dot
has-later has_later
has-reach has_reach
hasDots has_dots
height-is height_is
in-uncrossed In-uncrossed
ink-held ink_held
ink-hits ink_hits
ink-misses ink_misses
inked-split inked_split
inkedByte inked_byte
inkedWith inked_with
inside-orders inside_orders
is-cell is_cell
is-inside is_inside
joinedTurn joined_turn
kept-once kept_once
laid-onto laid_onto
laidWindow laid_window
layer-laws layer_laws
layerNumber layer_number
le-true le_true
length-one length_one
length-row length_row
length-unsaid length_unsaid
level-turned level_turned
lightedOf lighted_of
line-few line_few
line-is line_is
line-once line_once
lineAnswer line_answer
lineCause line_cause
lineDot line_dot
lineDots line_dots
lit-after recorded-lit_after
lit-down lit_down
litAfter lit_after
litAfter-at lit_after_at
litAfter-join lit_after-append
litAt lit_at
litBy lit_by
litBy-more lit_by_more
lowered-dots lowered_dots
made-along made_along
made-tall made_tall
map-laws map_laws
marks-more marks_more
maskLayer mask_layer
masked-decides Masked-Decides
negatesFirst negates_first
negatesSecond negates_second
newBitmap new_bitmap
next-dot next_dot
next-pair next_pair
next-record next_record
next-sign next_sign
no-cause no_cause
no-cause-in no_cause_in
no-dot no_dot
no-match no_match
noDots no_dots
not-here not_here
not-later not_later
not-spare not_spare
odd-more odd_more
once-apart once_apart
once-distinct once-Distinct
once-few once_few
once-sub once_sub
one-dot one_dot
oneToOne one_to_one
open-view open_view
ordered-++ Ordered-++
orders-handable orders_handable
orders-inside orders_inside
orders-same orders_same
orders-spans orders_Spans
orders-within orders_within
orders-world orders_world
outline-few outline_few
outline-once outline_once
outline-pairs outline_pairs
outlineDots outline_dots
outside-none outside_none
pair-few pair_few
pairDots pair_dots
pairs-distinct pairs-Distinct
pairs-few pairs_few
parts-joined parts_joined
parts-moved parts_moved
parts-origin parts_origin
past-kept past_kept
place-start place_start
place-turns place_turns
placeBelow place_below
printNumber print_number
r-is r_is
reachOf reach_of
recordOf record_of
recorded-join recorded-append
recorded-lit recorded_lit
refusalLine refusal_line
room-said room_said
row-answer line_answer-row_line
row-asked row_asked
row-dots row_dots
row-falls row_falls
row-few row_few
row-known row_known
row-peopled row_peopled
row-reach row_reach
row-short row_short
row-whole row_whole
rowAnswer row_answer
rowBytes row_bytes
rowDot row_dot
rowWritten row_written
row_written written-row_line
rule-laws rule_laws
same-inside same_inside
same-lit same_lit
same-marks same_marks
same-orders same_orders
same-shots same_shots
saturated-is saturated_is
seeks-first seeks_first
seeks-inward seeks_inward
seeks-next seeks_next
seeks-outward seeks_outward
semiAxis semi_axis
sets-copied sets_copied
sets-join sets-append
sets-one sets_one
sets-unsaid sets_unsaid
shape-few shape_few
shapeDots shape_dots
shift-near shift_near
shift-place shift_place
shift-reaches shift_reaches
shift-view shift_view
shiftLayer shift_layer
short-answer short_answer
short-line short_line
shotsThen shots_then
signed-sum signed_sum
signed-twice signed_twice
signed-zero signed_zero
signsOf signs_of
sized-limits sized-Limits
spanned-dots spanned_dots
spans-orders Spans_orders
spans-same Spans_same
spare-kept spare_kept
spares-stay spares_stay
step-near step_near
step-once step_once
step-turns step_turns
stepsMade steps_made
strike-closed strike_closed
strike-open strike_open
strikeAnswer strike_answer
strikeNumber strike_number
striker-laws striker_laws
strip-after strip_after
strip-join strip_join
strip-laws strip_laws
strip-none strip_none
stripMeaning strip_meaning
struck-all struck_all
struck-length struck_length
struck-one struck_one
take-used take_used
toward-apart toward_apart
toward-down toward_down
toward-up toward_up
turn-few turn_few
turn-once turn_once
turn-orders turn_orders
turnLayer turn_layer
turnNumber turn_number
turnThenShift turn_then_shift
turned-is turned_is
turned-joined turned_joined
turned-lit turned_Lit
turned-parts turned_parts
turnedOf turned_of
unturned-keep unturned_keep
unturned-swap unturned_swap
unturnedOf unturned_of
upright-from upright_from
upright-says upright_says
uprightOf upright_of
upward-from upward_from
upward-says upward_says
view-after view_after
view-below view_below
view-seen view-Seen
visible-few visible_few
whole-answer whole_answer
whole-line whole_line
window-is window_is
window-kept window_kept
windowBy window_by
windowNumber window_number
windowOf window_of
windowOf-framed window_of-Framed
within-negates within_negates
within-orders within_orders
world-orders world_orders
world-parts world_parts
worth-is worth_is
"""


def table():
    pairs = [line.split() for line in TABLE.split("\n") if line]
    names = dict(pairs)
    if len(names) != len(pairs) or len(set(names.values())) != len(pairs):
        raise SystemExit("respell: two names fall together")
    return names


def main():
    names = table()
    files = sorted(glob.glob("crates/*/src/*.rt"))
    for part in ("specs", "proofs"):
        files += sorted(glob.glob(f"crates/*/{part}/**/*.antt", recursive=True))
    texts = {}
    for path in files:
        with open(path, encoding="utf-8") as file:
            texts[path] = file.read()
    word = re.compile(r"[^\s(){},.;`\"]+")
    seen = {w for text in texts.values() for w in word.findall(text)}
    if "litAfter" not in seen:
        raise SystemExit("respell: this tree is respelled already")
    taken = sorted(v for v in names.values() if v in seen and v not in names)
    changed = 0
    for path, text in texts.items():
        after = word.sub(lambda m: names.get(m.group(0), m.group(0)), text)
        if after != text:
            changed += 1
            with open(path, "w", encoding="utf-8") as file:
                file.write(after)
    print(f"respell: {len(names)} names, {changed} files changed")
    print("respell: also the name of something else (a Rust function, a local):", ", ".join(taken))


if __name__ == "__main__":
    main()
