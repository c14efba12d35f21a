#!/usr/bin/env python3
"""Respells this repository's own definitions and lemmas, once, after /opt/rattle/port/port.py.

usage: python3 tools/respell.py     at the repository's top

Words go into snake case and types into camel case. The table has every name that changes, the old spelling and the new one; it
was made from the names that specs/ and proofs/ declare. Only whole names are replaced: in .antt files outside comments and
strings, in .rt files inside `ghost use` lines, ghost members and clauses alone. No name of src/ is touched.
"""

import pathlib
import re
import sys

TABLE = """
Adds-up AddsUp
All-lawful AllLawful
All-obeyed AllObeyed
All-right AllRight
Always-volume AlwaysVolume
As-booked AsBooked
Calls-obey CallsObey
Deal-fits DealFits
Deal-within DealWithin
Deals-fit DealsFit
Fair-shares FairShares
Figures-fit FiguresFit
Goes_on GoesOn
Is-one IsOne
Kinds-numbered KindsNumbered
Lawful-in LawfulIn
Ledgers-fit LedgersFit
Listing-within ListingWithin
Majors-cover MajorsCover
None-below-zero NoneBelowZero
Nothing-lost NothingLost
Refused-by RefusedBy
Repricing-within RepricingWithin
Row-fits RowFits
Row-within RowWithin
Rows-fit RowsFit
Rows-within RowsWithin
Runs-obey RunsObey
Runs-tell RunsTell
Same-totals SameTotals
Series-obeys SeriesObeys
Set-off-holds SetOffHolds
Set-off-law SetOffLaw
Shared-fairly SharedFairly
Shares-fit SharesFit
Worked-by-hand WorkedByHand
a-deal a_deal
above-fits above_fits
abs-minus abs_minus
abs-mul abs_mul
abs-plus abs_plus
accepted-calls accepted_calls
additional-exchanged additional_exchanged
additional-fits additional_fits
additional-margin additional_margin
after-of after_of
afters-fit afters_fit
afters-le afters_le
afters-summed afters_summed
all-as-expected all_as_expected
all-markets all_markets
all-members all_members
all-seats all_seats
all-stage all_stage
always-volume always_volume
among-codes among_codes
among-push among_push
among-read among_read
answer-number answer_number
answer-numbers answer_numbers
any-no-volume any_no_volume
apart-push apart_push
balance-fits balance_fits
balance-units balance_units
balance-zloty balance_zloty
before-is before_is
befores-fit befores_fit
below-fits below_fits
below-is below_is
below-mono below_mono
below-zero below_zero
booked-all booked_all
booked-rows booked_rows
booked-told booked_told
booked-within booked_within
booking-checks booking_checks
booking-decided booking_decided
booking-kept booking_kept
bookings-by bookings_by
both-sides both_sides
by-sequence by_sequence
call-obeys call_obeys
call-texts call_texts
called-by called_by
calls-obey calls_obey
calls-of calls_of
calls-total calls_total
ceiling-of ceiling_of
changed-told changed_told
claims-from claims_from
claims-shared claims_shared
code-booked code_booked
code-listed code_listed
codes-kept codes_kept
codes-listed codes_listed
contents-bytes contents_bytes
contents-checks contents_checks
cost-dealt cost_dealt
cost-moved cost_moved
cost-within cost_within
cut-is cut_is
cut-le cut_le
day-ledger day_ledger
day-lines day_lines
day-texts day_texts
deal-bytes deal_bytes
deal-read deal_read
deal-size deal_size
deal-told deal_told
deal-within deal_within
deals-fit deals_fit
deals-start deals_start
deals-tag deals_tag
dealt-net dealt_net
dealt-row dealt_row
dealt-within dealt_within
directed-fits directed_fits
division-of division_of
done-if done_if
done-turned done_turned
each-capped each_capped
each-given each_given
each-need each_need
each-once each_once
eight-flat eight_flat
eight-seats eight_seats
event-call event_call
event-checks event_checks
exchangeℤ exchange_ℤ
fair-proportion fair_proportion
fair-sequence fair_sequence
fair-shares fair_shares
fault-numbers fault_numbers
faults-by faults_by
field-outside field_outside
field-within field_within
fields-text fields_text
figures-fit figures_fit
figures-obeyed figures_obeyed
flat-at flat_at
floor-fits floor_fits
floor-high floor_high
floor-low floor_low
floor-mono floor_mono
floor-of floor_of
floors-high floors_high
floors-low floors_low
found-clear found_clear
four-in-a-series four_in_a_series
fresh-told fresh_told
front-more front_more
front-none front_none
full-order full_order
getD-made getD_made
getD-mapped getD_mapped
good-entry good_entry
gross-is gross_is
gross-margin gross_margin
gross-of gross_of
has-tag has_tag
has-volume has_volume
high-net high_net
history-more history_more
holding-is holding_is
holding-of holding_of
holding-with holding_with
in-force in_force
in-limit in_limit
in-limits in_limits
in-proportion in_proportion
in-seats in_seats
in-stage in_stage
in-turn in_turn
in-units in_units
is-clear is_clear
is-listed is_listed
is-struck is_struck
kinds-numbered kinds_numbered
least-file least_file
ledger-after ledger_after
ledger-of ledger_of
ledgers-fit ledgers_fit
length-made length_made
length-order length_order
length-shares length_shares
length-shares-after length_shares_after
length-weights length_weights
limit-kept limit_kept
line-text line_text
line-with line_with
lines-found lines_found
lines-text lines_text
listed-row listed_row
listed-so listed_so
listed-told listed_told
listed-within listed_within
listing-bytes listing_bytes
listing-of listing_of
listing-read listing_read
listing-within listing_within
load-answer load_answer
load-faults load_faults
load-numbers load_numbers
long-claims long_claims
low-net low_net
made-from made_from
made-same made_same
major-at major_at
major-is major_is
major-share major_share
major-volume major_volume
majors-cover majors_cover
map-made map_made
margin-after margin_after
margin-answer margin_answer
margin-at margin_at
margin-before margin_before
margin-call margin_call
margin-checks margin_checks
margin-fits margin_fits
margin-is margin_is
margin-lines margin_lines
margin-made margin_made
margin-of margin_of
margin-with margin_with
margins-after margins_after
margins-before margins_before
margins-exchanged margins_exchanged
margins-found margins_found
margins-in margins_in
mark-bytes mark_bytes
mark-size mark_size
market-back market_back
market-number market_number
market-numbered market_numbered
market-within market_within
marks-end marks_end
marks-start marks_start
marks-tag marks_tag
may-share may_share
members-set members_set
members-told members_told
minor-surplus minor_surplus
minor-volume minor_volume
most-amount most_amount
most-code most_code
most-cost most_cost
most-file most_file
most-lots most_lots
most-market most_market
most-members most_members
most-needs most_needs
most-price most_price
most-risk most_risk
most-series most_series
most-side most_side
most-size most_size
most-total most_total
most-volume most_volume
most-weight most_weight
named-most named_most
named-once named_once
need-above need_above
need-at need_at
need-capped need_capped
need-fits need_fits
need-of need_of
needed-by needed_by
needed-fits needed_fits
needed-is needed_is
net-at net_at
net-dealt net_dealt
net-from net_from
net-is net_is
net-margin net_margin
net-margin-of net_margin_of
net-of net_of
net-other net_other
net-position net_position
net-upto net_upto
net-volume net_volume
never-refused never_refused
new-cost new_cost
new-volume new_volume
no-fault no_fault
no-margin no_margin
no-volume no_volume
no-volume-of no_volume_of
no-weight no_weight
none-below-zero none_below_zero
none-flat none_flat
none-mapped none_mapped
none-plus none_plus
none-refused none_refused
noneℤ none_ℤ
not-among not_among
not-listing not_listing
not-moving not_moving
not-paying not_paying
not-repricing not_repricing
nothing-lost nothing_lost
old-line old_line
once-at once_at
one-listing one_listing
open-checks open_checks
opened-kept opened_kept
opening-checks opening_checks
or-none or_none
order-apart order_apart
order-at order_at
order-once order_once
over-lines over_lines
over-linesℤ over_lines_ℤ
over-more over_more
owed-by owed_by
owed-is owed_is
owners-apart owners_apart
owners-are owners_are
part-dealt part_dealt
part-is part_is
part-told part_told
past-limit past_limit
past-limits past_limits
place-from place_from
place-more place_more
place-on place_on
plain-answer plain_answer
plain-numbers plain_numbers
plusℤ plus_ℤ
portion-capped portion_capped
portion-fits portion_fits
portion-is portion_is
portion-mono portion_mono
portion-none portion_none
portion-whole portion_whole
portion-zero portion_zero
position-answer position_answer
position-checks position_checks
position-figures position_figures
priced-row priced_row
print-number print_number
printed-for printed_for
product-within product_within
rate-fits rate_fits
rate-of rate_of
records-kept records_kept
records-of records_of
refusal-at refusal_at
refusal-for refusal_for
refusal-text refusal_text
refused-not-taken refused_not_taken
refused-obeyed refused_obeyed
refused-record refused_record
relief-is relief_is
relief-le relief_le
relief-of relief_of
reopening-checks reopening_checks
repeated-read repeated_read
report-held report_held
report-line report_line
report-of report_of
report-text report_text
report-written report_written
repriced-row repriced_row
repriced-to repriced_to
repriced-within repriced_within
repricing-read repricing_read
repricing-told repricing_told
repricing-within repricing_within
rest-stays rest_stays
row-at-push row_at_push
rows-counted rows_counted
rows-push rows_push
runs-obey runs_obey
runs-tell runs_tell
same-told same_told
same-volume same_volume
seats-apart seats_apart
section-number section_number
series-fifths series_fifths
series-obeys series_obeys
series-size series_size
series-tag series_tag
series-within series_within
served-all served_all
served-more served_more
set-either set_either
set-off set_off
set-off-answer set_off_answer
set-off-checks set_off_checks
set-off-held set_off_held
set-off-holds set_off_holds
set-off-law set_off_law
set-off-line set_off_line
set-off-lines set_off_lines
set-off-turned set_off_turned
set-off-written set_off_written
share-le share_le
share-told share_told
share-within share_within
shared-out shared_out
shares-after shares_after
shares-all shares_all
shares-are shares_are
shares-fit shares_fit
shares-from shares_from
shares-shown shares_shown
shares-told shares_told
short-grows short_grows
side-numbered side_numbered
sides-at sides_at
sides-made sides_made
sides-of sides_of
sides-summed sides_summed
sides-upto sides_upto
sizes-fit sizes_fit
so-far-is so_far_is
some-market some_market
some-side some_side
space-after space_after
spare-fits spare_fits
spared-is spared_is
spared-le spared_le
split-size split_size
stage-set stage_set
stage-told stage_told
strike-checks strike_checks
struck-two struck_two
surplus-at surplus_at
surplus-is surplus_is
take-set take_set
taken-figures taken_figures
texts-by texts_by
three-deals three_deals
three-member-day three_member_day
times-counting times_counting
times-drop times_drop
told-shares told_shares
total-append total_append
total-by-place total_by_place
total-le total_le
total-made-more total_made_more
total-made-none total_made_none
total-mapped total_mapped
total-more total_more
total-needs total_needs
total-plus total_plus
total-read total_read
total-same total_same
total-scale total_scale
total-set total_set
total-surplus total_surplus
total-within total_within
totalℤ total_ℤ
totalℤ-append total_ℤ_append
totalℤ-made total_ℤ_made
totalℤ-made-more total_ℤ_made_more
totalℤ-made-none total_ℤ_made_none
totalℤ-same total_ℤ_same
totalℤ-within total_ℤ_within
turn-absent turn_absent
turn-first turn_first
turn-full turn_full
turn-within turn_within
turns-total turns_total
units-a-grosz units_a_grosz
units-a-zloty units_a_zloty
units-fit units_fit
units-summed units_summed
unlisted-code unlisted_code
unopened-told unopened_told
upto-more upto_more
upto-none upto_none
upto-same upto_same
upto-tail upto_tail
uptoℤ upto_ℤ
uptoℤ-more upto_ℤ_more
volume-at volume_at
volume-dealt volume_dealt
volume-fits volume_fits
volume-is volume_is
volume-moved volume_moved
volume-within volume_within
weighed-ok weighed_ok
weight-at weight_at
weights-are weights_are
weights-of weights_of
with-net with_net
with-share with_share
within-cost within_cost
within-volume within_volume
without-volume without_volume
worth-of worth_of
wrong-deal wrong_deal
wrong-listing wrong_listing
wrong-record wrong_record
wrong-records wrong_records
wrong-repricing wrong_repricing
"""

NAMES = dict(row.split() for row in TABLE.strip().splitlines())
TOKEN = re.compile(r"[A-Za-z0-9_\u2124\u2115\u207a'\u2032\u00b7-]+")
SKIP = re.compile(r'"[^"\n]*"|--[^\n]*')
GHOST = re.compile(r"\bghost use [^;]*;|\bghost \w+\s*[:=]\s*\{|\b(?:requires|ensures)\*?(?: \w+)? \{")


def respell(text):
    return TOKEN.sub(lambda m: NAMES.get(m.group(0), m.group(0)), text)


def antt(text):
    """The text with its names respelled, comments and strings as they were."""
    out, at = [], 0
    for m in SKIP.finditer(text):
        out += [respell(text[at : m.start()]), m.group(0)]
        at = m.end()
    return "".join(out) + respell(text[at:])


def close(text, at):
    """The place behind the brace that closes the one before `at`."""
    depth = 1
    while depth and at < len(text):
        depth += {"{": 1, "}": -1}.get(text[at], 0)
        at += 1
    return at


def source(text):
    out, at = [], 0
    while m := GHOST.search(text, at):
        line = text.rfind("\n", 0, m.start()) + 1
        if "//" in text[line : m.start()]:
            out.append(text[at : m.end()])
            at = m.end()
            continue
        end = m.end() if m.group(0).endswith(";") else close(text, m.end())
        out += [text[at : m.start()], respell(text[m.start() : end])]
        at = end
    return "".join(out) + text[at:]


def main():
    top = pathlib.Path("crates")
    if not top.is_dir():
        sys.exit("run it at the repository's top")
    changed = 0
    for path in sorted(top.rglob("*")):
        if "out" in path.parts or path.suffix not in (".rt", ".antt"):
            continue
        old = path.read_text(encoding="utf-8")
        new = antt(old) if path.suffix == ".antt" else source(old)
        if new != old:
            path.write_text(new, encoding="utf-8")
            changed += 1
    print(f"respell: {len(NAMES)} names, {changed} files changed")


if __name__ == "__main__":
    main()
