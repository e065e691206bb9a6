#!/usr/bin/env python3
"""Gives the repository's own definitions and lemmas the spelling of today's Rattle: words in snake case, a dash only between two names.

usage: tools/respell.py [DIR]     once, at the root DIR of a repository (default: the current folder), right after the kit's own
                                  port script; it also renames the crate `bytes`, which is a library of the kit now, to `octets`,
                                  and lays the files out again

A name is changed wherever it stands as a whole: in specs/, in proofs/, in the clauses of src/ and in must-fail edits. Functions of
src/, strings, inputs and outputs keep their names.
"""
import os
import re
import subprocess
import sys

NAMES = """
aReading a_reading
afterLose after_lose
afterPut after_put
afterRepeat after_repeat
afterTake after_take
airBelow air_below
all-from-nth all_from_nth
all-nth all_nth
all-overtaken all_overtaken
always-fixed always_fixed
always-holds always_holds
always-lawful always_lawful
anOrder an_order
answer-free answer_free
answer-tight answer_tight
answerRefusal answer_refusal
answerUnless answer_unless
bare-from bare_from
bareBytes bare_bytes
bareIn bare_in
barred-at barred_at
barred-more barred_more
barred-suc barred_suc
before-frame before_frame
below-bound below_bound
bounded-answered bounded_answered
by-fault by_fault
by-fit by_fit
by-header by_header
by-refusal by_refusal
bytes-capped bytes_capped
bytes-number16 bytes_number16
bytes-number32 bytes_number32
call-fixed call_fixed
call-keeps call_keeps
capped-fine capped_fine
carriedIn carried_in
caseI-heard case_i_heard
caseI-written case_i_written
caseJ-heard case_j_heard
caseJ-written case_j_written
caseK-heard case_k_heard
caseK-made case_k_made
caseK-number case_k_number
caseK-place case_k_place
caseK-refused case_k_refused
check-changed check_changed
closed-up closed_up
count-capped count_capped
count-here count_here
count-is count_is
count-there count_there
count-tight count_tight
countAt count_at
counted-at-most counted_at_most
cycled-from cycled_from
each-overtaken each_overtaken
each-push each_push
each-without each_without
elementFrom element_from
elementInto element_into
emptyAir empty_air
faultOf fault_of
fine-fresh fine_fresh
firstCause first_cause
firstFault first_fault
folded-apart folded_apart
folded-carry folded_carry
folded-small folded_small
folded-turn folded_turn
frameBytes frame_bytes
frameIn frame_in
frames-closed frames_closed
frames-fresh frames_fresh
frames-overtaken frames_overtaken
frames-raised frames_raised
frames-removed frames_removed
frames-same frames_same
frames-written frames_written
framesIn frames_in
free-below free_below
free-there free_there
fromParts from_parts
front-again front_again
front-more front_more
front-next front_next
front-sealed front_sealed
genuine-push genuine_push
getD-frames get_or_frames
header-back header_back
headerBytes header_bytes
headerCauses header_causes
headerIn header_in
headerOf header_of
hearFrom hear_from
heard-back heard_back
held-answer held_answer
held-lost held_lost
held-repeat held_repeat
held-repeated held_repeated
held-step held_step
held-take held_take
held-through held_through
in-range in_range_lem
inSequence in_sequence
isMarked is_marked
isSealed is_sealed
joined-tight joined_tight
kept-departed kept_departed
kept-falls kept_falls
kept-length kept_length
kept-lost kept_lost
kept-repeated kept_repeated
kept-rises kept_rises
kept-serial kept_serial
kept-start kept_start
kept-stays kept_stays
kept-taken kept_taken
laden-from laden_from
ladenIn laden_in
length-frames length_frames
length-sealed length_sealed
length-tight length_tight
lose-fixed lose_fixed
lose-keeps lose_keeps
lose-oldest lose_oldest
lose-tight lose_tight
loseStep lose_step
lost-tight lost_tight
madeFrom made_from
marked-length marked_length
no-frame no_frame
none-some none_some
not-barred not_barred
noteBytes note_bytes
nth-push nth_push
nth-within nth_within
number-bytes16 number_bytes16
occurrences-push occurrences_push
older-more older_more
oldest-at-most oldest_at_most
oldest-most oldest_most
oldestCount oldest_count
onCycle on_cycle
one-byte-safe one_byte_safe
onesSum ones_sum
only-read only_read
only-written only_written
order-only order_only
orderCoding order_coding
orderFields order_fields
orderTagged order_tagged
orderValue order_value
orderWritten order_written
outOfRange out_of_range
overtaken-from overtaken_from
overtakings-fall overtakings_fall
overtakings-none overtakings_none
partsSeen parts_seen
passes-fall passes_fall
pastCycle past_cycle
place-free place_free
place-tight place_tight
placeBefore place_before
placeRefusal place_refusal
placeShown place_shown
pool-sound pool_sound
poolState pool_state
put-fixed put_fixed
put-free put_free
put-refusal-tight put_refusal_tight
put-tight put_tight
putRefusal put_refusal
putStep put_step
raised-frames raised_frames
raised-more raised_more
raised-rest raised_rest
raisedEntry raised_entry
read-laws read_laws
readFrom read_from
reading-only reading_only
readingCoding reading_coding
readingFields reading_fields
readingParts reading_parts
readingValue reading_value
readingWritten reading_written
reads-back reads_back
reads-header reads_header
reasonOf reason_of
refusalIn refusal_in
refusalOf refusal_of
repeat-fixed repeat_fixed
repeat-keeps repeat_keeps
repeat-tight repeat_tight
repeatStep repeat_step
repeated-tight repeated_tight
rfcBytes rfc_bytes
rfcCheck rfc_check
rfcSum rfc_sum
roomRefusal room_refusal
row-overtaken row_overtaken
row-passing row_passing
rows-answered rows_answered
rows-found rows_found
rows-length rows_length
rows-overtaken rows_overtaken
rows-push rows_push
rows-rise rows_rise
rows-with rows_with
rows-without rows_without
safe-read safe_read
said-from said_from
same-list same_list
same-refusal same_refusal
sealed-back sealed_back
sealed-check sealed_check
sealed-whole sealed_whole
sealedBytes sealed_bytes
senderByte sender_byte
serialAt serial_at
shelf-sound shelf_sound
shelfState shelf_state
shownOf shown_of
sizeRefusal size_refusal
slotCount slot_count
slotState slot_state
smallest-first smallest_first
step-tight step_tight
stepUnless step_unless
tableState table_state
take-fixed take_fixed
take-heads take_heads
take-keeps take_keeps
take-tight take_tight
takeStep take_step
tight-sound tight_sound
tightState tight_state
turned-length turned_length
turned-older turned_older
turned-younger turned_younger
unless-lowered unless_lowered
wasLost was_lost
wasRepeated was_repeated
wasTaken was_taken
withAir with_air
withElement with_element
withFrame with_frame
withWaiting with_waiting
within-overtaken within_overtaken
wordSum word_sum
wordSum-more word_sum_more
wordSum-set word_sum-set
writeInto write_into
written-frame written_frame
written-here written_here
written-length written_length
written-older written_older
written-parts written_parts
written-size written_size
writtenUnless written_unless
wrote-element wrote_element
wrote-laden wrote_laden
younger-more younger_more
"""

# Lemmas that would now have the name of the definition that they are about; in proofs alone.
LEMMAS = """
count_at count_at_lem
get_d_part get_or_part
"""

CRATE, CALLED = "bytes", "octets"


def table(text):
    return dict(line.split() for line in text.split("\n") if line)


def turn(text, names):
    """Each whole name of the table by its new one; a name goes on over letters, digits, `_`, `-` and `'`."""
    return re.sub(r"[A-Za-z_][A-Za-z0-9_']*(?:-[A-Za-z0-9_']+)*", lambda m: names.get(m.group(0), m.group(0)), text)


def move_crate(root):
    """The crate under its new name: its folder, the paths that name it, and its lines in crates.txt."""
    crates = os.path.join(root, "crates")
    if os.path.isdir(os.path.join(crates, CRATE)):
        os.rename(os.path.join(crates, CRATE), os.path.join(crates, CALLED))
    listed = os.path.join(root, "crates.txt")
    with open(listed, encoding="utf-8") as f:
        lines = f.read()
    lines = re.sub(rf"(?m)^(?!#)(.*)$", lambda m: re.sub(rf"\b{CRATE}\b", CALLED, m.group(0)), lines)
    with open(listed, "w", encoding="utf-8") as f:
        f.write(lines)


def main():
    root = sys.argv[1] if len(sys.argv) > 1 else "."
    names, lemmas = table(NAMES), table(NAMES) | table(LEMMAS)
    move_crate(root)
    crates = os.path.join(root, "crates")
    for folder, below, files in os.walk(crates):
        below[:] = sorted(d for d in below if d != "out")
        for name in sorted(files):
            if not name.endswith((".rt", ".antt", ".edit")):
                continue
            path = os.path.join(folder, name)
            with open(path, encoding="utf-8") as f:
                old = f.read()
            new = turn(old, lemmas if f"{os.sep}proofs{os.sep}" in path else names)
            new = new.replace(f"Rattle.{CRATE}.", f"Rattle.{CALLED}.")
            new = re.sub(rf"(?m)^((?:\s*)(?:pub )?use ){CRATE}::", rf"\g<1>{CALLED}::", new)
            if new != old:
                with open(path, "w", encoding="utf-8") as f:
                    f.write(new)
    for crate in sorted(os.listdir(crates)):
        if os.path.isdir(os.path.join(crates, crate, "src")):
            subprocess.run(["rt", "fmt"], cwd=os.path.join(crates, crate), stdout=subprocess.DEVNULL, check=False)


if __name__ == "__main__":
    main()
