/* Boltraven: a duty-rota core. Every function is total: whatever is passed, it answers, and what it refuses it leaves as it was lent.

   Slices. A list is lent by its address and its number of elements, side by side: `const uint32_t *starts, size_t starts_len`. The address
   must hold that many elements, and must not be null even for none; what may be written must not overlap anything else that is lent. A
   count of things beside it (`slots`, `people`, `count`) says how many of the elements are meant; a list that has fewer is refused by 2.
   Elements past those meant, and bits of a set at or past its length, make no difference and are never written.

   Sets. A set of slots is 16 words: slot i is bit i mod 64 of word i div 64. Sets of several people (`avail`, `sets`, `words`) stand one
   after the other in person order; `people` says how many there are and `person` whose is meant. One set alone (`frozen`) is 16 words.

   Answers. A function that returns uint8_t gives 0, or the number of the refusal, 1 to 13; what it was asked for stands in the lists
   and behind the addresses (`uint64_t *out`), which stay as they were where it refuses. One that returns uint64_t gives what was asked
   (below 65,536), or BOLTRAVEN_NOTHING, or BOLTRAVEN_NOTHING + n for the refusal n; but the nine that can give 10 (the two recounts, assign,
   the two plays, begin_recording, replay_block, way_back, run_job), and read_block, return 0, or the refusal with its place in one uint64_t,
   which the macros below take apart; read_block, replay_block and way_back may answer BOLTRAVEN_NOTHING too. A date, a weekday and a job's
   end are plain numbers.

   Refusals. Where several apply the lowest number is given, but 13 before all.
      1  A count is outside its limits, or a set is longer than 1,024 slots.
      2  A lent buffer is shorter than needed.
      3  A base slot is empty or reversed, ends after minute 100,000,000, or starts before the previous one ends.
      4  A range starts after its end, ends after minute 100,000,000, or names an unknown person.
      5  More than 1,024 atomic slots result, or a store of settings has no room.
      6  A capacity is no number from 0 to 1,000, or prior minutes are above 100,000,000.
      7  Fairness, lock, boundary, every-count, weekday mask, shift days, cap or rest are outside their limits.
      8  An unrounded target is not finite, or of size 2^40 or more.
      9  Lent slots are empty, reversed, too late or overlap, or unit starts don't rise from 0 below the slot count.
     10  The recount fails: owners, units, sets, minutes and totals don't fit together.
     11  A slot, unit, person or index is not below its count, or no saved settings have the number.
     12  A person is to get a slot for which they aren't available.
     13  The job file, a recording or the store of settings breaks its layout or is too long.

   Where the recount fails, by its parts, which are checked in this order over the whole rota. The place is the lowest at fault; of a wrong
   set it is the lowest person, and the second number is that person's lowest slot.
     10.1  the slot's owner is unknown            10.4  the person's set is wrong at the slot that is the second number
     10.2  the slot's owner is not available      10.5  the person's minutes are wrong
     10.3  the unit has more than one owner       10.6  the stored total is wrong: place 0 is the uncovered minutes, 1 the count

   Settings go as six numbers.
     fairness  what a share is measured by: 0 capacity times the minutes a person is available for, 1 capacity times demand
     lock      0 each slot is a unit, 1 each rotation is, and changes hands whole
     boundary  how rotations begin: 0 every `value` slots (at most 1,024, 0 counts as 1), 1 on the weekdays of the mask `value`, bit 0 Monday
     edition   of the rule on the remainder of the targets: 0 edition 1, 1 edition 2, which hands it out minute by minute
     days      the length of a shift, at most 366, 0 counts as 1; it serves the two run lengths alone

   Draws, by the number drawn. One that names an unknown unit, or is 100 or more, chooses outside.
      0 to 34  unit `first` to person number `second` of those available for it
     35 to 59  units `first` and `second` change hands
     60 to 74  the run of unit `first` to person number `second` of the others available for it
     75 to 89  the runs of units `first` and `second` change hands
     90 to 99  the run of unit `first` takes the unit before it (`second` 1), or gives its first unit to that one's owner (`second` 0)

   Times are minutes of one plain count, with no zone: docs/TIME.md. All of this at length, with every check of a draw, the job file byte by
   byte and the listing: docs/REFERENCE.md. */
#ifndef BOLTRAVEN_H
#define BOLTRAVEN_H

#if !defined(__x86_64__) || defined(__ILP32__)
#error "Boltraven's library is for x86-64 Linux alone: build for that processor, and run under an emulator elsewhere"
#endif

#include <stdbool.h>
#include <stddef.h>
#include <stdint.h>

#ifdef __cplusplus
extern "C" {
#endif

/* A call needs at most 256 KiB of the caller's stack (boltraven_run_job the most); docs/STACK.md has the figure of each function. */

/* The version of this header; boltraven_version() answers the library's, which is to be the same. */
#define BOLTRAVEN_VERSION 400
#define BOLTRAVEN_VERSION_TEXT "0.4.0"

#define BOLTRAVEN_NOTHING 65536
#define BOLTRAVEN_EVERYTHING 131072
#define BOLTRAVEN_RUN 0
#define BOLTRAVEN_HOLE 1
#define BOLTRAVEN_DRAFT 0
#define BOLTRAVEN_PUBLISHED 1
#define BOLTRAVEN_NOBODY 255
#define BOLTRAVEN_SET_WORDS 16
#define BOLTRAVEN_TOTALS 2
#define BOLTRAVEN_UNCOVERED_MINUTES 0
#define BOLTRAVEN_UNASSIGNED_SLOTS 1
#define BOLTRAVEN_PEOPLE_MOST 32
#define BOLTRAVEN_SLOTS_MOST 1024
#define BOLTRAVEN_RANGES_MOST 1024
#define BOLTRAVEN_DRAWS_MOST 1024
#define BOLTRAVEN_FILE_MOST 49152
#define BOLTRAVEN_LISTING_MOST 65536

/* A draw: the number drawn, and the two numbers that choose. */
struct boltraven_draw {
    uint16_t draw;
    uint16_t first;
    uint16_t second;
};

/* What the nine functions that can give 10 answer, taken apart: the refusal's number, 0 for none; of 10 the part of the recount that failed,
   its place, and the second number of part 4. All three are 0 for the other refusals. */
#define BOLTRAVEN_NUMBER(refusal) ((uint8_t)((refusal) & 255))
#define BOLTRAVEN_PART(refusal) ((uint8_t)((refusal) >> 8 & 255))
#define BOLTRAVEN_PLACE(refusal) ((uint16_t)((refusal) >> 16 & 65535))
#define BOLTRAVEN_SECOND(refusal) ((uint16_t)((refusal) >> 32 & 65535))

/* What a refusal's number says, as a sentence; of another number NULL. */
static inline const char *boltraven_refusal_text(uint8_t number) {
    switch (number) {
    case 1: return "A count is outside its limits, or a set is longer than 1,024 slots.";
    case 2: return "A lent buffer is shorter than needed.";
    case 3: return "A base slot is empty or reversed, ends after minute 100,000,000, or starts before the previous one ends.";
    case 4: return "A range starts after its end, ends after minute 100,000,000, or names an unknown person.";
    case 5: return "More than 1,024 atomic slots result, or a store of settings has no room.";
    case 6: return "A capacity is no number from 0 to 1,000, or prior minutes are above 100,000,000.";
    case 7: return "Fairness, lock, boundary, every-count, weekday mask, shift days, cap or rest are outside their limits.";
    case 8: return "An unrounded target is not finite, or of size 2^40 or more.";
    case 9: return "Lent slots are empty, reversed, too late or overlap, or unit starts don't rise from 0 below the slot count.";
    case 10: return "The recount fails: owners, units, sets, minutes and totals don't fit together.";
    case 11: return "A slot, unit, person or index is not below its count, or no saved settings have the number.";
    case 12: return "A person is to get a slot for which they aren't available.";
    case 13: return "The job file, a recording or the store of settings breaks its layout or is too long.";
    default: return NULL;
    }
}

/* What a part of the recount says of its place, as a format for two numbers, BOLTRAVEN_PLACE and BOLTRAVEN_SECOND; of another part NULL. */
static inline const char *boltraven_fault_format(uint8_t part) {
    switch (part) {
    case 1: return "slot %u's owner is unknown";
    case 2: return "slot %u's owner is not available for it";
    case 3: return "unit %u has more than one owner";
    case 4: return "person %u's set is wrong at slot %u";
    case 5: return "person %u's minutes are wrong";
    case 6: return "stored total %u is wrong (0 is the uncovered minutes, 1 the unassigned slots)";
    default: return NULL;
    }
}

/* The library's version: ten thousand times the major number, a hundred times the minor one, and the patch. */
uint32_t boltraven_version(void);

/* ---- Sets: a row of words a person, of `len` slots. */

/* Whether slot i is a member: 1 or 0. */
uint64_t boltraven_contains(size_t people, size_t len, const uint64_t *words, size_t words_len, size_t person, size_t i);

/* Whether there is no member: 1 or 0. */
uint64_t boltraven_is_empty(size_t people, size_t len, const uint64_t *words, size_t words_len, size_t person);

/* How many members there are. */
uint64_t boltraven_count(size_t people, size_t len, const uint64_t *words, size_t words_len, size_t person);

/* The first member at or after `from`, or nothing. */
uint64_t boltraven_next_set(size_t people, size_t len, const uint64_t *words, size_t words_len, size_t person, size_t from);

/* The last member at or before `from`, or nothing. */
uint64_t boltraven_prev_set(size_t people, size_t len, const uint64_t *words, size_t words_len, size_t person, size_t from);

/* The first slot after `from` that is no member, or nothing. */
uint64_t boltraven_next_unset_after(size_t people, size_t len, const uint64_t *words, size_t words_len, size_t person, size_t from);

/* The last slot before `from` that is no member, or nothing. */
uint64_t boltraven_prev_unset_before(size_t people, size_t len, const uint64_t *words, size_t words_len, size_t person,
                                     size_t from);

/* The stretch that holds slot i, both ends in it: BOLTRAVEN_RUN of members, BOLTRAVEN_HOLE of slots below `len` that are none, or nothing
   where i is not below `len`. */
uint64_t boltraven_run_bounds(size_t people, size_t len, const uint64_t *words, size_t words_len, size_t person, size_t i,
                              uint64_t *first, uint64_t *last);

/* The next run from the cursor on, and the cursor one past it: 0, or nothing. */
uint64_t boltraven_next_run(size_t people, size_t len, const uint64_t *words, size_t words_len, size_t person, size_t cursor,
                            uint64_t *first, uint64_t *last, uint64_t *next);

/* The next member from the cursor on, and the cursor one past it: 0, or nothing. */
uint64_t boltraven_next_member(size_t people, size_t len, const uint64_t *words, size_t words_len, size_t person, size_t cursor,
                               uint64_t *at, uint64_t *next);

/* The row with slot i. */
uint8_t boltraven_insert(size_t people, size_t len, uint64_t *words, size_t words_len, size_t person, size_t i);

/* The row without slot i. */
uint8_t boltraven_remove(size_t people, size_t len, uint64_t *words, size_t words_len, size_t person, size_t i);

/* Each slot from `from` up to `to`, without `to`, becomes as wanted. */
uint8_t boltraven_put_stretch(size_t people, size_t len, uint64_t *words, size_t words_len, size_t person, size_t from, size_t to,
                              bool want);

/* ---- One set: its 16 words and its length, without people and a person, so that a question asks two tests. */

/* Whether slot i is a member: 1 or 0. */
uint64_t boltraven_set_contains(size_t len, const uint64_t *words, size_t words_len, size_t i);

/* Whether there is no member: 1 or 0. */
uint64_t boltraven_set_is_empty(size_t len, const uint64_t *words, size_t words_len);

/* How many members there are. */
uint64_t boltraven_set_count(size_t len, const uint64_t *words, size_t words_len);

/* The first member at or after `from`, or nothing. */
uint64_t boltraven_set_next_set(size_t len, const uint64_t *words, size_t words_len, size_t from);

/* The last member at or before `from`, or nothing. */
uint64_t boltraven_set_prev_set(size_t len, const uint64_t *words, size_t words_len, size_t from);

/* The first slot after `from` that is no member, or nothing. */
uint64_t boltraven_set_next_unset_after(size_t len, const uint64_t *words, size_t words_len, size_t from);

/* The last slot before `from` that is no member, or nothing. */
uint64_t boltraven_set_prev_unset_before(size_t len, const uint64_t *words, size_t words_len, size_t from);

/* The stretch that holds slot i, as `boltraven_run_bounds` answers it. */
uint64_t boltraven_set_run_bounds(size_t len, const uint64_t *words, size_t words_len, size_t i, uint64_t *first, uint64_t *last);

/* The next member from the cursor on, and the cursor one past it: 0, or nothing. */
uint64_t boltraven_set_next_member(size_t len, const uint64_t *words, size_t words_len, size_t cursor, uint64_t *at, uint64_t *next);

/* ---- Runs in lists. */

/* All runs of a person, ascending: the first slot of each in one list, the last in the other, each with room for `len`; and how many. */
uint64_t boltraven_all_runs(size_t people, size_t len, const uint64_t *words, size_t words_len, uint16_t *firsts, size_t firsts_len,
                            uint16_t *lasts, size_t lasts_len, size_t person);

/* Everybody's runs, person by person and ascending: how many each person has, the first and the last slot of each run, and how many there
   are. The last two lists have room for `people` times `len`. */
uint64_t boltraven_every_run(size_t people, size_t len, const uint64_t *words, size_t words_len, uint16_t *counts, size_t counts_len,
                             uint16_t *firsts, size_t firsts_len, uint16_t *lasts, size_t lasts_len);

/* ---- Times: minute 0 is Thursday 1970-01-01 00:00. */

/* The date of a minute, in days from 1970-01-01 on. */
uint32_t boltraven_date_of(uint32_t minute);

/* The weekday of a date, 0 for Monday. */
uint32_t boltraven_weekday_of(uint32_t date);

/* ---- Slots, by starts and ends; ranges, by persons, opens and shuts. */

/* Each person's ranges, sorted and merged, and how many. */
uint64_t boltraven_merged_ranges(size_t people, size_t count, const uint16_t *persons, size_t persons_len,
                                 const uint32_t *opens, size_t opens_len, const uint32_t *shuts, size_t shuts_len,
                                 uint16_t *whose, size_t whose_len, uint32_t *froms, size_t froms_len,
                                 uint32_t *tos, size_t tos_len);

/* Base slots split at the ends of merged ranges, and how many slots came out: `froms` and `tos` need room for 1,024. */
uint64_t boltraven_atomise(size_t people, size_t slots, size_t count, const uint32_t *starts, size_t starts_len,
                           const uint32_t *ends, size_t ends_len, const uint16_t *persons, size_t persons_len,
                           const uint32_t *opens, size_t opens_len, const uint32_t *shuts, size_t shuts_len,
                           uint32_t *froms, size_t froms_len, uint32_t *tos, size_t tos_len);

/* Who is available for which slot, as a set a person. */
uint8_t boltraven_availability(size_t people, size_t slots, size_t count, const uint32_t *starts, size_t starts_len,
                               const uint32_t *ends, size_t ends_len, const uint16_t *persons, size_t persons_len,
                               const uint32_t *opens, size_t opens_len, const uint32_t *shuts, size_t shuts_len,
                               uint64_t *words, size_t words_len);

/* Whether a person is available for a slot: 1 or 0. */
uint64_t boltraven_is_available(size_t people, size_t slots, const uint64_t *avail, size_t avail_len, size_t person, size_t slot);

/* The people available for a slot, ascending, and how many. */
uint64_t boltraven_slot_domain(size_t people, size_t slots, const uint64_t *avail, size_t avail_len, uint8_t *list, size_t list_len,
                               size_t slot);

/* The minutes of one slot. */
uint8_t boltraven_slot_minutes(size_t slots, const uint32_t *starts, size_t starts_len, const uint32_t *ends, size_t ends_len,
                               size_t slot, uint64_t *out);

/* The minutes of all slots. */
uint8_t boltraven_demand(size_t slots, const uint32_t *starts, size_t starts_len, const uint32_t *ends, size_t ends_len,
                         uint64_t *out);

/* Marks each slot that ends by the instant in the set `frozen`; how many do. */
uint64_t boltraven_freeze_before(size_t slots, const uint32_t *starts, size_t starts_len, const uint32_t *ends, size_t ends_len,
                                 uint64_t *frozen, size_t frozen_len, uint32_t instant);

/* ---- Rotations and units, by the slots that begin them. */

/* The first slots of the rotations, and how many. */
uint64_t boltraven_rotation_starts(size_t slots, uint8_t fairness, uint8_t lock, uint8_t boundary, uint8_t edition, uint16_t value,
                                   uint16_t days, const uint32_t *starts, size_t starts_len, const uint32_t *ends, size_t ends_len,
                                   uint16_t *unit_starts, size_t unit_starts_len);

/* The first slots of the units, and how many: each slot one unlocked, each rotation one locked. */
uint64_t boltraven_unit_starts(size_t slots, uint8_t fairness, uint8_t lock, uint8_t boundary, uint8_t edition, uint16_t value,
                               uint16_t days, const uint32_t *starts, size_t starts_len, const uint32_t *ends, size_t ends_len,
                               uint16_t *unit_starts, size_t unit_starts_len);

/* The slots of a unit: `from` up to `to`, without `to`. */
uint8_t boltraven_unit_slots(size_t slots, size_t units, const uint16_t *unit_starts, size_t unit_starts_len, size_t unit,
                             uint64_t *from, uint64_t *to);

/* The unit of a slot. */
uint64_t boltraven_unit_of_slot(size_t slots, size_t units, const uint16_t *unit_starts, size_t unit_starts_len, size_t slot);

/* The people available for all slots of a unit, ascending, and how many. */
uint64_t boltraven_unit_domain(size_t people, size_t slots, size_t units, const uint64_t *avail, size_t avail_len,
                               const uint16_t *unit_starts, size_t unit_starts_len, uint8_t *list, size_t list_len, size_t unit);

/* Of every unit at once the people available for all its slots: a mask each, bit p for person p. There is room for as many as slots. */
uint8_t boltraven_unit_domains(size_t people, size_t slots, size_t units, const uint64_t *avail, size_t avail_len,
                               const uint16_t *unit_starts, size_t unit_starts_len, uint32_t *masks, size_t masks_len);

/* Whether any slot of a unit is frozen: 1 or 0. */
uint64_t boltraven_unit_frozen(size_t slots, size_t units, const uint16_t *unit_starts, size_t unit_starts_len,
                               const uint64_t *frozen, size_t frozen_len, size_t unit);

/* The distinct dates on which a minute of a slot falls; a slot that ends at midnight doesn't cover the next day. */
uint8_t boltraven_covered_days(size_t slots, const uint32_t *starts, size_t starts_len, const uint32_t *ends, size_t ends_len,
                               uint64_t *out);

/* Minutes a covered day. */
uint8_t boltraven_minutes_per_day(size_t slots, const uint32_t *starts, size_t starts_len, const uint32_t *ends, size_t ends_len,
                                  uint64_t *out);

/* How long a run is to be. */
uint8_t boltraven_target_run(size_t slots, uint8_t fairness, uint8_t lock, uint8_t boundary, uint8_t edition, uint16_t value,
                             uint16_t days, const uint32_t *starts, size_t starts_len, const uint32_t *ends, size_t ends_len, uint64_t *out);

/* The longest run that a person can have, up to the target run. */
uint8_t boltraven_achievable_run(size_t people, size_t slots, uint8_t fairness, uint8_t lock, uint8_t boundary, uint8_t edition,
                                 uint16_t value, uint16_t days, const uint32_t *starts, size_t starts_len, const uint32_t *ends,
                                 size_t ends_len, const uint64_t *avail, size_t avail_len, size_t person,
                                 uint64_t *out);

/* The same of everybody, one entry a person. */
uint8_t boltraven_achievable_runs(size_t people, size_t slots, uint8_t fairness, uint8_t lock, uint8_t boundary, uint8_t edition,
                                  uint16_t value, uint16_t days, const uint32_t *starts, size_t starts_len, const uint32_t *ends,
                                  size_t ends_len, const uint64_t *avail, size_t avail_len, uint64_t *runs, size_t runs_len);

/* ---- Targets. */

/* Each person's target, by capacity and prior minutes; they add up to the minutes of all slots. In edition 1 one may be negative. */
uint8_t boltraven_compute_targets(size_t people, size_t slots, uint8_t fairness, uint8_t edition,
                                  const uint32_t *starts, size_t starts_len, const uint32_t *ends, size_t ends_len,
                                  const uint64_t *avail, size_t avail_len, const double *capacities, size_t capacities_len,
                                  const uint32_t *priors, size_t priors_len, int64_t *out, size_t out_len);

/* ---- A rota: an owner a slot, everybody's set and minutes, and two totals: BOLTRAVEN_UNCOVERED_MINUTES, the minutes of the slots that
   nobody owns, and BOLTRAVEN_UNASSIGNED_SLOTS, how many these are. Whatever changes an owner keeps sets, minutes and totals true, and
   whatever is given a rota recounts them first; so the totals are read where they stand. */

/* A rota in which nobody owns a slot. */
uint8_t boltraven_empty(size_t people, size_t slots, const uint32_t *starts, size_t starts_len, const uint32_t *ends, size_t ends_len,
                        uint8_t *owners, size_t owners_len, uint64_t *sets, size_t sets_len, uint64_t *minutes, size_t minutes_len,
                        uint64_t *totals, size_t totals_len);

/* Sets, minutes and totals from owners. */
uint8_t boltraven_from_slots(size_t people, size_t slots, const uint32_t *starts, size_t starts_len,
                             const uint32_t *ends, size_t ends_len, const uint64_t *avail, size_t avail_len,
                             const uint8_t *owners, size_t owners_len, uint64_t *sets, size_t sets_len,
                             uint64_t *minutes, size_t minutes_len, uint64_t *totals, size_t totals_len);

/* A slot given to a person, or cleared by 255: 0, or the refusal with its place, never 10.3. */
uint64_t boltraven_assign(size_t people, size_t slots, const uint32_t *starts, size_t starts_len,
                          const uint32_t *ends, size_t ends_len, const uint64_t *avail, size_t avail_len,
                          uint8_t *owners, size_t owners_len, uint64_t *sets, size_t sets_len, uint64_t *minutes, size_t minutes_len,
                          uint64_t *totals, size_t totals_len, size_t slot, uint8_t owner);

/* The owner of a slot, 255 for nobody. */
uint64_t boltraven_owner_of_slot(size_t people, size_t slots, const uint8_t *owners, size_t owners_len, size_t slot);

/* A person's minutes. */
uint8_t boltraven_minutes_of(size_t people, const uint64_t *minutes, size_t minutes_len, size_t person, uint64_t *out);

/* How many slots nobody owns, counted by the owners; a rota has it stored. */
uint64_t boltraven_unassigned_count(size_t people, size_t slots, const uint8_t *owners, size_t owners_len);

/* The minutes of the slots that nobody owns, added up by the owners; a rota has them stored. */
uint8_t boltraven_uncovered_minutes(size_t people, size_t slots, const uint32_t *starts, size_t starts_len,
                                    const uint32_t *ends, size_t ends_len, const uint8_t *owners, size_t owners_len, uint64_t *out);

/* Whether owners, sets, minutes and totals fit together, and units have one owner each: 0, or the refusal with its place. */
uint64_t boltraven_recount(size_t people, size_t slots, size_t units, const uint32_t *starts, size_t starts_len,
                           const uint32_t *ends, size_t ends_len, const uint64_t *avail, size_t avail_len,
                           const uint16_t *unit_starts, size_t unit_starts_len, const uint8_t *owners, size_t owners_len,
                           const uint64_t *sets, size_t sets_len, const uint64_t *minutes, size_t minutes_len,
                           const uint64_t *totals, size_t totals_len);

/* The same, units aside: never 10.3. */
uint64_t boltraven_recount_slots(size_t people, size_t slots, const uint32_t *starts, size_t starts_len,
                                 const uint32_t *ends, size_t ends_len, const uint64_t *avail, size_t avail_len,
                                 const uint8_t *owners, size_t owners_len, const uint64_t *sets, size_t sets_len,
                                 const uint64_t *minutes, size_t minutes_len, const uint64_t *totals, size_t totals_len);

/* Whether a rota made elsewhere may be used: 0; or the first rule that it breaks, 1 owners known and available, 2 frozen slots as published, 3
   units uniform, 4 no shift longer than `cap` minutes, 5 no two shifts of one person closer than `rest`, with the lowest slot at which it
   shows behind the address. */
uint64_t boltraven_may_be_used(size_t people, size_t slots, size_t units, uint32_t cap, uint32_t rest, const uint32_t *starts,
                               size_t starts_len, const uint32_t *ends, size_t ends_len, const uint64_t *avail, size_t avail_len,
                               const uint16_t *unit_starts, size_t unit_starts_len, const uint64_t *frozen, size_t frozen_len,
                               const uint8_t *published, size_t published_len, const uint8_t *owners, size_t owners_len, uint64_t *slot);

/* Draws in three columns, played in order; an answer byte each: 0 acted, 1 no move, 2 choice outside. 0, or the refusal with its place. */
uint64_t boltraven_play(size_t people, size_t slots, size_t units, size_t count, const uint32_t *starts, size_t starts_len,
                        const uint32_t *ends, size_t ends_len, const uint64_t *avail, size_t avail_len,
                        const uint16_t *unit_starts, size_t unit_starts_len, const uint64_t *frozen, size_t frozen_len,
                        const uint16_t *draws, size_t draws_len, const uint16_t *firsts, size_t firsts_len,
                        const uint16_t *seconds, size_t seconds_len, uint8_t *owners, size_t owners_len,
                        uint64_t *sets, size_t sets_len, uint64_t *minutes, size_t minutes_len,
                        uint64_t *totals, size_t totals_len, uint8_t *answers, size_t answers_len);

/* The same of draws as structs. */
uint64_t boltraven_play_draws(size_t people, size_t slots, size_t units, size_t count, const uint32_t *starts, size_t starts_len,
                              const uint32_t *ends, size_t ends_len, const uint64_t *avail, size_t avail_len,
                              const uint16_t *unit_starts, size_t unit_starts_len, const uint64_t *frozen, size_t frozen_len,
                              const struct boltraven_draw *draws, size_t draws_len, uint8_t *owners, size_t owners_len,
                              uint64_t *sets, size_t sets_len, uint64_t *minutes, size_t minutes_len,
                              uint64_t *totals, size_t totals_len, uint8_t *answers, size_t answers_len);

/* A recorded block replayed: its draws in three columns beside their recorded answers, played in order, up to and with the first whose answer
   isn't the recorded one. 0, all agree. BOLTRAVEN_NOTHING, and `place` is the first that differs, from 0: it and the draws before it are
   played, those after it aren't. Else the refusal with its place: 13 for a recorded answer above 2, then those of a play; the rota is then as
   it was. The answers need no list: they are the recorded ones, but the one that differs. */
uint64_t boltraven_replay_block(size_t people, size_t slots, size_t units, size_t count, const uint32_t *starts, size_t starts_len,
                                const uint32_t *ends, size_t ends_len, const uint64_t *avail, size_t avail_len,
                                const uint16_t *unit_starts, size_t unit_starts_len, const uint64_t *frozen, size_t frozen_len,
                                const uint16_t *draws, size_t draws_len, const uint16_t *firsts, size_t firsts_len,
                                const uint16_t *seconds, size_t seconds_len, const uint16_t *recorded, size_t recorded_len,
                                uint8_t *owners, size_t owners_len, uint64_t *sets, size_t sets_len,
                                uint64_t *minutes, size_t minutes_len, uint64_t *totals, size_t totals_len, uint64_t *place);

/* A recording: a job's records, then draws (kind 8) with their recorded answers, a record of kind 9 after each block. How many of its bytes
   are the job's: all up to the first record of kind 8 or 9. The blocks are what follows. */
uint64_t boltraven_job_end(const uint8_t *bytes, size_t bytes_len);

/* A recording's job, prepared: all that replay_block goes by, and the targets, each from the front of its list, with the three counts. Starts,
   ends, unit starts and owners need room for BOLTRAVEN_SLOTS_MOST entries, `avail` and `sets` for BOLTRAVEN_SET_WORDS a person of
   BOLTRAVEN_PEOPLE_MOST, targets and minutes for BOLTRAVEN_PEOPLE_MOST, whatever the job is; they are written so far, with nothing (nobody in
   owners) past the job's own. 0, or the refusal with its place, as run_job gives it of the same file: of 10 only 10.3 comes; a draw (kind 7)
   is 13. */
uint64_t boltraven_begin_recording(const uint8_t *bytes, size_t bytes_len, uint32_t *starts, size_t starts_len,
                                   uint32_t *ends, size_t ends_len, uint64_t *avail, size_t avail_len,
                                   uint16_t *unit_starts, size_t unit_starts_len, uint64_t *frozen, size_t frozen_len,
                                   int64_t *targets, size_t targets_len, uint8_t *owners, size_t owners_len,
                                   uint64_t *sets, size_t sets_len, uint64_t *minutes, size_t minutes_len,
                                   uint64_t *totals, size_t totals_len, uint64_t *people, uint64_t *slots, uint64_t *units);

/* The block at the front of the bytes that follow a job or a block, where `blocks` were read before it: its draws and their recorded answers in
   four lists, as replay_block takes them. 0, with how many draws it has, and how many bytes, after which the next begins; BOLTRAVEN_NOTHING where
   no bytes are left. Else the refusal: 13 or 1, by the first faulty record (no draw or close, an answer above 2, the end before a close; the
   1,025th draw, or anything after 65,535 blocks); 2 where a list has no room for the draws. */
uint64_t boltraven_read_block(const uint8_t *bytes, size_t bytes_len, size_t blocks, uint16_t *draws, size_t draws_len,
                              uint16_t *firsts, size_t firsts_len, uint16_t *seconds, size_t seconds_len,
                              uint16_t *recorded, size_t recorded_len, uint64_t *count, uint64_t *next);

/* ---- Published and draft: two owner columns of one length over the same slots. A slot is read as published where it is frozen, as in the
   draft where not; draws are played on the draft alone. */

/* A slot's part: the slots from it up to the next change between frozen and not frozen, of the column BOLTRAVEN_PUBLISHED or
   BOLTRAVEN_DRAFT that is answered. It starts at that column's entry `slot` and has `*length` owners. */
uint64_t boltraven_stretch(size_t slots, const uint8_t *published, size_t published_len, const uint8_t *draft, size_t draft_len,
                           const uint64_t *frozen, size_t frozen_len, size_t slot, uint64_t *length);

/* The draft's owners of slots that aren't frozen, into the published column; no frozen slot is touched. */
uint8_t boltraven_publish(size_t slots, const uint8_t *draft, size_t draft_len, const uint64_t *frozen, size_t frozen_len,
                          uint8_t *published, size_t published_len);

/* The list screen: each slot's owner, frozen ones as published and others as in the draft, part by part. */
uint8_t boltraven_show(size_t slots, const uint8_t *published, size_t published_len, const uint8_t *draft, size_t draft_len,
                       const uint64_t *frozen, size_t frozen_len, uint8_t *shown, size_t shown_len);

/* A part by its address and its length, and the column that it is of. */
struct boltraven_part {
    const uint8_t *owners;
    size_t length;
    uint64_t column;
};

/* A slot's part itself: 0, or the number of the refusal, and then the part is empty. */
static inline uint8_t boltraven_part_of(size_t slots, const uint8_t *published, size_t published_len, const uint8_t *draft,
                                        size_t draft_len, const uint64_t *frozen, size_t frozen_len, size_t slot,
                                        struct boltraven_part *part) {
    uint64_t length = 0;
    const uint64_t column =
        boltraven_stretch(slots, published, published_len, draft, draft_len, frozen, frozen_len, slot, &length);
    part->length = (size_t)length;
    if (column > BOLTRAVEN_NOTHING) {
        part->owners = published;
        part->column = BOLTRAVEN_PUBLISHED;
        return (uint8_t)(column - BOLTRAVEN_NOTHING);
    }
    part->owners = (column == BOLTRAVEN_PUBLISHED ? published : draft) + slot;
    part->column = column;
    return 0;
}

/* ---- A store of settings: an area of bytes with its used length, which the caller keeps. Records stand one after the other in the used bytes,
   numbered from 1 in order of saving, at most 128. An area shorter than its used length is refused by 2, broken records by 13. */

/* How many records the store has. */
uint64_t boltraven_count_settings(const uint8_t *area, size_t area_len, size_t used);

/* Settings as one record more, in the twelve bytes after the used ones: its number, and the used length with it. A full store, or one with
   fewer bytes left, is refused by 5. */
uint8_t boltraven_save_settings(uint8_t *area, size_t area_len, size_t used, uint8_t fairness, uint8_t lock, uint8_t boundary,
                                uint8_t edition, uint16_t value, uint16_t days, uint64_t *number, uint64_t *new_used);

/* The settings saved under a number: 0, their six numbers being written; or 1 for a record of a kind newer than this library, and then the six
   stay as they were. A number of no record is refused by 11, figures outside their limits by 7. */
uint64_t boltraven_ask_settings(const uint8_t *area, size_t area_len, size_t used, size_t number, uint8_t *fairness, uint8_t *lock,
                                uint8_t *boundary, uint8_t *edition, uint16_t *value, uint16_t *days);

/* The way back to remembered owners, one byte a slot: for each unit whose owner differs a draw 0 to its remembered owner, ascending, in the three
   columns, which need room for as many entries as slots. 0, and `told` is how many draws were written: played, each acts, and the remembered
   owners are back. BOLTRAVEN_NOTHING, and `told` is the first unit that no draw gives back (its owner differs, and nobody owned it or it is
   frozen). Else the refusal with its place: 1, 2, 9, 10 of the rota; then of the remembered owners 10.3, 11, 12. */
uint64_t boltraven_way_back(size_t people, size_t slots, size_t units, const uint32_t *starts, size_t starts_len,
                            const uint32_t *ends, size_t ends_len, const uint64_t *avail, size_t avail_len,
                            const uint16_t *unit_starts, size_t unit_starts_len, const uint64_t *frozen, size_t frozen_len,
                            const uint8_t *remembered, size_t remembered_len, const uint8_t *owners, size_t owners_len,
                            const uint64_t *sets, size_t sets_len, const uint64_t *minutes, size_t minutes_len,
                            const uint64_t *totals, size_t totals_len, uint16_t *draws, size_t draws_len,
                            uint16_t *firsts, size_t firsts_len, uint16_t *seconds, size_t seconds_len, uint64_t *told);

/* Mends a damaged rota over slots, units and availability that are right: an owner who is unknown or not available for the slot is cleared; then
   a unit whose slots are not left with one owner is cleared whole; then sets, minutes and totals are worked out anew. How many repairs that took;
   each has five numbers in `list`, ascending by the first two: the part (0 owners, 1 words of the sets, 2 minutes, 3 totals), the place in it, the
   old and the new number, and 1 for a slot that is frozen, else 0. Refused by 1, 2, 9, and by 2 where `list` has no room for what came out (at most
   1,570 repairs): then nothing is written. */
uint64_t boltraven_mend(size_t people, size_t slots, size_t units, const uint32_t *starts, size_t starts_len, const uint32_t *ends,
                        size_t ends_len, const uint64_t *avail, size_t avail_len, const uint16_t *unit_starts, size_t unit_starts_len,
                        const uint64_t *frozen, size_t frozen_len, uint8_t *owners, size_t owners_len, uint64_t *sets, size_t sets_len,
                        uint64_t *minutes, size_t minutes_len, uint64_t *totals, size_t totals_len, uint64_t *list, size_t list_len);

/* Retires past weeks: the leading units of which every slot is frozen go, and the rest comes to the front. What each person owned of the slots that
   go is added to their `priors`, what nobody owned to `retired`, one number; `base` new slots, from `froms` up to `tos`, split over the `count`
   ranges, which are for them alone, come behind with nobody on them and not frozen, in units of their own. Sets, minutes and totals are then those
   of the slots now held. Starts, ends, unit starts and owners need room for 1,024 entries each. 0, and `told` is how many slots went (bits 0 to
   15), how many there are (16 to 31) and how many units (32 to 47); BOLTRAVEN_NOTHING where nothing would go, BOLTRAVEN_EVERYTHING where
   everything would, and then nothing is changed. Else the refusal with its place: 1 to 7, 9, 10. */
uint64_t boltraven_retire(size_t people, size_t slots, size_t units, size_t base, size_t count, uint8_t fairness, uint8_t lock,
                          uint8_t boundary, uint8_t edition, uint16_t value, uint16_t days, const uint32_t *froms, size_t froms_len,
                          const uint32_t *tos, size_t tos_len, const uint16_t *persons, size_t persons_len,
                          const uint32_t *opens, size_t opens_len, const uint32_t *shuts, size_t shuts_len,
                          uint32_t *starts, size_t starts_len, uint32_t *ends, size_t ends_len, uint64_t *avail, size_t avail_len,
                          uint16_t *unit_starts, size_t unit_starts_len, uint64_t *frozen, size_t frozen_len,
                          uint8_t *owners, size_t owners_len, uint64_t *sets, size_t sets_len, uint64_t *minutes, size_t minutes_len,
                          uint64_t *totals, size_t totals_len, uint32_t *priors, size_t priors_len, uint64_t *retired, size_t retired_len,
                          uint64_t *told);

/* A published column after it, by the slots before and the two numbers that retiring told: the rest comes to the front, nobody has the new slots. */
uint8_t boltraven_retire_column(size_t before, size_t gone, size_t count, uint8_t *column, size_t column_len);

/* ---- A whole job. */

/* A job file's listing, at the front of `out`, and its length; `out` needs room for BOLTRAVEN_LISTING_MOST bytes. 0, or the refusal with
   its place: of 10 only 10.3 comes. */
uint64_t boltraven_run_job(const uint8_t *file, size_t file_len, uint8_t *out, size_t out_len, uint64_t *length);

#ifdef __cplusplus
}
#endif

#endif
