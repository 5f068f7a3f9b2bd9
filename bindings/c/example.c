/* One base slot of two hours and two people: the slots after the split, who can cover which, targets, a rota, one draw played, and the
   listing that a job of the same numbers has. Then what a click on each of a person's slots shows, the list screen of a published and a
   draft column, whether the rota could have come from elsewhere with two caps on a shift, what is uncovered after a slot is cleared and given
   back, three refusals, two with their place, and at last the first hour retired, and a new one behind. */
#include <inttypes.h>
#include <stdio.h>
#include <stdlib.h>

#include "boltraven.h"

enum { PEOPLE = 2, RANGES = 2, DRAWS = 1, SLOTS = BOLTRAVEN_SLOTS_MOST, WORDS = PEOPLE * BOLTRAVEN_SET_WORDS };

/* What is planned: the slots, who can cover them, and the units. */
static uint32_t starts[SLOTS], ends[SLOTS];
static uint64_t avail[WORDS], frozen[BOLTRAVEN_SET_WORDS];
static uint16_t unit_starts[SLOTS];
static size_t slots, units;

/* The rota. */
static uint8_t owners[SLOTS];
static uint64_t sets[WORDS], minutes[PEOPLE], totals[BOLTRAVEN_TOTALS];
static int64_t targets[PEOPLE];

/* Ends the program where something is refused that should not be. */
static void done(const char *what, uint64_t refusal) {
    if (refusal == 0) return;
    fprintf(stderr, "%s: refused by %d: %s\n", what, BOLTRAVEN_NUMBER(refusal), boltraven_refusal_text(BOLTRAVEN_NUMBER(refusal)));
    exit(1);
}

/* A number that was asked for. */
static size_t answer(const char *what, uint64_t answered) {
    if (answered >= BOLTRAVEN_NOTHING) done(what, answered - BOLTRAVEN_NOTHING);
    return answered;
}

static void prepare(void) {
    const uint32_t base_starts[] = {0}, base_ends[] = {120};
    const uint16_t persons[RANGES] = {0, 1};
    const uint32_t opens[RANGES] = {0, 60}, shuts[RANGES] = {120, 180};
    const double capacities[PEOPLE] = {1.0, 1.0};
    const uint32_t priors[PEOPLE] = {0, 0};
    slots = answer("atomise", boltraven_atomise(PEOPLE, 1, RANGES, base_starts, 1, base_ends, 1, persons, RANGES, opens, RANGES, shuts,
                                                RANGES, starts, SLOTS, ends, SLOTS));
    done("availability", boltraven_availability(PEOPLE, slots, RANGES, starts, SLOTS, ends, SLOTS, persons, RANGES, opens, RANGES, shuts,
                                                RANGES, avail, WORDS));
    units = answer("unit_starts", boltraven_unit_starts(slots, 0, 0, 0, 0, 1, 1, starts, SLOTS, ends, SLOTS, unit_starts, SLOTS));
    done("compute_targets", boltraven_compute_targets(PEOPLE, slots, 0, 0, starts, SLOTS, ends, SLOTS, avail, WORDS, capacities,
                                                      PEOPLE, priors, PEOPLE, targets, PEOPLE));
}

/* Person 0 has both slots; the draw hands the second to the second of those who can cover it. */
static uint8_t play(void) {
    const struct boltraven_draw draws[DRAWS] = {{0, 1, 1}};
    uint8_t answers[DRAWS];
    owners[0] = owners[1] = 0;
    done("from_slots", boltraven_from_slots(PEOPLE, slots, starts, SLOTS, ends, SLOTS, avail, WORDS, owners, SLOTS, sets, WORDS, minutes,
                                            PEOPLE, totals, BOLTRAVEN_TOTALS));
    done("play_draws", boltraven_play_draws(PEOPLE, slots, units, DRAWS, starts, SLOTS, ends, SLOTS, avail, WORDS, unit_starts, SLOTS,
                                            frozen, BOLTRAVEN_SET_WORDS, draws, DRAWS, owners, SLOTS, sets, WORDS, minutes, PEOPLE, totals,
                                            BOLTRAVEN_TOTALS, answers, DRAWS));
    return answers[0];
}

static void list(uint8_t answered) {
    for (size_t k = 0; k < slots; k++) printf("S %zu %" PRIu32 " %" PRIu32 " %d\n", k, starts[k], ends[k], owners[k]);
    for (size_t p = 0; p < PEOPLE; p++) printf("P %zu %" PRIu64 " %" PRId64 "\n", p, minutes[p], targets[p]);
    printf("D 0 %c\n", "ANC"[answered]);
    printf("U %" PRIu64 "\n", totals[BOLTRAVEN_UNCOVERED_MINUTES]);
}

/* What holds a slot of a person's set: the whole run, or the whole hole. */
static void show(size_t person, size_t slot) {
    uint64_t first, last;
    const uint64_t held = boltraven_run_bounds(PEOPLE, slots, sets, WORDS, person, slot, &first, &last);
    if (held >= BOLTRAVEN_NOTHING) done("run_bounds", held - BOLTRAVEN_NOTHING);
    printf("%s %zu %" PRIu64 " %" PRIu64 "\n", held == BOLTRAVEN_HOLE ? "hole" : "run", person, first, last);
}

/* The list screen, part by part: slot 0 is frozen and read as published, the other as in the draft, which is the rota. */
static void screen(void) {
    const uint8_t published[] = {0, 0};
    const uint64_t today[BOLTRAVEN_SET_WORDS] = {1};
    struct boltraven_part part;
    for (size_t slot = 0; slot < slots; slot += part.length) {
        done("part_of", boltraven_part_of(slots, published, 2, owners, 2, today, BOLTRAVEN_SET_WORDS, slot, &part));
        printf("%s %zu", part.column == BOLTRAVEN_PUBLISHED ? "published" : "draft", slot);
        for (size_t k = 0; k < part.length; k++) printf(" %d", part.owners[k]);
        printf("\n");
    }
}

/* A slot given to a person, or cleared. */
static uint64_t assign(size_t slot, uint8_t owner) {
    return boltraven_assign(PEOPLE, slots, starts, SLOTS, ends, SLOTS, avail, WORDS, owners, SLOTS, sets, WORDS, minutes, PEOPLE, totals,
                            BOLTRAVEN_TOTALS, slot, owner);
}

/* What nobody holds, as it stands with the rota, after slot 0 is cleared and given back. */
static void clear(void) {
    const uint8_t wanted[] = {BOLTRAVEN_NOBODY, owners[0]};
    for (size_t k = 0; k < 2; k++) {
        done("assign", assign(0, wanted[k]));
        printf("uncovered %" PRIu64 " %" PRIu64 "\n", totals[BOLTRAVEN_UNCOVERED_MINUTES], totals[BOLTRAVEN_UNASSIGNED_SLOTS]);
    }
}

/* Gives slot 0 to person 1, and tells why not: of a failed recount the part, and where. */
static void refuse(void) {
    const uint64_t refusal = assign(0, 1);
    const uint8_t number = BOLTRAVEN_NUMBER(refusal), part = BOLTRAVEN_PART(refusal);
    if (part == 0) {
        printf("R %d: %s\n", number, boltraven_refusal_text(number));
    } else {
        printf("R %d.%d: ", number, part);
        printf(boltraven_fault_format(part), BOLTRAVEN_PLACE(refusal), BOLTRAVEN_SECOND(refusal));
        printf("\n");
    }
}

/* Whether the owners may be used if no shift may be longer than the cap. */
static void judge(uint32_t cap) {
    uint64_t slot;
    const size_t broken = answer("may_be_used", boltraven_may_be_used(PEOPLE, slots, units, cap, 0, starts, SLOTS, ends, SLOTS, avail, WORDS,
                                                                      unit_starts, SLOTS, frozen, BOLTRAVEN_SET_WORDS, owners, SLOTS,
                                                                      owners, SLOTS, &slot));
    if (broken == 0) {
        printf("usable\n");
    } else {
        printf("broken %zu %" PRIu64 "\n", broken, slot);
    }
}

/* The sets worked out anew; then the first hour is past: it goes to its owner's prior minutes, and an hour comes for which person 1 is there. */
static void roll(void) {
    const uint32_t froms[] = {120}, tos[] = {180}, opens[] = {120}, shuts[] = {180};
    const uint16_t persons[] = {1};
    uint32_t priors[PEOPLE] = {0, 0};
    uint64_t retired = 0, told;
    done("from_slots", boltraven_from_slots(PEOPLE, slots, starts, SLOTS, ends, SLOTS, avail, WORDS, owners, SLOTS, sets, WORDS, minutes,
                                            PEOPLE, totals, BOLTRAVEN_TOTALS));
    answer("freeze_before", boltraven_freeze_before(slots, starts, SLOTS, ends, SLOTS, frozen, BOLTRAVEN_SET_WORDS, 60));
    /* BOLTRAVEN_NOTHING and BOLTRAVEN_EVERYTHING don't come here: the first of two units is frozen */
    done("retire", boltraven_retire(PEOPLE, slots, units, 1, 1, 0, 0, 0, 0, 1, 1, froms, 1, tos, 1, persons, 1, opens, 1, shuts, 1, starts,
                                    SLOTS, ends, SLOTS, avail, WORDS, unit_starts, SLOTS, frozen, BOLTRAVEN_SET_WORDS, owners, SLOTS, sets,
                                    WORDS, minutes, PEOPLE, totals, BOLTRAVEN_TOTALS, priors, PEOPLE, &retired, 1, &told));
    slots = told >> 16 & 65535;
    units = told >> 32;
    printf("retired %d, now %zu in %zu units\n", (int)(told & 65535), slots, units);
    for (size_t k = 0; k < slots; k++) printf("S %zu %" PRIu32 " %" PRIu32 " %d\n", k, starts[k], ends[k], owners[k]);
    printf("priors %" PRIu32 " %" PRIu32 ", of nobody %" PRIu64 "\n", priors[0], priors[1], retired);
}

int main(void) {
    if (boltraven_version() != BOLTRAVEN_VERSION) {
        fprintf(stderr, "the library is not of this header's version, %s\n", BOLTRAVEN_VERSION_TEXT);
        return 1;
    }
    prepare();
    list(play());
    for (size_t slot = 0; slot < slots; slot++) show(1, slot);
    screen();
    judge(60);
    judge(59);
    clear();
    /* person 1 is not there for slot 0; and then slot 1 is counted as uncovered, and taken out of person 1's set, behind the library's back */
    refuse();
    totals[BOLTRAVEN_UNASSIGNED_SLOTS]++;
    refuse();
    sets[BOLTRAVEN_SET_WORDS] &= ~(uint64_t)2;
    refuse();
    roll();
    return 0;
}
