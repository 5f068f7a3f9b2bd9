/* Every exported function, called with a problem at the component's limits.
   limits names: their names, a line each.
   limits stack: how deep each goes on the stack, in bytes, measured on a stack that is painted before the call.
   limits threads: eight threads of 512 KiB at a time, each calling all of them, and answering as one alone does. */
#define _GNU_SOURCE
#include <pthread.h>
#include <stdio.h>
#include <stdlib.h>
#include <string.h>

#include "boltraven.h"

enum {
    PEOPLE = BOLTRAVEN_PEOPLE_MOST,
    SLOTS = BOLTRAVEN_SLOTS_MOST,
    RANGES = BOLTRAVEN_RANGES_MOST,
    DRAWS = BOLTRAVEN_DRAWS_MOST,
    SET = BOLTRAVEN_SET_WORDS,
    WORDS = PEOPLE * SET,
    BASES = 992,
    NEW = 495,
    STORE = 128 * 12,
    BLOCK = 12 * DRAWS + 4,
    REPAIRS = 5 * (SLOTS + WORDS + PEOPLE + BOLTRAVEN_TOTALS),
    LENT_STACK = 4 << 20,
    THREAD_STACK = 512 << 10,
    THREADS = 8,
    ROUNDS = 3
};

/* All that is lent, read or written: each thread has its own. */
struct room {
    uint32_t base_starts[BASES], base_ends[BASES], opens[RANGES], shuts[RANGES], starts[SLOTS], ends[SLOTS], froms[SLOTS], tos[SLOTS];
    uint32_t priors[PEOPLE], masks[SLOTS];
    uint64_t avail[WORDS], sets[WORDS], frozen[SET], minutes[PEOPLE], runs[PEOPLE], totals[BOLTRAVEN_TOTALS], first, last, next, slots, units;
    uint64_t repairs[REPAIRS];
    /* what comes where weeks are retired */
    uint32_t new_starts[NEW], new_ends[NEW], new_opens[RANGES], new_shuts[RANGES];
    uint64_t retired;
    int64_t targets[PEOPLE];
    double capacities[PEOPLE];
    struct boltraven_draw structs[DRAWS];
    uint16_t persons[RANGES], whose[RANGES], unit_starts[SLOTS], draws[DRAWS], firsts[DRAWS], seconds[DRAWS], recorded[DRAWS];
    uint16_t counts[PEOPLE], run_firsts[PEOPLE * SLOTS], run_lasts[PEOPLE * SLOTS];
    uint8_t owners[SLOTS], list[PEOPLE], answers[DRAWS], file[BOLTRAVEN_FILE_MOST], listing[BOLTRAVEN_LISTING_MOST];
    /* a store of settings with one record less than it may have */
    uint8_t store[STORE], figures[4];
    uint16_t words[2];
    /* the file without its draws, and these as a recorded block */
    uint8_t recording[BOLTRAVEN_FILE_MOST + BLOCK];
    size_t file_len, job_len;
};

/* ---- a call of each: weeks held whole, person 31, the last slot or unit */

#define CALL(name) static uint64_t call_##name(struct room *r)

CALL(version) { (void)r; return boltraven_version(); }
CALL(contains) { return boltraven_contains(PEOPLE, r->slots, r->avail, WORDS, PEOPLE - 1, r->slots - 2); }
CALL(is_empty) { return boltraven_is_empty(PEOPLE, r->slots, r->avail, WORDS, PEOPLE - 1); }
CALL(count) { return boltraven_count(PEOPLE, r->slots, r->avail, WORDS, PEOPLE - 1); }
CALL(next_set) { return boltraven_next_set(PEOPLE, r->slots, r->avail, WORDS, PEOPLE - 1, 0); }
CALL(prev_set) { return boltraven_prev_set(PEOPLE, r->slots, r->avail, WORDS, PEOPLE - 1, r->slots); }
CALL(next_unset_after) { return boltraven_next_unset_after(PEOPLE, r->slots, r->avail, WORDS, PEOPLE - 1, 0); }
CALL(prev_unset_before) { return boltraven_prev_unset_before(PEOPLE, r->slots, r->avail, WORDS, PEOPLE - 1, r->slots); }
CALL(run_bounds) { return boltraven_run_bounds(PEOPLE, r->slots, r->avail, WORDS, PEOPLE - 1, 500, &r->first, &r->last); }
CALL(next_run) { return boltraven_next_run(PEOPLE, r->slots, r->avail, WORDS, PEOPLE - 1, 500, &r->first, &r->last, &r->next); }
CALL(next_member) { return boltraven_next_member(PEOPLE, r->slots, r->avail, WORDS, PEOPLE - 1, 500, &r->first, &r->next); }
CALL(insert) { return boltraven_insert(PEOPLE, r->slots, r->sets, WORDS, PEOPLE - 1, r->slots - 1); }
CALL(remove) { return boltraven_remove(PEOPLE, r->slots, r->avail, WORDS, PEOPLE - 1, 0); }
CALL(put_stretch) { return boltraven_put_stretch(PEOPLE, r->slots, r->sets, WORDS, PEOPLE - 1, 1, r->slots, true); }
CALL(set_contains) { return boltraven_set_contains(r->slots, r->avail, SET, r->slots - 2); }
CALL(set_is_empty) { return boltraven_set_is_empty(r->slots, r->avail, SET); }
CALL(set_count) { return boltraven_set_count(r->slots, r->avail, SET); }
CALL(set_next_set) { return boltraven_set_next_set(r->slots, r->avail, SET, 0); }
CALL(set_prev_set) { return boltraven_set_prev_set(r->slots, r->avail, SET, r->slots); }
CALL(set_next_unset_after) { return boltraven_set_next_unset_after(r->slots, r->avail, SET, 0); }
CALL(set_prev_unset_before) { return boltraven_set_prev_unset_before(r->slots, r->avail, SET, r->slots); }
CALL(set_run_bounds) { return boltraven_set_run_bounds(r->slots, r->avail, SET, 500, &r->first, &r->last); }
CALL(set_next_member) { return boltraven_set_next_member(r->slots, r->avail, SET, 500, &r->first, &r->next); }
CALL(all_runs) { return boltraven_all_runs(PEOPLE, r->slots, r->avail, WORDS, r->run_firsts, SLOTS, r->run_lasts, SLOTS, PEOPLE - 1); }
CALL(every_run) {
    return boltraven_every_run(PEOPLE, r->slots, r->avail, WORDS, r->counts, PEOPLE, r->run_firsts, PEOPLE * SLOTS, r->run_lasts,
                               PEOPLE * SLOTS);
}
CALL(date_of) { return boltraven_date_of(r->starts[1000]); }
CALL(weekday_of) { return boltraven_weekday_of(r->starts[1000] / 1440); }
CALL(merged_ranges) {
    return boltraven_merged_ranges(PEOPLE, RANGES, r->persons, RANGES, r->opens, RANGES, r->shuts, RANGES, r->whose, RANGES, r->froms,
                                   RANGES, r->tos, RANGES);
}
CALL(atomise) {
    return boltraven_atomise(PEOPLE, BASES, RANGES, r->base_starts, BASES, r->base_ends, BASES, r->persons, RANGES, r->opens, RANGES,
                             r->shuts, RANGES, r->froms, SLOTS, r->tos, SLOTS);
}
CALL(availability) {
    return boltraven_availability(PEOPLE, r->slots, RANGES, r->starts, SLOTS, r->ends, SLOTS, r->persons, RANGES, r->opens, RANGES,
                                  r->shuts, RANGES, r->sets, WORDS);
}
CALL(is_available) { return boltraven_is_available(PEOPLE, r->slots, r->avail, WORDS, PEOPLE - 1, r->slots - 1); }
CALL(slot_domain) { return boltraven_slot_domain(PEOPLE, r->slots, r->avail, WORDS, r->list, PEOPLE, r->slots - 2); }
CALL(slot_minutes) { return boltraven_slot_minutes(r->slots, r->starts, SLOTS, r->ends, SLOTS, r->slots - 1, &r->first); }
CALL(demand) { return boltraven_demand(r->slots, r->starts, SLOTS, r->ends, SLOTS, &r->first); }
CALL(freeze_before) { return boltraven_freeze_before(r->slots, r->starts, SLOTS, r->ends, SLOTS, r->frozen, SET, 1440 * 500); }
CALL(rotation_starts) {
    return boltraven_rotation_starts(r->slots, 0, 1, 1, 1, 1, 7, r->starts, SLOTS, r->ends, SLOTS, r->unit_starts, SLOTS);
}
CALL(unit_starts) { return boltraven_unit_starts(r->slots, 0, 1, 1, 1, 1, 7, r->starts, SLOTS, r->ends, SLOTS, r->unit_starts, SLOTS); }
CALL(unit_slots) { return boltraven_unit_slots(r->slots, r->units, r->unit_starts, SLOTS, r->units - 1, &r->first, &r->last); }
CALL(unit_of_slot) { return boltraven_unit_of_slot(r->slots, r->units, r->unit_starts, SLOTS, r->slots - 1); }
CALL(unit_domain) { return boltraven_unit_domain(PEOPLE, r->slots, r->units, r->avail, WORDS, r->unit_starts, SLOTS, r->list, PEOPLE, 1); }
CALL(unit_domains) { return boltraven_unit_domains(PEOPLE, r->slots, r->units, r->avail, WORDS, r->unit_starts, SLOTS, r->masks, SLOTS); }
CALL(unit_frozen) { return boltraven_unit_frozen(r->slots, r->units, r->unit_starts, SLOTS, r->frozen, SET, r->units - 1); }
CALL(covered_days) { return boltraven_covered_days(r->slots, r->starts, SLOTS, r->ends, SLOTS, &r->first); }
CALL(minutes_per_day) { return boltraven_minutes_per_day(r->slots, r->starts, SLOTS, r->ends, SLOTS, &r->first); }
CALL(target_run) { return boltraven_target_run(r->slots, 0, 1, 1, 1, 1, 7, r->starts, SLOTS, r->ends, SLOTS, &r->first); }
CALL(achievable_run) {
    return boltraven_achievable_run(PEOPLE, r->slots, 0, 1, 1, 1, 1, 7, r->starts, SLOTS, r->ends, SLOTS, r->avail, WORDS, PEOPLE - 1,
                                    &r->first);
}
CALL(achievable_runs) {
    return boltraven_achievable_runs(PEOPLE, r->slots, 0, 1, 1, 1, 1, 7, r->starts, SLOTS, r->ends, SLOTS, r->avail, WORDS, r->runs,
                                     PEOPLE);
}
CALL(compute_targets) {
    return boltraven_compute_targets(PEOPLE, r->slots, 0, 1, r->starts, SLOTS, r->ends, SLOTS, r->avail, WORDS, r->capacities,
                                     PEOPLE, r->priors, PEOPLE, r->targets, PEOPLE);
}
CALL(empty) {
    return boltraven_empty(PEOPLE, r->slots, r->starts, SLOTS, r->ends, SLOTS, r->owners, SLOTS, r->sets, WORDS, r->minutes, PEOPLE,
                           r->totals, BOLTRAVEN_TOTALS);
}
CALL(from_slots) {
    return boltraven_from_slots(PEOPLE, r->slots, r->starts, SLOTS, r->ends, SLOTS, r->avail, WORDS, r->owners, SLOTS, r->sets, WORDS,
                                r->minutes, PEOPLE, r->totals, BOLTRAVEN_TOTALS);
}
CALL(assign) {
    return boltraven_assign(PEOPLE, r->slots, r->starts, SLOTS, r->ends, SLOTS, r->avail, WORDS, r->owners, SLOTS, r->sets, WORDS,
                            r->minutes, PEOPLE, r->totals, BOLTRAVEN_TOTALS, r->slots - 3, PEOPLE - 1);
}
CALL(owner_of_slot) { return boltraven_owner_of_slot(PEOPLE, r->slots, r->owners, SLOTS, r->slots - 1); }
CALL(minutes_of) { return boltraven_minutes_of(PEOPLE, r->minutes, PEOPLE, PEOPLE - 1, &r->first); }
CALL(unassigned_count) { return boltraven_unassigned_count(PEOPLE, r->slots, r->owners, SLOTS); }
CALL(uncovered_minutes) {
    return boltraven_uncovered_minutes(PEOPLE, r->slots, r->starts, SLOTS, r->ends, SLOTS, r->owners, SLOTS, &r->first);
}
CALL(recount) {
    return boltraven_recount(PEOPLE, r->slots, r->units, r->starts, SLOTS, r->ends, SLOTS, r->avail, WORDS, r->unit_starts, SLOTS,
                             r->owners, SLOTS, r->sets, WORDS, r->minutes, PEOPLE, r->totals, BOLTRAVEN_TOTALS);
}
CALL(recount_slots) {
    return boltraven_recount_slots(PEOPLE, r->slots, r->starts, SLOTS, r->ends, SLOTS, r->avail, WORDS, r->owners, SLOTS, r->sets, WORDS,
                                   r->minutes, PEOPLE, r->totals, BOLTRAVEN_TOTALS);
}
CALL(may_be_used) {
    return boltraven_may_be_used(PEOPLE, r->slots, r->units, 100000000, 1, r->starts, SLOTS, r->ends, SLOTS, r->avail, WORDS,
                                 r->unit_starts, SLOTS, r->frozen, SET, r->owners, SLOTS, r->owners, SLOTS, &r->first);
}
CALL(play) {
    return boltraven_play(PEOPLE, r->slots, r->units, DRAWS, r->starts, SLOTS, r->ends, SLOTS, r->avail, WORDS, r->unit_starts, SLOTS,
                          r->frozen, SET, r->draws, DRAWS, r->firsts, DRAWS, r->seconds, DRAWS, r->owners, SLOTS, r->sets, WORDS,
                          r->minutes, PEOPLE, r->totals, BOLTRAVEN_TOTALS, r->answers, DRAWS);
}
CALL(play_draws) {
    return boltraven_play_draws(PEOPLE, r->slots, r->units, DRAWS, r->starts, SLOTS, r->ends, SLOTS, r->avail, WORDS, r->unit_starts, SLOTS,
                                r->frozen, SET, r->structs, DRAWS, r->owners, SLOTS, r->sets, WORDS, r->minutes, PEOPLE, r->totals,
                                BOLTRAVEN_TOTALS, r->answers, DRAWS);
}
CALL(replay_block) {
    return boltraven_replay_block(PEOPLE, r->slots, r->units, DRAWS, r->starts, SLOTS, r->ends, SLOTS, r->avail, WORDS, r->unit_starts, SLOTS,
                                  r->frozen, SET, r->draws, DRAWS, r->firsts, DRAWS, r->seconds, DRAWS, r->recorded, DRAWS, r->owners, SLOTS,
                                  r->sets, WORDS, r->minutes, PEOPLE, r->totals, BOLTRAVEN_TOTALS, &r->first);
}
CALL(job_end) { return boltraven_job_end(r->recording, r->job_len + BLOCK); }
CALL(begin_recording) {
    return boltraven_begin_recording(r->recording, r->job_len, r->starts, SLOTS, r->ends, SLOTS, r->avail, WORDS, r->unit_starts, SLOTS,
                                     r->frozen, SET, r->targets, PEOPLE, r->owners, SLOTS, r->sets, WORDS, r->minutes, PEOPLE, r->totals,
                                     BOLTRAVEN_TOTALS, &r->first, &r->last, &r->next);
}
CALL(read_block) {
    return boltraven_read_block(r->recording + r->job_len, BLOCK, 0, r->draws, DRAWS, r->firsts, DRAWS, r->seconds, DRAWS, r->recorded, DRAWS,
                                &r->first, &r->last);
}
CALL(stretch) { return boltraven_stretch(r->slots, r->answers, DRAWS, r->owners, SLOTS, r->frozen, SET, 0, &r->first); }
CALL(publish) { return boltraven_publish(r->slots, r->owners, SLOTS, r->frozen, SET, r->answers, DRAWS); }
CALL(show) {
    return boltraven_show(r->slots, r->answers, DRAWS, r->owners, SLOTS, r->frozen, SET, r->listing, BOLTRAVEN_LISTING_MOST);
}
CALL(count_settings) { return boltraven_count_settings(r->store, STORE, STORE - 12); }
CALL(save_settings) { return boltraven_save_settings(r->store, STORE, STORE - 12, 0, 1, 1, 1, 127, 7, &r->first, &r->last); }
CALL(ask_settings) {
    return boltraven_ask_settings(r->store, STORE, STORE - 12, 127, &r->figures[0], &r->figures[1], &r->figures[2], &r->figures[3],
                                  &r->words[0], &r->words[1]);
}
CALL(way_back) {
    return boltraven_way_back(PEOPLE, r->slots, r->units, r->starts, SLOTS, r->ends, SLOTS, r->avail, WORDS, r->unit_starts, SLOTS, r->frozen,
                              SET, r->owners, SLOTS, r->owners, SLOTS, r->sets, WORDS, r->minutes, PEOPLE, r->totals, BOLTRAVEN_TOTALS,
                              r->draws, DRAWS, r->firsts, DRAWS, r->seconds, DRAWS, &r->first);
}
CALL(mend) {
    return boltraven_mend(PEOPLE, r->slots, r->units, r->starts, SLOTS, r->ends, SLOTS, r->avail, WORDS, r->unit_starts, SLOTS, r->frozen, SET,
                          r->owners, SLOTS, r->sets, WORDS, r->minutes, PEOPLE, r->totals, BOLTRAVEN_TOTALS, r->repairs, REPAIRS);
}
/* the first half is frozen, and its 509 slots in whole weeks go; what comes, split as before, fills the room to the last slot */
CALL(retire) {
    for (size_t k = 0; k < 8; k++) r->frozen[k] = UINT64_MAX;
    return boltraven_retire(PEOPLE, r->slots, r->units, NEW, RANGES, 0, 1, 1, 1, 1, 7, r->new_starts, NEW, r->new_ends, NEW, r->persons,
                            RANGES, r->new_opens, RANGES, r->new_shuts, RANGES, r->starts, SLOTS, r->ends, SLOTS, r->avail, WORDS,
                            r->unit_starts, SLOTS, r->frozen, SET, r->owners, SLOTS, r->sets, WORDS, r->minutes, PEOPLE, r->totals,
                            BOLTRAVEN_TOTALS, r->priors, PEOPLE, &r->retired, 1, &r->first);
}
CALL(retire_column) { return boltraven_retire_column(r->slots, 509, SLOTS, r->owners, SLOTS); }
CALL(run_job) { return boltraven_run_job(r->file, r->file_len, r->listing, BOLTRAVEN_LISTING_MOST, &r->first); }

/* Each by its name. None may be refused, since the deepest way goes through the work: `most` is the largest answer that is no refusal. */
static const struct {
    const char *name;
    uint64_t (*call)(struct room *);
    uint64_t most;
} calls[] = {
#define NUMBER(name) {"boltraven_" #name, call_##name, BOLTRAVEN_NOTHING - 1}
#define DONE(name) {"boltraven_" #name, call_##name, 0}
    NUMBER(version), NUMBER(contains), NUMBER(is_empty), NUMBER(count), NUMBER(next_set), NUMBER(prev_set), NUMBER(next_unset_after),
    NUMBER(prev_unset_before), DONE(run_bounds), DONE(next_run), DONE(next_member), DONE(insert), DONE(remove), DONE(put_stretch),
    NUMBER(set_contains), NUMBER(set_is_empty), NUMBER(set_count), NUMBER(set_next_set), NUMBER(set_prev_set),
    NUMBER(set_next_unset_after), NUMBER(set_prev_unset_before), DONE(set_run_bounds), DONE(set_next_member), NUMBER(all_runs),
    NUMBER(every_run), NUMBER(date_of), NUMBER(weekday_of), NUMBER(merged_ranges), NUMBER(atomise), DONE(availability), NUMBER(is_available),
    NUMBER(slot_domain), DONE(slot_minutes), DONE(demand), NUMBER(freeze_before), NUMBER(rotation_starts), NUMBER(unit_starts),
    DONE(unit_slots), NUMBER(unit_of_slot), NUMBER(unit_domain), DONE(unit_domains), NUMBER(unit_frozen), DONE(covered_days),
    DONE(minutes_per_day), DONE(target_run), DONE(achievable_run), DONE(achievable_runs), DONE(compute_targets), DONE(empty), DONE(from_slots),
    DONE(assign),
    NUMBER(owner_of_slot), DONE(minutes_of), NUMBER(unassigned_count), DONE(uncovered_minutes), DONE(recount), DONE(recount_slots),
    DONE(may_be_used), DONE(play), DONE(play_draws), DONE(replay_block), NUMBER(job_end), DONE(begin_recording), DONE(read_block), DONE(way_back),
    NUMBER(mend), DONE(retire), DONE(retire_column), NUMBER(stretch), DONE(publish), DONE(show), DONE(run_job), NUMBER(count_settings),
    DONE(save_settings), DONE(ask_settings)};

enum { CALLS = sizeof calls / sizeof calls[0] };

/* Ends the program with what is wrong. */
static void must(int holds, const char *what) {
    if (holds) return;
    fprintf(stderr, "limits: %s\n", what);
    exit(1);
}

/* ---- the problem: an hour a day, everybody there for all but half an hour in 32 days, which splits a slot */

static struct room made;

static void add(uint16_t kind, const void *body, uint16_t len) {
    const uint16_t head[2] = {len, kind};
    must(made.file_len + sizeof head + len <= sizeof made.file, "the file is too long");
    memcpy(made.file + made.file_len, head, sizeof head);
    memcpy(made.file + made.file_len + sizeof head, body, len);
    made.file_len += sizeof head + len;
}

static void make_file(void) {
    const uint8_t settings[8] = {0, 1, 1, 0, 1, 0, 7, 0};
    const uint32_t freeze = 1440 * 100;
    add(1, settings, sizeof settings);
    for (size_t k = 0; k < BASES; k++) add(2, (uint32_t[]){made.base_starts[k], made.base_ends[k]}, 8);
    for (size_t p = 0; p < PEOPLE; p++) {
        uint8_t body[12];
        memcpy(body, &made.capacities[p], 8);
        memcpy(body + 8, &made.priors[p], 4);
        add(3, body, sizeof body);
    }
    for (size_t k = 0; k < RANGES; k++) {
        uint8_t body[10];
        memcpy(body, &made.persons[k], 2);
        memcpy(body + 2, &made.opens[k], 4);
        memcpy(body + 6, &made.shuts[k], 4);
        add(4, body, sizeof body);
    }
    add(5, &freeze, sizeof freeze);
    for (uint16_t k = 0; k < made.slots; k++) add(6, (uint16_t[]){k, made.owners[k]}, 4);
    made.job_len = made.file_len;
    for (size_t k = 0; k < DRAWS; k++) add(7, &made.structs[k], 6);
}

/* The file's job, and a block of all its draws. */
static void make_recording(void) {
    memcpy(made.recording, made.file, made.job_len);
    uint8_t *block = made.recording + made.job_len;
    for (size_t k = 0; k < DRAWS; k++) {
        const uint16_t record[6] = {8, 8, made.draws[k], made.firsts[k], made.seconds[k], made.recorded[k]};
        memcpy(block + 12 * k, record, sizeof record);
    }
    memcpy(block + 12 * DRAWS, (uint16_t[]){0, 9}, 4);
}

/* The answers to the draws, as they are played. */
static void make_recorded(void) {
    struct room *played = malloc(sizeof *played);
    must(played != NULL, "no memory");
    memcpy(played, &made, sizeof made);
    must(call_play(played) == 0, "draws are refused");
    for (size_t k = 0; k < DRAWS; k++) made.recorded[k] = played->answers[k];
    free(played);
}

static void make(void) {
    for (uint32_t k = 0; k < BASES; k++) made.base_starts[k] = 1440 * k, made.base_ends[k] = 1440 * k + 60;
    for (uint32_t k = 0; k < RANGES; k++) {
        made.persons[k] = k % PEOPLE;
        made.opens[k] = 1440 * 32 * (k / PEOPLE);
        made.shuts[k] = made.opens[k] + 1440 * 31 + 30;
    }
    for (uint32_t k = 0; k < NEW; k++) made.new_starts[k] = 1440 * (BASES + k), made.new_ends[k] = made.new_starts[k] + 60;
    for (uint32_t k = 0; k < RANGES; k++) {
        made.new_opens[k] = made.opens[k] + 1440 * BASES;
        made.new_shuts[k] = made.shuts[k] + 1440 * BASES;
    }
    for (size_t p = 0; p < PEOPLE; p++) made.capacities[p] = 0.5 + 0.1 * p, made.priors[p] = 100 * p;
    struct room *r = &made;
    made.slots = call_atomise(r);
    must(made.slots == 1023, "the split makes another number of slots");
    memcpy(made.starts, made.froms, sizeof made.starts);
    memcpy(made.ends, made.tos, sizeof made.ends);
    must(call_availability(r) == 0, "availability is refused");
    memcpy(made.avail, made.sets, sizeof made.avail);
    made.units = call_unit_starts(r);
    must(made.units < BOLTRAVEN_NOTHING && call_unit_domains(r) == 0, "units are refused");
    for (size_t u = 0, k = 0; u < made.units; u++) {
        const size_t end = u + 1 < made.units ? made.unit_starts[u + 1] : made.slots;
        for (; k < end; k++) made.owners[k] = made.masks[u] ? u % PEOPLE : BOLTRAVEN_NOBODY;
    }
    must(call_from_slots(r) == 0, "owners are refused");
    for (uint16_t k = 0; k < DRAWS; k++) {
        made.draws[k] = k % 100, made.firsts[k] = 7 * k % made.units, made.seconds[k] = k % 3;
        made.structs[k] = (struct boltraven_draw){made.draws[k], made.firsts[k], made.seconds[k]};
    }
    make_recorded();
    make_file();
    make_recording();
    for (size_t k = 0; k < 127; k++) {
        must(boltraven_save_settings(made.store, STORE, 12 * k, 0, 1, 1, k % 2, 127, k, &made.first, &made.last) == 0, "settings are refused");
        must(made.first == k + 1 && made.last == 12 * k + 12, "settings are saved under another number");
    }
}

/* The answer of a call and all that it leaves, as one number. */
static uint64_t outcome(size_t k, struct room *room) {
    memcpy(room, &made, sizeof made);
    uint64_t sum = calls[k].call(room) + 14695981039346656037u;
    for (size_t at = 0; at + 8 <= sizeof *room; at += 8) {
        uint64_t word;
        memcpy(&word, (const uint8_t *)room + at, 8);
        sum = (sum ^ word) * 1099511628211u;
    }
    return sum;
}

/* ---- the stack */

struct painted {
    size_t call;
    uint8_t *stack;
    struct room room;
    uint64_t answer;
    size_t depth;
};

enum { PAINT = 0xa5, SPARED = 512 };

/* Paints the stack below itself but for a little, calls, and looks how far the paint is gone. */
static void *on_painted(void *given) {
    struct painted *job = given;
    volatile uint8_t *const here = (volatile uint8_t *)__builtin_frame_address(0);
    volatile uint8_t *at;
    uint64_t (*const call)(struct room *) = calls[job->call].call;
    for (at = job->stack; at < here - SPARED; at++) *at = PAINT;
    job->answer = call(&job->room);
    for (at = job->stack; *at == PAINT; at++) continue;
    job->depth = (size_t)(here - at);
    return NULL;
}

static void stack(void) {
    struct painted *job = malloc(sizeof *job);
    pthread_attr_t attr;
    must(job != NULL && posix_memalign((void **)&job->stack, 4096, LENT_STACK) == 0 && pthread_attr_init(&attr) == 0, "no memory");
    must(pthread_attr_setstack(&attr, job->stack, LENT_STACK) == 0, "the stack isn't taken");
    for (job->call = 0; job->call < CALLS; job->call++) {
        pthread_t thread;
        memcpy(&job->room, &made, sizeof made);
        must(pthread_create(&thread, &attr, on_painted, job) == 0 && pthread_join(thread, NULL) == 0, "no thread");
        must(job->answer <= calls[job->call].most, calls[job->call].name);
        printf("%s %zu\n", calls[job->call].name, job->depth);
    }
    free(job->stack);
    free(job);
}

/* ---- threads */

static uint64_t alone[CALLS];

static void *on_thread(void *given) {
    struct room *room = given;
    size_t wrong = 0;
    for (size_t round = 0; round < ROUNDS; round++)
        for (size_t k = 0; k < CALLS; k++) wrong += outcome(k, room) != alone[k];
    return (void *)wrong;
}

static void threads(void) {
    pthread_t all[THREADS];
    pthread_attr_t attr;
    struct room *rooms = calloc(THREADS, sizeof *rooms);
    must(rooms != NULL && pthread_attr_init(&attr) == 0 && pthread_attr_setstacksize(&attr, THREAD_STACK) == 0, "no memory");
    for (size_t k = 0; k < CALLS; k++) alone[k] = outcome(k, rooms);
    for (size_t t = 0; t < THREADS; t++) must(pthread_create(&all[t], &attr, on_thread, &rooms[t]) == 0, "no thread");
    size_t wrong = 0;
    for (size_t t = 0; t < THREADS; t++) {
        void *of;
        must(pthread_join(all[t], &of) == 0, "a thread is lost");
        wrong += (size_t)of;
    }
    free(rooms);
    must(wrong == 0, "threads answer otherwise than one alone");
    printf("%d threads of %d KiB at a time: %d calls each, of %d functions, answered as alone\n", THREADS, THREAD_STACK >> 10,
           ROUNDS * CALLS, CALLS);
}

int main(int count, char **words) {
    must(count == 2, "usage: limits names | stack | threads");
    make();
    if (strcmp(words[1], "names") == 0)
        for (size_t k = 0; k < CALLS; k++) puts(calls[k].name);
    else if (strcmp(words[1], "stack") == 0)
        stack();
    else
        threads();
    return 0;
}
