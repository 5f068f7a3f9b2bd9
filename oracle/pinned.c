// pinned N SEED: looks for figures by which everybody is pinned, so that person 0 would take the remainder. N inputs of each family.
// cc -O2 -ffp-contract=off -o target/pinned oracle/pinned.c && target/pinned 1000000 1
// The passes are written here again, in plain doubles, and held to marked cases 7 to 10, and to one of two passes, first. In exact numbers the
// unrounded targets of a pass add up to demand, so the largest is at least demand / people: by how little that is missed is the measure.
#include <math.h>
#include <stdint.h>
#include <stdio.h>
#include <stdlib.h>

enum { MOST = 32, PRIOR_MOST = 100000000 };

typedef struct {
    int people;
    uint64_t demand;
    double raw[MOST];
    uint64_t prior[MOST];
} Input;

typedef struct {
    int pinned;     // everybody was pinned by some pass
    int passes;     // how many passes pinned somebody
    double largest; // the least, over the passes, of the largest unrounded target times people, by demand
    int64_t target[MOST];
} Outcome;

static uint64_t state;

static uint64_t any(void) { // splitmix64
    uint64_t z = (state += 0x9e3779b97f4a7c15u);
    z = (z ^ (z >> 30)) * 0xbf58476d1ce4e5b9u;
    z = (z ^ (z >> 27)) * 0x94d049bb133111ebu;
    return z ^ (z >> 31);
}

static uint64_t below(uint64_t n) { return any() % n; }

static Outcome passes(const Input *in) {
    Outcome o = { 0, 0, INFINITY, { 0 } };
    int off[MOST] = { 0 };
    for (int pass = 0; pass <= in->people; pass++) {
        double sum = 0.0, largest = -INFINITY;
        uint64_t n = in->demand;
        int left = 0, fell = 0;
        for (int k = 0; k < in->people; k++)
            if (!off[k]) {
                sum += in->raw[k];
                n += in->prior[k];
                left++;
            }
        if (!(sum > 0.0))
            break;
        for (int k = 0; k < in->people; k++) {
            if (off[k])
                continue;
            double x = (double)n * (in->raw[k] / sum) - (double)in->prior[k];
            if (x > largest)
                largest = x;
            if (x < 0.0) {
                off[k] = 1;
                o.target[k] = 0;
                fell++;
            } else {
                o.target[k] = (int64_t)round(x);
            }
        }
        double by = largest * left / (double)in->demand;
        if (by < o.largest)
            o.largest = by;
        if (fell == left)
            o.pinned = 1;
        if (!fell)
            break;
        o.passes++;
    }
    int64_t total = 0, taker = 0;
    for (int k = 0; k < in->people; k++)
        total += o.target[k];
    for (int k = 0, found = 0; k < in->people; k++)
        if (!off[k] && (!found || o.target[k] >= o.target[taker])) {
            taker = k;
            found = 1;
        }
    o.target[taker] += (int64_t)in->demand - total;
    return o;
}

// ---- families

static double tiny(void) { return ldexp(1.0 + (double)(any() >> 12) * 0x1p-52, -(int)below(1080)); }

static double capacity(int family) {
    switch (family % 4) {
    case 0: return 1.0;
    case 1: return (double)(any() >> 11) * 0x1p-53 * 1000.0;
    case 2: return tiny();
    default: return below(2) ? 1000.0 : tiny();
    }
}

// capacities as above; demand 1, small or any; priors any, all at the limit, or in the ratio of the raw shares, which is where the
// unrounded targets lie closest together
static Input drawn(int family) {
    Input in;
    in.people = family / 4 % 2 ? MOST : 1 + (int)below(MOST);
    in.demand = family / 8 % 3 == 0 ? 1 : family / 8 % 3 == 1 ? 1 + below(64) : 1 + below(100000000);
    double sum = 0.0;
    for (int k = 0; k < in.people; k++) {
        uint64_t base = below(2) ? in.demand : below(in.demand + 1);
        in.raw[k] = capacity(family) * (double)base;
        sum += in.raw[k];
    }
    uint64_t whole = 1 + below((uint64_t)in.people * PRIOR_MOST);
    for (int k = 0; k < in.people; k++) {
        double part = sum > 0.0 ? (double)whole * (in.raw[k] / sum) : 0.0;
        switch (family / 24 % 3) {
        case 0: in.prior[k] = below(PRIOR_MOST + 1); break;
        case 1: in.prior[k] = PRIOR_MOST; break;
        default: in.prior[k] = part > PRIOR_MOST ? PRIOR_MOST : (uint64_t)part;
        }
    }
    return in;
}

// a neighbour: one prior or one share a little off
static Input near(Input in) {
    int k = (int)below((uint64_t)in.people);
    if (below(3)) {
        int64_t p = (int64_t)in.prior[k] + (int64_t)below(5) - 2;
        in.prior[k] = p < 0 ? 0 : p > PRIOR_MOST ? PRIOR_MOST : (uint64_t)p;
    } else {
        in.raw[k] = nextafter(in.raw[k], below(2) ? INFINITY : 0.0);
    }
    return in;
}

static int marked(uint64_t demand, int people, const double *capacities, const uint64_t *priors, const int64_t *due) {
    Input in = { people, demand, { 0 }, { 0 } };
    for (int k = 0; k < people; k++) {
        in.raw[k] = capacities[k] * (double)demand;
        in.prior[k] = priors[k];
    }
    Outcome o = passes(&in);
    for (int k = 0; k < people; k++)
        if (o.target[k] != due[k])
            return 0;
    return 1;
}

int main(int argc, char **argv) {
    uint64_t n = argc > 1 ? strtoull(argv[1], 0, 10) : 100000;
    state = argc > 2 ? strtoull(argv[2], 0, 10) : 1;
    double ones[4] = { 1, 1, 1, 1 }, none[2] = { 0, 0 };
    uint64_t free_of[4] = { 0, 0, 0, 0 }, one_300[3] = { 300, 0, 0 };
    int64_t thirds[3] = { 33, 33, 34 }, fourths[4] = { 1, 1, 1, -1 }, halves[3] = { 0, 50, 50 }, rest[2] = { 0, 100 };
    if (!marked(100, 3, ones, free_of, thirds) || !marked(2, 4, ones, free_of, fourths) || !marked(100, 2, ones, one_300, rest)
        || !marked(100, 2, none, free_of, rest) || !marked(100, 3, ones, one_300, halves)) {
        puts("pinned: the passes here are not the paper's");
        return 2;
    }
    uint64_t inputs = 0, all = 0, repeated = 0;
    int most = 0;
    double least = INFINITY;
    for (int family = 0; family < 72; family++)
        for (uint64_t i = 0; i < n; i++) {
            Input in = drawn(family);
            Outcome o = passes(&in);
            // every eighth is followed downhill
            for (int step = 0; i % 8 == 0 && step < 64; step++) {
                Input other = near(in);
                Outcome p = passes(&other);
                inputs++;
                all += (uint64_t)p.pinned;
                if (p.largest <= o.largest) {
                    in = other;
                    o = p;
                }
            }
            inputs++;
            all += (uint64_t)o.pinned;
            repeated += o.passes > 1;
            if (o.passes > most)
                most = o.passes;
            if (o.largest < least)
                least = o.largest;
        }
    printf("pinned: %llu inputs, %llu with more than one pass that pinned somebody (at most %d); everybody pinned in %llu; ",
           (unsigned long long)inputs, (unsigned long long)repeated, most, (unsigned long long)all);
    printf("the largest unrounded target of a pass is never below %.9f of demand / unpinned people\n", least);
    return all ? 1 : 0;
}
