/* rate_decode_probability, rate_usable_modes and rate_table_refusal: each limit from both sides, each refusal, and what a refused
   call leaves alone. */
#include "tables.h"
#include "check.h"

#include <math.h>
#include <string.h>

/* The next f64 past a limit. */
#define OVER_200 0x1.9000000000001p+7
#define UNDER_EIGHTH 0x1.fffffffffffffp-4
#define OVER_16 0x1.0000000000001p+4
#define UNDER_MILLI 0x1.0624dd2f1a9fbp-10

#define RUNGS 20
#define MOST 33

/* The columns of a table, one entry longer than a table may have. */
struct columns {
    size_t rungs;
    double thresholds[MOST], times[MOST], limits[MOST];
    uint32_t payloads[MOST], capacities[MOST], floors;
    uint8_t known[MOST];
    size_t known_len, limits_len;
};

/* The wide air's: capacity payload - 3, 6 floor rungs, one echo limit, at rung 5. */
static struct columns wide(void)
{
    static const double thresholds[RUNGS] = {-19.0, -17.3, -16.0, -14.2, -13.1, -11.2, -5.1, -3.2, -1.8, -0.4,
                                             1.4,   2.9,   4.7,   6.9,   6.0,   8.9,   9.9,  13.9, 15.6, 16.9};
    static const uint32_t payloads[RUNGS] = {24,  36,  51,  75,  105, 153, 26,  46,  70,  95,
                                             144, 193, 217, 291, 291, 389, 438, 585, 658, 732};
    struct columns table;
    memset(&table, 0, sizeof table);
    table.rungs = RUNGS;
    for (size_t r = 0; r < RUNGS; r++) {
        table.thresholds[r] = thresholds[r];
        table.payloads[r] = payloads[r];
        table.capacities[r] = payloads[r] - 3;
        table.times[r] = r < 6 ? 5.36 : 1.054;
    }
    table.floors = 6;
    table.known_len = table.limits_len = RUNGS;
    table.known[5] = 1;
    table.limits[5] = 0.0073;
    return table;
}

/* As many rungs, each with a threshold and a worth above the last one's: all are on the front. */
static struct columns ladder(size_t rungs)
{
    struct columns table;
    memset(&table, 0, sizeof table);
    table.rungs = rungs;
    for (size_t r = 0; r < rungs; r++) {
        table.thresholds[r] = (double)r;
        table.payloads[r] = table.capacities[r] = 10 + (uint32_t)r;
        table.times[r] = 1.0;
    }
    return table;
}

static int64_t refusal(const struct columns *t)
{
    return rate_table_refusal(t->thresholds, t->rungs, t->payloads, t->rungs, t->capacities, t->rungs, t->times, t->rungs,
                              t->floors, t->known, t->known_len, t->limits, t->limits_len);
}

static int64_t usable(const struct columns *t, uint32_t (*out)[32])
{
    return rate_usable_modes(t->thresholds, t->rungs, t->payloads, t->rungs, t->times, t->rungs, out);
}

/* Both calls turn the columns away with the cause, and the front is left as it was. */
static int both_refuse(const struct columns *t, int cause)
{
    uint32_t out[32], before[32];
    memset(out, 0x5a, sizeof out);
    memcpy(before, out, sizeof before);
    return usable(t, &out) == -cause && memcmp(out, before, sizeof out) == 0 && refusal(t) == -cause;
}

/* The call answers this chance, in every bit. */
static int chance_is(double snr, double threshold, double slope, double chance)
{
    double p = 7.0;
    return rate_decode_probability(snr, threshold, slope, &p) == 0 && memcmp(&p, &chance, sizeof p) == 0;
}

static int chance_refused(double snr, double threshold, double slope)
{
    double p = 7.0;
    return rate_decode_probability(snr, threshold, slope, &p) == -TURMEXOL_OUTSIDE_LIMITS && p == 7.0;
}

static void check_chances(void)
{
    double p = 7.0;
    CHECK(chance_is(3.0, 3.0, 0.5, 1.0 / (1.0 + 1.0 / 9.0)));
    CHECK(rate_decode_probability(-20.0, 0.0, 0.5, &p) == 0 && p > 0.0 && p < 1e-10);
    CHECK(chance_is(-20.25, 0.0, 0.5, 0.0));
    CHECK(chance_is(200.0, -200.0, 0.125, 1.0));
    CHECK(rate_decode_probability(-200.0, 200.0, 16.0, &p) == 0 && p > 0.0);
    CHECK(chance_refused(OVER_200, 0.0, 0.5) && chance_refused(-OVER_200, 0.0, 0.5));
    CHECK(chance_refused(0.0, OVER_200, 0.5) && chance_refused(0.0, -OVER_200, 0.5));
    CHECK(chance_refused(0.0, 0.0, UNDER_EIGHTH) && chance_refused(0.0, 0.0, OVER_16));
    CHECK(chance_refused(NAN, 0.0, 0.5) && chance_refused(0.0, NAN, 0.5) && chance_refused(0.0, 0.0, NAN));
    CHECK(chance_refused(INFINITY, 0.0, 0.5) && chance_refused(0.0, -INFINITY, 0.5) && chance_refused(0.0, 0.0, INFINITY));
}

/* "wide front lacks just 6 and 13"; "one rung: front is it"; "two equal rungs remove each other"; 32 rungs. */
static void check_fronts(void)
{
    struct columns table = wide();
    uint32_t out[32];
    memset(out, 0x5a, sizeof out);
    CHECK(usable(&table, &out) == 18);
    for (uint32_t place = 0, rung = 0; place < 18; place++, rung++) {
        if (rung == 6 || rung == 13) rung++;
        CHECK(out[place] == rung);
    }
    for (uint32_t place = 18; place < 32; place++)
        CHECK(out[place] == 0);

    table = ladder(1);
    CHECK(usable(&table, &out) == 1 && out[0] == 0 && out[1] == 0);
    table = ladder(32);
    CHECK(usable(&table, &out) == 32 && out[0] == 0 && out[31] == 31);
    table = ladder(2);
    table.thresholds[1] = table.thresholds[0];
    table.payloads[1] = table.payloads[0];
    CHECK(usable(&table, &out) == 0 && out[0] == 0 && out[31] == 0);
    CHECK(refusal(&table) == -TURMEXOL_EMPTY_FRONT);
}

/* 1, 2 and 3, which both calls have; of the first to apply. */
static void check_columns(void)
{
    struct columns table = ladder(0);
    uint32_t out[32];
    CHECK(both_refuse(&table, TURMEXOL_COLUMN_SIZE));
    table = ladder(33);
    CHECK(both_refuse(&table, TURMEXOL_COLUMN_SIZE));
    table = ladder(32);
    CHECK(refusal(&table) == 0);
    CHECK(rate_usable_modes(table.thresholds, 32, table.payloads, 31, table.times, 32, &out) == -TURMEXOL_COLUMNS_DIFFER);
    CHECK(rate_usable_modes(table.thresholds, 32, table.payloads, 32, table.times, 31, &out) == -TURMEXOL_COLUMNS_DIFFER);
    CHECK(rate_usable_modes(table.thresholds, 0, table.payloads, 31, table.times, 32, &out) == -TURMEXOL_COLUMN_SIZE);
    table.thresholds[31] = OVER_200;
    CHECK(both_refuse(&table, TURMEXOL_TABLE_VALUE));
    table = ladder(32);
    table.payloads[0] = 4096;
    CHECK(refusal(&table) == 0);
    table.payloads[0] = 4097;
    CHECK(both_refuse(&table, TURMEXOL_TABLE_VALUE));
    table = ladder(32);
    table.times[7] = 0.001;
    CHECK(refusal(&table) == 0);
    table.times[7] = UNDER_MILLI;
    CHECK(both_refuse(&table, TURMEXOL_TABLE_VALUE));
    table.times[7] = NAN;
    CHECK(both_refuse(&table, TURMEXOL_TABLE_VALUE));
}

/* What only a table has: capacities, floor rungs and the echo column. */
static void check_refusals(void)
{
    struct columns table = wide();
    CHECK(refusal(&table) == 0);
    CHECK(rate_table_refusal(table.thresholds, 20, table.payloads, 20, table.capacities, 19, table.times, 20, 6, table.known, 20,
                             table.limits, 20) == -TURMEXOL_COLUMNS_DIFFER);
    table.floors = 20;
    CHECK(refusal(&table) == 0);
    table.floors = 21;
    CHECK(refusal(&table) == -TURMEXOL_FLOOR_COUNT);
    table.capacities[19] = 4096;
    CHECK(refusal(&table) == -TURMEXOL_FLOOR_COUNT);
    table.capacities[19] = 4097;
    CHECK(refusal(&table) == -TURMEXOL_TABLE_VALUE);

    table = wide();
    table.known_len = table.limits_len = 0;
    CHECK(refusal(&table) == 0);
    table.known_len = table.limits_len = 32;
    CHECK(refusal(&table) == 0);
    table.known_len = table.limits_len = 33;
    CHECK(refusal(&table) == -TURMEXOL_COLUMN_SIZE);

    table = wide();
    table.limits[0] = 2.0;
    CHECK(refusal(&table) == 0);
    table.known[0] = 1;
    CHECK(refusal(&table) == -TURMEXOL_TABLE_VALUE);
    table.limits_len = 0;
    CHECK(refusal(&table) == 0);
}

void check_tables(void)
{
    check_chances();
    check_fronts();
    check_columns();
    check_refusals();
}
