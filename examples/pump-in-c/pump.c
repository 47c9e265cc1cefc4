/*
 * A tolerance job run by calls: which volume does this metering pump deliver on average, if four of its dimensions vary between
 * their limits? The library says where to measure; here a formula stands in for the rig. Prints the report of the job,
 * or with --doubles its figures for a plotting package.
 */
#include "wihupya.h"

#include <inttypes.h>
#include <stdio.h>
#include <stdlib.h>
#include <string.h>

enum { AXES = 4, BUDGET = 2000 };

/* Indicators count 1,024ths of a nanolitre. The job is done when at most 16 nanolitres are thought to be missing. */
static const uint64_t THRESHOLD = 16 * 1024;

/* The work area of a job: all that the library needs. */
struct area {
    uint32_t job[WIHUPYA_JOB_WORDS];
    uint32_t cells[WIHUPYA_CELLS];
    int32_t store[BUDGET];
};

/* Neither is for a small stack: an area takes some 60 KB. */
static struct area area, trial;

/* Every refusal but the one that says "no block is wanted" is a mistake of this program. */
static void must(const char *call, uint32_t cause)
{
    if (cause != WIHUPYA_ACCEPTED) {
        fprintf(stderr, "%s refused with %" PRIu32 "\n", call, cause);
        exit(EXIT_FAILURE);
    }
}

/* The value of a dimension at a position: 64 is the nominal value, each position is one step away from the next. */
static int64_t dimension(int64_t nominal, int64_t step, uint8_t position)
{
    return nominal + step * (position - 64);
}

/* The quotient rounded to the nearest whole number; the dividend is not below 0, the divisor even. */
static int64_t rounded(int64_t dividend, int64_t divisor)
{
    return (dividend + divisor / 2) / divisor;
}

/*
 * The volume that one stroke delivers, in nanolitres. The piston displaces a cylinder of bore and stroke. Of that some leaks back
 * past the seal, with the cube of its clearance: one fiftieth if all is nominal. Some flows back before the spring has closed the
 * valve, the less the stiffer the spring: three hundredths if all is nominal. Whole numbers throughout, in thousandths of a
 * nanolitre up to the last line, so that every machine and language gives the same readings.
 */
static int32_t delivered_volume(const uint8_t position[AXES])
{
    int64_t bore = dimension(10000, 2, position[0]);      /* micrometres: 10.000 mm +- 0.128 mm */
    int64_t stroke = dimension(8000, 4, position[1]);     /* micrometres: 8.000 mm +- 0.256 mm */
    int64_t clearance = dimension(1200, 11, position[2]); /* hundredths of a um: 12.00 um +- 7.04 um */
    int64_t spring = dimension(2000, 18, position[3]);    /* newtons for each metre: 2,000 +- 1,152 */

    /* A quarter of pi is 355/452; a thousandth of a nanolitre is 1,000 cubic micrometres. */
    int64_t displaced = rounded(355 * bore * bore * stroke, INT64_C(452) * 1000);
    int64_t leaked = rounded(displaced * (clearance * clearance * clearance), INT64_C(50) * 1200 * 1200 * 1200);
    int64_t returned = rounded(displaced * 3 * 2000, 100 * spring);
    return (int32_t)rounded(displaced - leaked - returned, 1000);
}

/* Measures the block that is wanted and returns the number of its readings: 0 if none is wanted. */
static size_t measure(int32_t block[BUDGET])
{
    /* Room for any block, so that one call gives all its points. */
    static uint8_t positions[WIHUPYA_LARGEST_BLOCK * AXES];
    uint32_t points[WIHUPYA_POINTS_WORDS];
    uint32_t cause = wihupya_points(area.job, 0, points, area.cells, WIHUPYA_CELLS, area.store, BUDGET, positions, sizeof positions);
    if (cause == WIHUPYA_NO_BLOCK_WANTED)
        return 0;
    must("points", cause);
    size_t count = points[WIHUPYA_POINTS_WRITTEN];
    for (size_t n = 0; n < count; n++)
        block[n] = delivered_volume(positions + n * AXES);
    return count;
}

/*
 * How much a block matters: how far it moves the mean, which is the indicator of the published algorithm. We let the library work
 * that out and do no grid arithmetic of our own: the block is delivered to a copy of the area, and the means are compared.
 */
static uint32_t indicator(const int32_t *block, size_t count)
{
    trial = area;
    must("deliver", wihupya_deliver(trial.job, block, count, 0, trial.cells, WIHUPYA_CELLS, trial.store, BUDGET));
    int64_t before = wihupya_signed_at(area.job, WIHUPYA_JOB_MEAN);
    int64_t after = wihupya_signed_at(trial.job, WIHUPYA_JOB_MEAN);
    /* The scaled mean counts 1,048,576ths of a nanolitre; a block moves it by at most 2^40, so this fits. */
    return (uint32_t)(llabs(after - before) / 1024);
}

/*
 * Chooses and promotes: refines where the indicator is largest. Returns WIHUPYA_PROMOTED while the job goes on, else how it ended; no
 * answer of choose has the number of an outcome of promote. Who knows better what to refine first promotes another active place.
 */
static uint32_t refine(void)
{
    uint32_t choice[WIHUPYA_CHOICE_WORDS], outcome[WIHUPYA_OUTCOME_WORDS];
    must("choose", wihupya_choose(area.job, choice, area.cells, WIHUPYA_CELLS, area.store, BUDGET));
    if (choice[WIHUPYA_CHOICE_ANSWER] != WIHUPYA_CHOSEN)
        return choice[WIHUPYA_CHOICE_ANSWER];
    size_t place = choice[WIHUPYA_CHOICE_PLACE];
    must("promote", wihupya_promote(area.job, place, outcome, area.cells, WIHUPYA_CELLS, area.store, BUDGET));
    return outcome[0];
}

/* Runs the job to its end and says how it ended. */
static uint32_t run(void)
{
    static int32_t block[BUDGET];
    must("start", wihupya_start(area.job, AXES, THRESHOLD, BUDGET, area.cells, WIHUPYA_CELLS, area.store, BUDGET));
    for (;;) {
        size_t count = measure(block);
        if (count > 0) {
            uint32_t matters = indicator(block, count);
            must("deliver", wihupya_deliver(area.job, block, count, matters, area.cells, WIHUPYA_CELLS, area.store, BUDGET));
        } else {
            uint32_t end = refine();
            if (end != WIHUPYA_PROMOTED)
                return end;
        }
    }
}

/* How a job ended, as the report has it. */
static const char *ending(uint32_t end)
{
    switch (end) {
    case WIHUPYA_MET:
        return "met";
    case WIHUPYA_CAPPED:
        return "capped";
    default:
        return "spent";
    }
}

/* The report, in the form that the program gives it for a job file. */
static void print_report(const uint32_t counts[WIHUPYA_COUNT_WORDS], uint32_t end)
{
    printf("axes %d\n", AXES);
    printf("old %" PRIu32 "\n", counts[WIHUPYA_COUNT_OLD]);
    printf("active %" PRIu32 "\n", counts[WIHUPYA_COUNT_ACTIVE]);
    printf("wanted %" PRIu32 "\n", counts[WIHUPYA_COUNT_WANTED]);
    printf("reserved %" PRIu32 "\n", counts[WIHUPYA_COUNT_RESERVED]);
    printf("pending %" PRIu64 "\n", wihupya_unsigned_at(counts, WIHUPYA_COUNT_PENDING));
    printf("carried %" PRIu64 "\n", wihupya_unsigned_at(counts, WIHUPYA_COUNT_CARRIED));
    printf("ceiling %" PRIu32 "\n", counts[WIHUPYA_COUNT_CEILING]);
    printf("scaled %" PRId64 "\n", wihupya_signed_at(counts, WIHUPYA_COUNT_MEAN));
    printf("unused 0\n"); /* no block is measured that is not wanted */
    printf("end %s\n", ending(end));
}

/* The figures that a plotting package reads, in nanolitres but for the pending error. Twenty digits show each of them whole. */
static void print_doubles(void)
{
    double report[WIHUPYA_DOUBLES_LENGTH];
    must("doubles", wihupya_doubles(area.job, report, area.cells, WIHUPYA_CELLS, area.store, BUDGET));
    printf("mean %.20f\n", report[WIHUPYA_DOUBLES_MEAN]);
    printf("pending %.20f\n", report[WIHUPYA_DOUBLES_PENDING]);
    printf("largest %.20f\n", report[WIHUPYA_DOUBLES_LARGEST]);
}

int main(int argc, char **argv)
{
    uint32_t end = run();
    uint32_t counts[WIHUPYA_COUNT_WORDS];
    must("result", wihupya_result(area.job, counts, area.cells, WIHUPYA_CELLS, area.store, BUDGET));

    /* The mean once more, worked out from the readings by another formula: both must agree. */
    uint32_t total[WIHUPYA_TOTAL_WORDS];
    must("cross total", wihupya_cross_total(area.job, total, area.cells, WIHUPYA_CELLS, area.store, BUDGET));
    if (wihupya_signed_at(total, 0) != wihupya_signed_at(counts, WIHUPYA_COUNT_MEAN)) {
        fprintf(stderr, "the cross total is another mean\n");
        return EXIT_FAILURE;
    }

    if (argc > 1 && strcmp(argv[1], "--doubles") == 0)
        print_doubles();
    else
        print_report(counts, end);
    return EXIT_SUCCESS;
}
