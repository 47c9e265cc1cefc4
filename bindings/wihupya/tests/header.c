/*
 * The header's functions as C calls them: every cause, a number of full width for every parameter, and every word and
 * double that is written. Says nothing if all is well.
 */
#include "wihupya.h"

#include <stdio.h>
#include <stdlib.h>
#include <string.h>

/* The budget is what two axes take up to their highest levels, and (2,2) beside them. */
enum { AXES = 2, BUDGET = 261, MARK = 77 };

static struct area {
    uint32_t job[WIHUPYA_JOB_WORDS];
    uint32_t cells[WIHUPYA_CELLS];
    int32_t store[BUDGET];
} area, before;

static uint8_t position[WIHUPYA_MOST_AXES], positions[WIHUPYA_LARGEST_BLOCK * WIHUPYA_MOST_AXES];
static uint32_t written[WIHUPYA_POINTS_WORDS], choice[WIHUPYA_CHOICE_WORDS], outcome[WIHUPYA_OUTCOME_WORDS];
static uint32_t counts[WIHUPYA_COUNT_WORDS], total[WIHUPYA_TOTAL_WORDS];
static double report[WIHUPYA_DOUBLES_LENGTH];

#define EXPECT(holds) expect((holds), #holds, __LINE__)
/* The call is refused with this number and leaves the area. */
#define REFUSED(number, call) (before = area, EXPECT((call) == (number)), EXPECT(memcmp(&before, &area, sizeof area) == 0))

/* The area, whole or with so many words and readings of it. */
#define LENT(words, readings) area.cells, (words), area.store, (readings)
#define WHOLE LENT(WIHUPYA_CELLS, BUDGET)

static void expect(bool holds, const char *what, int line)
{
    if (!holds) {
        fprintf(stderr, "header.c, line %d: not so: %s\n", line, what);
        exit(EXIT_FAILURE);
    }
}

static uint32_t start(uint64_t threshold)
{
    return wihupya_start(area.job, AXES, threshold, BUDGET, WHOLE);
}

static uint32_t deliver(const int32_t *block, size_t count, uint32_t indicator)
{
    return wihupya_deliver(area.job, block, count, indicator, WHOLE);
}

static uint32_t choose(void)
{
    return wihupya_choose(area.job, choice, WHOLE);
}

static uint32_t promote(size_t place)
{
    return wihupya_promote(area.job, place, outcome, WHOLE);
}

/* Whether choose is accepted, leaves the area, and writes this answer and this place. */
static bool choice_is(uint32_t answer, uint32_t place)
{
    before = area;
    choice[WIHUPYA_CHOICE_ANSWER] = choice[WIHUPYA_CHOICE_PLACE] = MARK;
    EXPECT(choose() == WIHUPYA_ACCEPTED && memcmp(&before, &area, sizeof area) == 0);
    return choice[WIHUPYA_CHOICE_ANSWER] == answer && choice[WIHUPYA_CHOICE_PLACE] == place;
}

/* Whether promote is accepted there, and is promoted. */
static bool promoted(size_t place)
{
    return promote(place) == WIHUPYA_ACCEPTED && outcome[0] == WIHUPYA_PROMOTED;
}

static void test_start(void)
{
    /* Cut to its low half, each number with a high bit set would be accepted. */
    REFUSED(WIHUPYA_AXES_OUT_OF_RANGE, wihupya_start(area.job, 0, 0, BUDGET, WHOLE));
    REFUSED(WIHUPYA_AXES_OUT_OF_RANGE, wihupya_start(area.job, UINT32_C(1) << 31 | AXES, 0, BUDGET, WHOLE));
    REFUSED(WIHUPYA_BUDGET_OUT_OF_RANGE, wihupya_start(area.job, AXES, 0, 0, WHOLE));
    REFUSED(WIHUPYA_BUDGET_OUT_OF_RANGE, wihupya_start(area.job, AXES, 0, UINT32_C(1) << 31 | BUDGET, WHOLE));
    REFUSED(WIHUPYA_TOO_SHORT, wihupya_start(area.job, AXES, 0, BUDGET, LENT(WIHUPYA_CELLS - 1, BUDGET)));
    REFUSED(WIHUPYA_TOO_SHORT, wihupya_start(area.job, AXES, 0, BUDGET, LENT(WIHUPYA_CELLS, BUDGET - 1)));
    REFUSED(WIHUPYA_NOT_SOUND, wihupya_result(area.job, counts, WHOLE));
    EXPECT(!wihupya_check(area.job, WHOLE));

    const uint64_t threshold = UINT64_C(0xfedcba9876543210);
    EXPECT(start(threshold) == WIHUPYA_ACCEPTED);
    EXPECT(wihupya_check(area.job, WHOLE));
    EXPECT(!wihupya_check(area.job, LENT(WIHUPYA_CELLS - 1, BUDGET)));
    EXPECT(!wihupya_check(area.job, LENT(WIHUPYA_CELLS, BUDGET - 1)));
    EXPECT(wihupya_unsigned_at(area.job, WIHUPYA_JOB_THRESHOLD) == threshold);
    EXPECT(area.job[WIHUPYA_JOB_AXES] == AXES && area.job[WIHUPYA_JOB_BUDGET] == BUDGET);
    EXPECT(area.job[WIHUPYA_JOB_HELD] == 1 && area.job[WIHUPYA_JOB_RESERVED] == 1);
    EXPECT(wihupya_unsigned_at(area.job, WIHUPYA_JOB_PENDING) == 0 && wihupya_unsigned_at(area.job, WIHUPYA_JOB_CARRIED) == 0);
    EXPECT(area.cells[WIHUPYA_CELL_LEVELS] == 1 && area.cells[WIHUPYA_CELL_STATE] == WIHUPYA_WANTED);
    EXPECT(area.cells[WIHUPYA_CELL_FORWARD] == WIHUPYA_NONE && area.cells[WIHUPYA_CELL_BACKWARD + 7] == WIHUPYA_NONE);
}

static uint32_t points(size_t n, size_t bytes)
{
    return wihupya_points(area.job, n, written, WHOLE, positions, bytes);
}

/* The points of (2,1), and that the buffer is left after the last of them. */
static void test_points(void)
{
    const uint8_t block[2 * AXES] = {0, 64, WIHUPYA_LARGEST_POSITION, 64};
    EXPECT(sizeof positions == 16384);
    memset(positions, MARK, sizeof positions);
    written[WIHUPYA_POINTS_WRITTEN] = written[WIHUPYA_POINTS_OF_BLOCK] = MARK;
    REFUSED(WIHUPYA_TOO_SHORT, points(0, AXES - 1));
    REFUSED(WIHUPYA_NO_SUCH_POINT, points(2, sizeof positions));
    REFUSED(WIHUPYA_NO_SUCH_POINT, points((size_t)1 << 32, sizeof positions));
    REFUSED(WIHUPYA_NO_SUCH_POINT, points(SIZE_MAX, sizeof positions));
    EXPECT(positions[0] == MARK);
    EXPECT(written[WIHUPYA_POINTS_WRITTEN] == MARK && written[WIHUPYA_POINTS_OF_BLOCK] == MARK);

    /* Room for one point and a part of another; then from the second on; then the whole block. */
    EXPECT(points(0, 2 * AXES - 1) == WIHUPYA_ACCEPTED);
    EXPECT(written[WIHUPYA_POINTS_WRITTEN] == 1 && written[WIHUPYA_POINTS_OF_BLOCK] == 2);
    EXPECT(memcmp(positions, block, AXES) == 0 && positions[AXES] == MARK);
    EXPECT(points(1, sizeof positions) == WIHUPYA_ACCEPTED);
    EXPECT(written[WIHUPYA_POINTS_WRITTEN] == 1 && written[WIHUPYA_POINTS_OF_BLOCK] == 2);
    EXPECT(memcmp(positions, block + AXES, AXES) == 0 && positions[AXES] == MARK);
    EXPECT(points(0, sizeof positions) == WIHUPYA_ACCEPTED);
    EXPECT(written[WIHUPYA_POINTS_WRITTEN] == 2 && written[WIHUPYA_POINTS_OF_BLOCK] == 2);
    EXPECT(memcmp(positions, block, sizeof block) == 0 && positions[sizeof block] == MARK);
}

/* From a start with threshold 0 on: the root comes, then (2,1) and (1,2) are wanted. */
static void test_steps(void)
{
    const int32_t root[1] = {-WIHUPYA_LARGEST_READING}, ends[2] = {5, WIHUPYA_LARGEST_READING};
    const int32_t beyond[2] = {5, -WIHUPYA_LARGEST_READING - 1};
    EXPECT(start(0) == WIHUPYA_ACCEPTED);
    EXPECT(deliver(root, 1, UINT32_MAX) == WIHUPYA_ACCEPTED);
    EXPECT(area.cells[WIHUPYA_CELL_INDICATOR] == UINT32_MAX && area.store[0] == root[0]);
    REFUSED(WIHUPYA_NO_BLOCK_WANTED, wihupya_point(area.job, 0, WHOLE, position, AXES));
    REFUSED(WIHUPYA_NO_BLOCK_WANTED, points(0, AXES));
    EXPECT(promoted(0));

    memset(position, MARK, sizeof position);
    REFUSED(WIHUPYA_TOO_SHORT, wihupya_point(area.job, 0, WHOLE, position, AXES - 1));
    REFUSED(WIHUPYA_NO_SUCH_POINT, wihupya_point(area.job, 2, WHOLE, position, AXES));
    REFUSED(WIHUPYA_NO_SUCH_POINT, wihupya_point(area.job, (size_t)1 << 32, WHOLE, position, AXES));
    REFUSED(WIHUPYA_NO_SUCH_POINT, wihupya_point(area.job, SIZE_MAX, WHOLE, position, AXES));
    EXPECT(position[0] == MARK);
    EXPECT(wihupya_point(area.job, 1, WHOLE, position, sizeof position) == WIHUPYA_ACCEPTED);
    EXPECT(position[0] == WIHUPYA_LARGEST_POSITION && position[1] == 64 && position[2] == MARK);
    test_points();

    REFUSED(WIHUPYA_WRONG_COUNT, deliver(ends, 0, 1));
    REFUSED(WIHUPYA_WRONG_COUNT, deliver(ends, 1, 1));
    REFUSED(WIHUPYA_READING_OUT_OF_RANGE, deliver(beyond, 2, 1));
    EXPECT(deliver(ends, 2, UINT32_MAX) == WIHUPYA_ACCEPTED);
    EXPECT(deliver(ends, 2, UINT32_MAX) == WIHUPYA_ACCEPTED);
}

/* After these: the mean in 64 signed bits, the pending error above 32 bits. */
static void test_result(void)
{
    /* The difference of an axis of level 2 is a quarter of (end - 2 centre + end). */
    const int64_t root = -WIHUPYA_LARGEST_READING, ends = 5 + WIHUPYA_LARGEST_READING;
    const int64_t mean = WIHUPYA_SCALE * root + 2 * (WIHUPYA_SCALE / 4) * (ends - 2 * root);
    EXPECT(wihupya_result(area.job, counts, WHOLE) == WIHUPYA_ACCEPTED);
    EXPECT(wihupya_unsigned_at(counts, WIHUPYA_COUNT_PENDING) == 2 * (uint64_t)UINT32_MAX);
    EXPECT(wihupya_unsigned_at(counts, WIHUPYA_COUNT_CARRIED) == 0);
    EXPECT(wihupya_signed_at(counts, WIHUPYA_COUNT_MEAN) == mean);
    EXPECT(counts[WIHUPYA_COUNT_OLD] == 1 && counts[WIHUPYA_COUNT_ACTIVE] == 2 && counts[WIHUPYA_COUNT_WANTED] == 0);
    EXPECT(counts[WIHUPYA_COUNT_RESERVED] == 5 && counts[WIHUPYA_COUNT_CEILING] == 0);
    EXPECT(wihupya_cross_total(area.job, total, WHOLE) == WIHUPYA_ACCEPTED && wihupya_signed_at(total, 0) == mean);

    area.job[WIHUPYA_JOB_PENDING] ^= 1;
    total[0] = counts[0] = MARK;
    REFUSED(WIHUPYA_NOT_SOUND, wihupya_cross_total(area.job, total, WHOLE));
    REFUSED(WIHUPYA_NOT_SOUND, wihupya_result(area.job, counts, WHOLE));
    REFUSED(WIHUPYA_NOT_SOUND, points(0, sizeof positions));
    EXPECT(total[0] == MARK && counts[0] == MARK);
}

static void test_negative_mean(void)
{
    const int32_t root[1] = {-1};
    EXPECT(start(UINT32_MAX) == WIHUPYA_ACCEPTED && deliver(root, 1, UINT32_MAX) == WIHUPYA_ACCEPTED);
    EXPECT(wihupya_signed_at(area.job, WIHUPYA_JOB_MEAN) == -WIHUPYA_SCALE);
    EXPECT(wihupya_cross_total(area.job, total, WHOLE) == WIHUPYA_ACCEPTED && wihupya_signed_at(total, 0) == -WIHUPYA_SCALE);
    EXPECT(choice_is(WIHUPYA_MET, 0));
}

/* Choose and promote are refused with this number, lent so much of the area, and leave their words. */
static void test_both_refused(uint32_t number, size_t place, size_t words, size_t readings)
{
    choice[WIHUPYA_CHOICE_ANSWER] = choice[WIHUPYA_CHOICE_PLACE] = outcome[0] = MARK;
    REFUSED(number, wihupya_choose(area.job, choice, LENT(words, readings)));
    REFUSED(number, wihupya_promote(area.job, place, outcome, LENT(words, readings)));
    EXPECT(choice[WIHUPYA_CHOICE_ANSWER] == MARK && choice[WIHUPYA_CHOICE_PLACE] == MARK && outcome[0] == MARK);
}

/* The order of the causes, each time with the next one present too; then the places that are not active. */
static void test_causes_of_choosing(void)
{
    const int32_t root[1] = {3};
    EXPECT(start(40) == WIHUPYA_ACCEPTED);
    test_both_refused(WIHUPYA_BLOCK_WANTED, SIZE_MAX, WIHUPYA_CELLS, BUDGET);
    area.job[WIHUPYA_JOB_PENDING] ^= 1;
    test_both_refused(WIHUPYA_NOT_SOUND, 0, WIHUPYA_CELLS, BUDGET);
    test_both_refused(WIHUPYA_TOO_SHORT, 0, WIHUPYA_CELLS - 1, BUDGET);
    test_both_refused(WIHUPYA_TOO_SHORT, 0, WIHUPYA_CELLS, BUDGET - 1);

    EXPECT(start(40) == WIHUPYA_ACCEPTED && deliver(root, 1, 40) == WIHUPYA_ACCEPTED);
    REFUSED(WIHUPYA_NOT_ACTIVE, promote(1));
    REFUSED(WIHUPYA_NOT_ACTIVE, promote(WIHUPYA_RECORDS));
    REFUSED(WIHUPYA_NOT_ACTIVE, promote((size_t)1 << 32));
    REFUSED(WIHUPYA_NOT_ACTIVE, promote(SIZE_MAX));
    EXPECT(outcome[0] == MARK);
}

/* After these: the job is met with its root, and is refined all the same. */
static void test_choosing(void)
{
    const int32_t root[1] = {3}, ends[2] = {3, 3};
    const uint32_t *last = area.cells + 3 * WIHUPYA_RECORD_CELLS + WIHUPYA_CELL_LEVELS;
    EXPECT(choice_is(WIHUPYA_MET, 0));
    EXPECT(promoted(0));
    EXPECT(deliver(ends, 2, 30) == WIHUPYA_ACCEPTED && deliver(ends, 2, 30) == WIHUPYA_ACCEPTED);
    EXPECT(choice_is(WIHUPYA_CHOSEN, 1));
    REFUSED(WIHUPYA_NOT_ACTIVE, promote(0));
    REFUSED(WIHUPYA_NOT_ACTIVE, promote((size_t)1 << 32 | 2));
    EXPECT(promoted(2));
    EXPECT(area.job[WIHUPYA_JOB_HELD] == 4 && last[0] == 1 && last[1] == 3);

    /* A budget of 4 has no room for the root's neighbours. */
    EXPECT(wihupya_start(area.job, AXES, 0, 4, WHOLE) == WIHUPYA_ACCEPTED && deliver(root, 1, 0) == WIHUPYA_ACCEPTED);
    EXPECT(choice_is(WIHUPYA_MET, 0));
    before = area;
    EXPECT(promote(0) == WIHUPYA_ACCEPTED && outcome[0] == WIHUPYA_SPENT);
    EXPECT(memcmp(&before, &area, sizeof area) == 0);
}

/* Runs a job until it is met or capped, with readings all 3 and this indicator for every block but that of (2,2), which has 0. */
static uint32_t run(uint32_t axes, uint64_t threshold, uint32_t indicator)
{
    int32_t block[64];
    for (size_t n = 0; n < 64; n++)
        block[n] = 3;
    EXPECT(wihupya_start(area.job, axes, threshold, BUDGET, WHOLE) == WIHUPYA_ACCEPTED);
    for (size_t place = 0;;) {
        if (place == area.job[WIHUPYA_JOB_HELD]) {
            EXPECT(choose() == WIHUPYA_ACCEPTED);
            if (choice[WIHUPYA_CHOICE_ANSWER] != WIHUPYA_CHOSEN)
                return choice[WIHUPYA_CHOICE_ANSWER];
            EXPECT(promoted(choice[WIHUPYA_CHOICE_PLACE]));
        } else {
            const uint32_t *levels = area.cells + place * WIHUPYA_RECORD_CELLS + WIHUPYA_CELL_LEVELS;
            EXPECT(points(0, sizeof positions) == WIHUPYA_ACCEPTED && written[WIHUPYA_POINTS_OF_BLOCK] <= 64);
            EXPECT(deliver(block, written[WIHUPYA_POINTS_OF_BLOCK], levels[0] == 2 && levels[1] == 2 ? 0 : indicator) == WIHUPYA_ACCEPTED);
            place++;
        }
    }
}

/* With another carried error the area is not sound: every call but start is refused. */
static void test_altered_carried(uint32_t low, uint32_t high)
{
    const int32_t block[1] = {3};
    const struct area sound = area;
    area.job[WIHUPYA_JOB_CARRIED] = low;
    area.job[WIHUPYA_JOB_CARRIED + 1] = high;
    EXPECT(!wihupya_check(area.job, WHOLE));
    REFUSED(WIHUPYA_NOT_SOUND, wihupya_point(area.job, 0, WHOLE, position, sizeof position));
    REFUSED(WIHUPYA_NOT_SOUND, points(0, sizeof positions));
    REFUSED(WIHUPYA_NOT_SOUND, deliver(block, 1, 1));
    REFUSED(WIHUPYA_NOT_SOUND, choose());
    REFUSED(WIHUPYA_NOT_SOUND, promote(0));
    REFUSED(WIHUPYA_NOT_SOUND, wihupya_result(area.job, counts, WHOLE));
    REFUSED(WIHUPYA_NOT_SOUND, wihupya_doubles(area.job, report, WHOLE));
    REFUSED(WIHUPYA_NOT_SOUND, wihupya_cross_total(area.job, total, WHOLE));
    area = sound;
    EXPECT(wihupya_check(area.job, WHOLE));
}

/* Jobs that are refined up to the highest level: 8 indices on one axis, 15 and (2,2) on two. */
static void test_carried(void)
{
    EXPECT(run(1, 9, 10) == WIHUPYA_CAPPED);
    EXPECT(wihupya_result(area.job, counts, WHOLE) == WIHUPYA_ACCEPTED);
    EXPECT(wihupya_unsigned_at(counts, WIHUPYA_COUNT_PENDING) == 0 && wihupya_unsigned_at(counts, WIHUPYA_COUNT_CARRIED) == 10);
    EXPECT(wihupya_signed_at(counts, WIHUPYA_COUNT_MEAN) == 3145728);
    EXPECT(counts[WIHUPYA_COUNT_OLD] == 8 && counts[WIHUPYA_COUNT_ACTIVE] == 0 && counts[WIHUPYA_COUNT_WANTED] == 0);
    EXPECT(counts[WIHUPYA_COUNT_RESERVED] == 129 && counts[WIHUPYA_COUNT_CEILING] == 1);
    test_altered_carried(11, 0);
    test_altered_carried(0, 0);
    test_altered_carried(10, 1);

    /* With another threshold the area is still sound, and with 10 it is met. */
    EXPECT(choice_is(WIHUPYA_CAPPED, 0));
    area.job[WIHUPYA_JOB_THRESHOLD] = 10;
    EXPECT(choice_is(WIHUPYA_MET, 0));

    /* Above 32 bits. */
    EXPECT(run(AXES, 0, UINT32_MAX) == WIHUPYA_CAPPED);
    EXPECT(wihupya_unsigned_at(area.job, WIHUPYA_JOB_CARRIED) == 2 * (uint64_t)UINT32_MAX);
    EXPECT(wihupya_result(area.job, counts, WHOLE) == WIHUPYA_ACCEPTED);
    EXPECT(wihupya_unsigned_at(counts, WIHUPYA_COUNT_CARRIED) == 2 * (uint64_t)UINT32_MAX);
    EXPECT(counts[WIHUPYA_COUNT_OLD] == 15 && counts[WIHUPYA_COUNT_ACTIVE] == 1 && counts[WIHUPYA_COUNT_CEILING] == 2);
}

/* Whether the report is these three, bit by bit, and the area as it was. */
static bool doubles_are(double mean, double pending, double largest)
{
    double expected[WIHUPYA_DOUBLES_LENGTH];
    expected[WIHUPYA_DOUBLES_MEAN] = mean;
    expected[WIHUPYA_DOUBLES_PENDING] = pending;
    expected[WIHUPYA_DOUBLES_LARGEST] = largest;
    memset(report, MARK, sizeof report);
    before = area;
    EXPECT(wihupya_doubles(area.job, report, WHOLE) == WIHUPYA_ACCEPTED);
    return memcmp(report, expected, sizeof report) == 0 && memcmp(&before, &area, sizeof area) == 0;
}

/* The job of examples/two-axes.txt, whose differences are 4160, 2048, 0 and -512; then what refuses. */
static void test_doubles_of_example(void)
{
    const int32_t root[1] = {4160}, first[2] = {64, 16448}, second[2] = {4096, 4224}, third[2] = {1088, 9280};
    EXPECT(start(40) == WIHUPYA_ACCEPTED && deliver(root, 1, 100) == WIHUPYA_ACCEPTED);
    EXPECT(promoted(0));
    EXPECT(deliver(first, 2, 50) == WIHUPYA_ACCEPTED && deliver(second, 2, 0) == WIHUPYA_ACCEPTED);
    EXPECT(promoted(1));
    EXPECT(deliver(third, 2, 10) == WIHUPYA_ACCEPTED);
    EXPECT(doubles_are(5696.0, 10.0, 4160.0));

    double marked[WIHUPYA_DOUBLES_LENGTH];
    memset(marked, MARK, sizeof marked);
    memcpy(report, marked, sizeof report);
    REFUSED(WIHUPYA_TOO_SHORT, wihupya_doubles(area.job, report, LENT(WIHUPYA_CELLS - 1, BUDGET)));
    REFUSED(WIHUPYA_TOO_SHORT, wihupya_doubles(area.job, report, LENT(WIHUPYA_CELLS, BUDGET - 1)));
    area.job[WIHUPYA_JOB_PENDING] ^= 1;
    REFUSED(WIHUPYA_NOT_SOUND, wihupya_doubles(area.job, report, WHOLE));
    REFUSED(WIHUPYA_TOO_SHORT, wihupya_doubles(area.job, report, LENT(WIHUPYA_CELLS, BUDGET - 1)));
    EXPECT(memcmp(report, marked, sizeof report) == 0);
}

/* One axis and threshold 0: the root with this reading and indicator 1, refined, then both ends. */
static void run_one_axis(int32_t root, const int32_t ends[2], uint32_t indicator)
{
    EXPECT(wihupya_start(area.job, 1, 0, BUDGET, WHOLE) == WIHUPYA_ACCEPTED && deliver(&root, 1, 1) == WIHUPYA_ACCEPTED);
    EXPECT(promoted(0));
    EXPECT(deliver(ends, 2, indicator) == WIHUPYA_ACCEPTED);
}

static void test_doubles(void)
{
    const int32_t fours[2] = {-4, -4}, quarters[2] = {-3, -4};
    EXPECT(WIHUPYA_DOUBLES_MEAN == 0 && WIHUPYA_DOUBLES_PENDING == 1 && WIHUPYA_DOUBLES_LARGEST == 2);
    EXPECT(sizeof report == 24);
    test_doubles_of_example();

    EXPECT(wihupya_start(area.job, 3, 0, BUDGET, WHOLE) == WIHUPYA_ACCEPTED);
    EXPECT(doubles_are(0.0, 0.0, 0.0));

    /* The differences 4 and -4 are of one size: that of the lower place is given. */
    run_one_axis(4, fours, 0);
    EXPECT(doubles_are(0.0, 0.0, 4.0));

    /* The area is sound with another mean too; the difference is still that of the readings. */
    run_one_axis(0, quarters, 7);
    EXPECT(doubles_are(-1.75, 7.0, -1.75));
    area.job[WIHUPYA_JOB_MEAN] = 12345;
    area.job[WIHUPYA_JOB_MEAN + 1] = 0;
    EXPECT(doubles_are(12345.0 / WIHUPYA_SCALE, 7.0, -1.75));
}

int main(void)
{
    test_start();
    test_steps();
    test_result();
    test_negative_mean();
    test_causes_of_choosing();
    test_choosing();
    test_carried();
    test_doubles();
    return EXIT_SUCCESS;
}
