/*
 * Wihupya, the sparse-grid integrator, for callers in C (C99) and C++. Link target/staticlib/libwihupya.a, which `make exported`
 * writes for x86-64 Linux; of other libraries it needs memcpy and memset alone.
 *
 * The library decides which points to measure and averages the readings. You measure. A job runs like this (as a program:
 * examples/pump-in-c/pump.c):
 *
 *     wihupya_start    once: the number of axes, the threshold, the budget
 *     wihupya_points   the points of the block that is wanted, many at once; wihupya_point gives one at a time
 *     wihupya_deliver  the readings at these points, in the same order, and an indicator of how much the block matters
 *     ...              the next block, until wihupya_points says WIHUPYA_NO_BLOCK_WANTED
 *     wihupya_choose   tells the place where the indicator is largest; ends with met or capped
 *     wihupya_promote  refines there, or at any other active place, so that further blocks are wanted, if any; or says spent
 *     wihupya_result   the mean; wihupya_doubles gives it as a double
 *
 * WHAT YOU LEND. The library has no memory of its own. A job lives in three arrays of yours, its work area, which you hand to
 * every call; between calls you may copy them, save them or move them, for they hold numbers and no pointers.
 *
 *     job      WIHUPYA_JOB_WORDS words
 *     cells    at least WIHUPYA_CELLS words: WIHUPYA_RECORDS index records of WIHUPYA_RECORD_CELLS each; `words` is its length
 *     store    at least as many readings as the budget, so WIHUPYA_LARGEST_BUDGET always do; `readings` is its length
 *
 * WHAT YOU SEE TO.
 *   - A pointer is never null, not even with a length of 0, and points to an array of the type declared here.
 *   - That array has as many elements as the parameter's brackets or the length after it say. Lengths count elements, not bytes.
 *   - An array that a call may write (no const) overlaps no other array of the same call: the readings that you deliver may not
 *     lie in the store.
 *   - While a call runs nothing else writes its arrays, nor reads those that it may write. Jobs in different work areas can run
 *     in different threads.
 *
 * Everything else is the library's. Every call has a defined answer to every number, reading and length, and to every content of
 * the arrays: old, altered, garbage or never set.
 *
 * STACK. Measured with an older compiler (rattle-kit-5b), on jobs at both ceilings and with 512 indices: wihupya_deliver and wihupya_doubles take up to 16 KB of stack,
 * wihupya_promote 5 KB, wihupya_cross_total 3 KB, every other call less than 1 KB.
 *
 * LATER RELEASES. Words, doubles and values of a word are only ever appended, never moved. When they are, compile anew with the new header: the arrays that
 * you lend become longer. There is no version word: an area that an earlier release saved has to be started anew; do not count on
 * a call to tell it. The order of a block's points (wihupya_point) changed once: before, every row began at its lower end. Job files from then have to be
 * written anew, though their form and the reports that they give are the same. The carried error came later: with it job records have
 * two words more, result gives two words more, and what was met before may be capped (see wihupya_choose). Choosing and promoting became two
 * calls: before, wihupya_promote took no place, chose by itself, and answered met and capped too. Call wihupya_choose instead, and where it
 * answers a place, wihupya_promote with that place: a job that goes on so is the same as before. No word of the job record moved, and job files
 * stay as they are. Then the program, not a call, came to tell which part of a malformed job file is at fault: what was number 10 is 10, 12 or 13. Then
 * wihupya_promote came to take 4 KB of stack more, and to need memset; its answers are the same.
 * Kept for later, and none of them in use: job words 12 to 17 (means of outputs 2 to 4), 18 (outputs), 19 (edition) and 20 (weight); words 11
 * to 16 (further means) of result.
 *
 * WHAT A CALL RETURNS. 0 if it did what you asked, else the number of the cause for which it refused; a refused call leaves
 * everything that you lent as it was. Only wihupya_check cannot be refused: it returns its answer.
 */
#ifndef WIHUPYA_H
#define WIHUPYA_H

#include <stdbool.h>
#include <stddef.h>
#include <stdint.h>

#ifdef __cplusplus
extern "C" {
#endif

/* Limits. */
#define WIHUPYA_MOST_AXES 8
#define WIHUPYA_HIGHEST_LEVEL 8         /* of an axis, from 1 */
#define WIHUPYA_HIGHEST_EXCESS 12       /* of an index: the sum of (level - 1) over its axes */
#define WIHUPYA_RECORDS 512             /* the most indices of a job, and the fewest records to lend */
#define WIHUPYA_LARGEST_BUDGET 8192     /* in readings */
#define WIHUPYA_LARGEST_BLOCK 2048      /* no block has more points, which the ceilings of level and excess see to */
#define WIHUPYA_LARGEST_READING 1048576 /* a reading lies between minus this and this */
#define WIHUPYA_LARGEST_POSITION 128    /* a position on an axis lies between 0 and this; 64 is the centre */
#define WIHUPYA_SCALE 1048576           /* the scaled mean is the mean times this */

/* Lengths in 32-bit words. */
#define WIHUPYA_JOB_WORDS 12
#define WIHUPYA_RECORD_CELLS 27
#define WIHUPYA_CELLS (WIHUPYA_RECORDS * WIHUPYA_RECORD_CELLS)
#define WIHUPYA_POINTS_WORDS 2
#define WIHUPYA_CHOICE_WORDS 2
#define WIHUPYA_OUTCOME_WORDS 1
#define WIHUPYA_COUNT_WORDS 11
#define WIHUPYA_TOTAL_WORDS 2

/* Length in doubles. */
#define WIHUPYA_DOUBLES_LENGTH 3

/* Causes of a refusal. Where several apply, the lowest number is returned. (10, 12 and 13 are the program's: a fault in the header, the
 * entry table or the readings of a job file. No call returns them.) */
#define WIHUPYA_ACCEPTED 0             /* not refused */
#define WIHUPYA_AXES_OUT_OF_RANGE 1    /* start: the axes are not 1 to 8 */
#define WIHUPYA_BUDGET_OUT_OF_RANGE 2  /* start: the budget is not 1 to 8,192 */
/* 3: fewer than 512 records, a store under the budget, or the buffer of point or points under the axes. But for start, the budget and the
 * axes are those that the job record holds, whatever they are: an area that was never started may answer 3 as well as 4. */
#define WIHUPYA_TOO_SHORT 3
#define WIHUPYA_NOT_SOUND 4            /* the work area is not sound: it was never started, or something else wrote it */
#define WIHUPYA_NO_BLOCK_WANTED 5      /* point, points, deliver: all blocks are delivered, so choose and promote */
#define WIHUPYA_BLOCK_WANTED 6         /* choose, promote: a block is not delivered yet */
#define WIHUPYA_WRONG_COUNT 7          /* deliver: the block has another number of readings */
#define WIHUPYA_READING_OUT_OF_RANGE 8 /* deliver: a reading is below -1,048,576 or above 1,048,576 */
#define WIHUPYA_NO_SUCH_POINT 9        /* point, points: n is not below the number of the block's points */
#define WIHUPYA_NOT_ACTIVE 11          /* promote: the place is not that of an active index: it is refined already, or no index is there */

/* What wihupya_choose answers. */
#define WIHUPYA_MET 0    /* the pending and the carried error together are at most the threshold: the job is done */
#define WIHUPYA_CAPPED 3 /* the pending error is at most the threshold, but not together with the carried error, which no refining takes away */
#define WIHUPYA_CHOSEN 4 /* the pending error is above the threshold: the place comes with it */

/* Outcomes of wihupya_promote. */
#define WIHUPYA_SPENT 1    /* refining there would take more readings than the budget, or more than 512 indices */
#define WIHUPYA_PROMOTED 2 /* refined; wihupya_points tells whether a block is wanted now */

/* The words of a job record. A 64-bit number takes two words, the low one first: see wihupya_unsigned_at. */
#define WIHUPYA_JOB_THRESHOLD 0 /* 64 bits */
#define WIHUPYA_JOB_PENDING 2   /* 64 bits: the pending error */
#define WIHUPYA_JOB_MEAN 4      /* 64 bits, signed: the scaled mean */
#define WIHUPYA_JOB_AXES 6
#define WIHUPYA_JOB_BUDGET 7
#define WIHUPYA_JOB_HELD 8     /* the number of indices */
#define WIHUPYA_JOB_RESERVED 9 /* the readings that their blocks take together */
#define WIHUPYA_JOB_CARRIED 10 /* 64 bits: the carried error */

/* The words that wihupya_points writes. */
#define WIHUPYA_POINTS_WRITTEN 0  /* how many points it wrote */
#define WIHUPYA_POINTS_OF_BLOCK 1 /* how many points the block has, whatever n is */

/* The words that wihupya_choose writes. */
#define WIHUPYA_CHOICE_ANSWER 0 /* WIHUPYA_MET, WIHUPYA_CAPPED or WIHUPYA_CHOSEN */
#define WIHUPYA_CHOICE_PLACE 1  /* the place that is chosen; 0 too where none is, so look at the answer first */

/* The words that wihupya_result writes. */
#define WIHUPYA_COUNT_PENDING 0  /* 64 bits: the pending error, the sum of the active indices' indicators */
#define WIHUPYA_COUNT_MEAN 2     /* 64 bits, signed: the scaled mean */
#define WIHUPYA_COUNT_OLD 4      /* indices that are refined */
#define WIHUPYA_COUNT_ACTIVE 5   /* indices that are delivered and not refined */
#define WIHUPYA_COUNT_WANTED 6   /* indices whose block is not delivered */
#define WIHUPYA_COUNT_RESERVED 7 /* the readings that all their blocks take together */
#define WIHUPYA_COUNT_CEILING 8  /* how often refining would have passed level 8 or excess 12 */
#define WIHUPYA_COUNT_CARRIED 9  /* 64 bits: the carried error, the sum of the indicators of refined indices at a ceiling */

/* The doubles that wihupya_doubles writes, IEEE 754 numbers of 64 bits. */
#define WIHUPYA_DOUBLES_MEAN 0    /* the mean, in the unit of your readings: the scaled mean divided by WIHUPYA_SCALE */
#define WIHUPYA_DOUBLES_PENDING 1 /* the pending error, in the unit of your indicators */
#define WIHUPYA_DOUBLES_LARGEST 2 /* the largest delivered difference, with its sign, in the unit of your readings */

/*
 * The cells of an index record, for callers who want to look into the grid. The record of place p begins at cell
 * p * WIHUPYA_RECORD_CELLS. Axis a, from 1, has cell a - 1 of the eight that belong to levels and to each kind of link.
 */
#define WIHUPYA_CELL_LEVELS 0    /* 8 cells: the levels; 1 beyond the job's axes */
#define WIHUPYA_CELL_STATE 8     /* WIHUPYA_WANTED, WIHUPYA_ACTIVE or WIHUPYA_OLD */
#define WIHUPYA_CELL_INDICATOR 9 /* the indicator that came with the block; 0 while it is wanted */
#define WIHUPYA_CELL_FIRST 10    /* where the block's readings begin in the store, in the order of wihupya_point */
#define WIHUPYA_CELL_FORWARD 11  /* 8 cells: the place of the index with this axis' level one higher, or WIHUPYA_NONE */
#define WIHUPYA_CELL_BACKWARD 19 /* 8 cells: the place of the index with this axis' level one lower, or WIHUPYA_NONE */

#define WIHUPYA_WANTED 0
#define WIHUPYA_ACTIVE 1
#define WIHUPYA_OLD 2
#define WIHUPYA_NONE 4294967295u

/*
 * Starts a job: its first block, the single centre point, is wanted. What the work area held before does not matter. Writes the
 * job record and the first record.
 *
 *   axes       the number of varying dimensions, 1 to 8
 *   threshold  wihupya_choose tells a place while the pending error is above this, in the unit of your indicators; any number
 *   budget     the most readings that the job may ask for, 1 to 8,192
 *
 * Refused with 1, 2 or 3.
 */
uint32_t wihupya_start(uint32_t job[WIHUPYA_JOB_WORDS], uint32_t axes, uint64_t threshold, uint32_t budget, uint32_t *cells,
                       size_t words, const int32_t *store, size_t readings);

/*
 * Tells a point to measure: point n, from 0, of the first block that is wanted. Writes its positions, one byte for each axis of
 * the job, axis 1 first, to the front of the buffer, and no other byte. Position p stands for lower + p / 128 * (upper - lower) of the
 * dimension's limits: 0 for the lower one, 128 for the upper one. The mean weighs all values between the limits alike.
 *
 * A block's points come in an order in which a rig need not jump back. Axis 1 rises, and each later axis rises or falls as the rank of the
 * earlier axes' point in this walk, from 0, is even or odd: behind the first of their points it goes up, behind the second down, and so on.
 * So two points in a row differ on one axis only, and there by one step among the block's positions on that axis. Where two axes have the
 * positions 0 and 128, the points are (0,0), (0,128), (128,128), (128,0). A block's readings are delivered, kept in the reading store and
 * written to a job file in the same order.
 *
 *   n       the number of the point in its block; readings are delivered in this order
 *   buffer  at least as many bytes as the job has axes (8 suffice for every job); `bytes` is its length
 *
 * Refused with 3, 4, 5 or 9.
 */
uint32_t wihupya_point(const uint32_t job[WIHUPYA_JOB_WORDS], size_t n, const uint32_t *cells, size_t words, const int32_t *store,
                       size_t readings, uint8_t *buffer, size_t bytes);

/*
 * Tells many points to measure: those of the first block that is wanted from point n on, as many as the block has left and the buffer has
 * room for. Writes the positions of each as wihupya_point does, one point directly after the other, and no byte after the last of them. A
 * buffer of WIHUPYA_LARGEST_BLOCK * WIHUPYA_MOST_AXES = 16,384 bytes has room for any block as a whole. For a block in pieces, the next n
 * is n plus the points written, until that is the number of the block's points. Every call tests the whole work area first, so that few
 * calls for many points each take far less time than a call for each point.
 *
 *   n       the number in the block of the first point to write; 0 for the whole block
 *   points  becomes two words: WIHUPYA_POINTS_WRITTEN, at least one, and WIHUPYA_POINTS_OF_BLOCK
 *   buffer  at least as many bytes as the job has axes; `bytes` is its length, which need be no multiple of them
 *
 * Refused as wihupya_point is, with 3, 4, 5 or 9; points and buffer are then left as they were.
 */
uint32_t wihupya_points(const uint32_t job[WIHUPYA_JOB_WORDS], size_t n, uint32_t points[WIHUPYA_POINTS_WORDS], const uint32_t *cells,
                        size_t words, const int32_t *store, size_t readings, uint8_t *buffer, size_t bytes);

/*
 * Delivers the first block that is wanted: stores its readings, adds the indicator to the pending error and the block's difference
 * to the mean.
 *
 *   block      the readings at points 0, 1, 2, ...; `count` is their number
 *   indicator  how much the block promises to matter, in any unit of yours; any number. wihupya_choose tells where it is largest
 *
 * Refused with 3, 4, 5, 7 or 8.
 */
uint32_t wihupya_deliver(uint32_t job[WIHUPYA_JOB_WORDS], const int32_t *block, size_t count, uint32_t indicator, uint32_t *cells,
                         size_t words, int32_t *store, size_t readings);

/*
 * Chooses: while the pending error is above the threshold, whatever is carried, tells the place of the active index of largest indicator, the
 * lowest of several. When the pending error is at most the threshold, the job is met if pending and carried error together are; otherwise it
 * is capped. Writes no part of the work area.
 *
 *   choice  becomes two words: WIHUPYA_CHOICE_ANSWER and WIHUPYA_CHOICE_PLACE
 *
 * Refused with 3, 4 or 6; choice is then left as it was.
 */
uint32_t wihupya_choose(const uint32_t job[WIHUPYA_JOB_WORDS], uint32_t choice[WIHUPYA_CHOICE_WORDS], const uint32_t *cells,
                        size_t words, const int32_t *store, size_t readings);

/*
 * Promotes: refines the active index at a place, whatever the threshold is and whichever place would be chosen. Does not write the store.
 *
 * The place that wihupya_choose tells is one; it may be any other, where you know better what to refine first. An index keeps its place, from
 * 0 to below WIHUPYA_JOB_HELD, in the order in which the blocks are wanted; its record (WIHUPYA_CELL_...) has its levels and whether it is
 * active.
 *
 * Along each axis the index one level higher is then wanted, if it is within level 8 and excess 12 and every index that is one level lower
 * than it on some axis is refined: refining (2,1) makes (3,1) wanted, and (2,2) only if (1,2) is refined too. There may be none. Spent speaks of
 * this place: another may have room.
 *
 * Refining takes the index's indicator out of the pending error. Where the index is at a ceiling, that is, where along at least one axis of the
 * job it cannot be refined without passing level 8 or excess 12, the indicator joins the carried error instead, once, since what it stood for
 * is not looked into there.
 *
 *   place    the place of the index to refine; any number
 *   outcome  becomes WIHUPYA_SPENT, which leaves the work area as it was, or WIHUPYA_PROMOTED
 *
 * Refused with 3, 4, 6 or 11; outcome is then left as it was.
 */
uint32_t wihupya_promote(uint32_t job[WIHUPYA_JOB_WORDS], size_t place, uint32_t outcome[WIHUPYA_OUTCOME_WORDS], uint32_t *cells,
                         size_t words, const int32_t *store, size_t readings);

/*
 * Gives the counts of the job, its pending and its carried error and its scaled mean as they are recorded. Can be called at any time.
 *
 *   counts  becomes the eleven words WIHUPYA_COUNT_...
 *
 * Refused with 3 or 4; counts is then left as it was.
 */
uint32_t wihupya_result(const uint32_t job[WIHUPYA_JOB_WORDS], uint32_t counts[WIHUPYA_COUNT_WORDS], const uint32_t *cells,
                        size_t words, const int32_t *store, size_t readings);

/*
 * Gives the mean, the pending error and the largest delivered difference as doubles, for plotting packages and other software that reads
 * doubles: a companion of wihupya_result, by which the mean is still judged. Nothing is lost: each double is exactly the number. Can be
 * called at any time.
 *
 * Mean and pending error are the recorded ones, as in wihupya_result. The largest difference is worked out from the readings in the store,
 * since nothing records it: of the delivered blocks' differences, which in a work area that only calls have written are what they add to the
 * mean, the one of largest size, given with its sign; where several have that size, the one of the lowest place. With nothing delivered all
 * three are 0. A zero is +0, never -0. Every delivered difference is worked out anew, so this takes longer than wihupya_result.
 *
 *   report  becomes the three doubles WIHUPYA_DOUBLES_...
 *
 * Refused as wihupya_result is, with 3 or 4; report is then left as it was, bit for bit.
 */
uint32_t wihupya_doubles(const uint32_t job[WIHUPYA_JOB_WORDS], double report[WIHUPYA_DOUBLES_LENGTH], const uint32_t *cells,
                         size_t words, const int32_t *store, size_t readings);

/*
 * Works the scaled mean out anew, from the readings in the store and by another formula. In a work area that only calls have
 * written it is the mean of wihupya_result.
 *
 *   total  becomes the signed 64-bit number, its low word first: wihupya_signed_at(total, 0)
 *
 * Refused with 3 or 4; total is then left as it was.
 */
uint32_t wihupya_cross_total(const uint32_t job[WIHUPYA_JOB_WORDS], uint32_t total[WIHUPYA_TOTAL_WORDS], const uint32_t *cells,
                             size_t words, const int32_t *store, size_t readings);

/*
 * Whether the work area is sound and what was lent is long enough, so that no call but start would be refused with 4, or with 3 but for
 * the buffer of point or points. (Start has a budget of its own, for which the store may be too short.) True after every start that was
 * accepted; worth asking after an area came from a file or from elsewhere.
 */
bool wihupya_check(const uint32_t job[WIHUPYA_JOB_WORDS], const uint32_t *cells, size_t words, const int32_t *store,
                   size_t readings);

/* The 64-bit number whose low word stands at `at`, its high word after it: wihupya_unsigned_at(counts, WIHUPYA_COUNT_PENDING). */
static inline uint64_t wihupya_unsigned_at(const uint32_t *words, size_t at)
{
    return (uint64_t)words[at] | (uint64_t)words[at + 1] << 32;
}

/* The same for a signed number: wihupya_signed_at(counts, WIHUPYA_COUNT_MEAN). */
static inline int64_t wihupya_signed_at(const uint32_t *words, size_t at)
{
    uint64_t bits = wihupya_unsigned_at(words, at);
    return bits <= (uint64_t)INT64_MAX ? (int64_t)bits : -1 - (int64_t)(UINT64_MAX - bits);
}

#ifdef __cplusplus
}
#endif

#endif
