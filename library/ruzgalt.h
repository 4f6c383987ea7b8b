/* Divides, joins, anti-joins, aggregates and checks rows with periods. Each answer is proved to be the one that is
 * described here.
 *
 * A list is a pointer followed by a length. Row k has the values at index k of its side's lists. It holds from second
 * from[k] to before second to[k], counted from 1970-01-01T00:00:00, in the years 0001 to 9999. A class or a group is
 * any number. A list may have at most RUZGALT_ROWS rows. All input is tested.
 *
 * The caller must ensure that
 * - each pointer points to as many values as its length says, or to one without a length, and is never NULL,
 * - memory that a function writes overlaps none of its other arguments,
 * - during a call, no other code writes the arguments, or reads the ones that the function writes,
 * - malloc, realloc and free are one allocator that aligns to 16 bytes, and no signal handler calls a function.
 *
 * Any number of threads may call at once. No function keeps anything, starts a thread, or needs more than malloc. */
#ifndef RUZGALT_H
#define RUZGALT_H

#include <stddef.h>
#include <stdint.h>

#ifdef __cplusplus
extern "C" {
#endif

/* The most rows that a list may have. */
#define RUZGALT_ROWS 1000000

/* The code that a function returns: RUZGALT_DONE if it has written an answer, otherwise the reason why it hasn't.
 * Then the lists of the answer are unspecified; only count is right, and only after RUZGALT_NO_ROOM. */
enum ruzgalt_code {
  RUZGALT_DONE = 0,
  RUZGALT_UNEVEN = 1,      /* lists that must have equal lengths don't */
  RUZGALT_TOO_MANY = 2,    /* a list has more than RUZGALT_ROWS rows, or there are more parts */
  RUZGALT_NO_PERIOD = 3,   /* some row doesn't end after it starts, or isn't in the years 0001 to 9999 */
  RUZGALT_NO_MEMORY = 4,   /* malloc or realloc returned NULL */
  RUZGALT_NO_ROOM = 5,     /* the lists of the answer are too short; count is the length they need */
  RUZGALT_NO_FUNCTION = 6  /* function isn't one of enum ruzgalt_function */
};

/* Returns the version of the library: the time of its commit in UTC, such as 20241231.235959. */
const char *ruzgalt_version(void);

/* Divides rows into the fewest parts in which no two rows overlap. Writes the number of row k's part, counted from 0,
 * to part[k], and the number of parts to parts. Writes to instant the first second at which the number of rows that
 * hold equals the number of parts; without rows, instant stays as it is. from, to and part have equal lengths. */
int32_t ruzgalt_dip(const int64_t *from, size_t from_len, const int64_t *to, size_t to_len,
                    uint32_t *part, size_t part_len, uint32_t *parts, int64_t *instant);

/* Finds the pairs of a left and a right row that have the same class and share an instant. Writes the indices of both
 * rows and the period that they share to left, right, from and to, by start, end, left index and right index, and the
 * number of pairs to count. The three lists of a side have equal lengths, and so have the four of the answer. */
int32_t ruzgalt_join(const uint64_t *left_class, size_t left_class_len,
                     const int64_t *left_from, size_t left_from_len, const int64_t *left_to, size_t left_to_len,
                     const uint64_t *right_class, size_t right_class_len,
                     const int64_t *right_from, size_t right_from_len, const int64_t *right_to, size_t right_to_len,
                     uint32_t *left, size_t left_len, uint32_t *right, size_t right_len,
                     int64_t *from, size_t from_len, int64_t *to, size_t to_len, uint64_t *count);

/* Finds the maximal periods in which a left row holds and no right row of its class does. Writes the left row's index
 * and the period to left, from and to, by index and start, and the number of periods to count. The three lists of a
 * side have equal lengths, and so have the three of the answer. */
int32_t ruzgalt_anti(const uint64_t *left_class, size_t left_class_len,
                     const int64_t *left_from, size_t left_from_len, const int64_t *left_to, size_t left_to_len,
                     const uint64_t *right_class, size_t right_class_len,
                     const int64_t *right_from, size_t right_from_len, const int64_t *right_to, size_t right_to_len,
                     uint32_t *left, size_t left_len, int64_t *from, size_t from_len, int64_t *to, size_t to_len,
                     uint64_t *count);

/* The aggregate of the rows of a group that hold at an instant. */
enum ruzgalt_function {
  RUZGALT_COUNT = 0,  /* their number; amount is ignored, but has the same length as the others */
  RUZGALT_SUM = 1,    /* the sum of their amounts */
  RUZGALT_MIN = 2,    /* the minimum of their amounts */
  RUZGALT_MAX = 3     /* the maximum of their amounts */
};

/* Finds the maximal periods in which rows of a group hold and their aggregate has one value. Writes the group and the
 * period to of_group, starts and ends, by group and start, the low 64 bits of the value to low, and the high 64 bits
 * to high. Writes the number of periods to count; it is at most twice the number of rows. The four lists of the rows
 * have equal lengths, and so have the five of the answer. */
int32_t ruzgalt_agg(const uint64_t *group, size_t group_len, const int64_t *from, size_t from_len,
                    const int64_t *to, size_t to_len, const int64_t *amount, size_t amount_len, uint32_t function,
                    uint64_t *of_group, size_t of_group_len, int64_t *starts, size_t starts_len,
                    int64_t *ends, size_t ends_len, uint64_t *low, size_t low_len, int64_t *high, size_t high_len,
                    uint64_t *count);

/* The first fault of a division, in this order. */
enum ruzgalt_verdict {
  RUZGALT_DIVIDED = 0,      /* none: no two rows of a part overlap, and no division has fewer parts */
  RUZGALT_EMPTY_PART = 2,   /* part first is empty */
  RUZGALT_MISSING = 5,      /* row first is in no part: its number isn't below parts */
  RUZGALT_OVERLAP = 6,      /* the rows first and second of one part overlap */
  RUZGALT_NOT_CROWDED = 7   /* first rows hold at the instant, not as many as there are parts */
};

/* Checks a claimed division: row k is in part part[k], the parts are numbered from 0 to parts - 1, and parts rows hold
 * at second instant, which is ignored if there are no rows. Writes the first fault to verdict, and its numbers to
 * first and second. from, to and part have equal lengths. */
int32_t ruzgalt_check(const int64_t *from, size_t from_len, const int64_t *to, size_t to_len,
                      const uint32_t *part, size_t part_len, uint32_t parts, int64_t instant,
                      uint32_t *verdict, uint64_t *first, uint64_t *second);

#ifdef __cplusplus
}
#endif

#endif
