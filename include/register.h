/*
 * The register of facetings: functions, every promise of which is proved
 * (docs/READING.md). They live in target/staticlib/libregister.a, which
 * `./library register` proves and writes:
 *
 *     cc -I include program.c target/staticlib/libregister.a -o program
 *
 * docs/SPECIFICATION.md says what the answer to a job is; numbers in square
 * brackets are its sections. docs/FORMAT.md has the job and the answer byte by
 * byte; examples/figures.c is a program that uses this header.
 */
#ifndef REGISTER_H
#define REGISTER_H

#include <stddef.h>
#include <stdint.h>

#ifdef __cplusplus
extern "C" {
#endif

/* The least workspace for a job of each rank, in bytes. The last serves them all. */
#define REGISTER_WORKSPACE_RANK_2 ((size_t)0)
#define REGISTER_WORKSPACE_RANK_3 ((size_t)524288)
#define REGISTER_WORKSPACE_RANK_4 ((size_t)4194304)

/*
 * Why a job is refused; the function returns minus this number. They are looked
 * for in this order, and the first that applies is returned [11.1]; 22 and 25 have
 * their place behind 9, and 18, which register_noble alone returns, its behind 11. Of 13 to 16, which come up during the work, it is the one that
 * is met first [11.4].
 */
enum register_refusal {
    REGISTER_MARK = 1,         /* under 11 bytes, or does not begin with FCT */
    REGISTER_VERSION = 2,      /* version other than 1, 2, 3 */
    REGISTER_RANK = 3,         /* rank other than 2, 3, 4 */
    REGISTER_DIMENSION = 4,    /* coordinates: fewer than rank - 1, more than 4 */
    REGISTER_POINT_COUNT = 5,  /* fewer than 2 points, more than 20 */
    REGISTER_ROW_COUNT = 6,    /* no row, more than 120 */
    REGISTER_FLAGS = 7,        /* a flag bit above bit 2 */
    REGISTER_LENGTH = 8,       /* longer or shorter than the fields say */
    REGISTER_NUMBER = 9,       /* a number not finite: or a point's or the offset's
                                  beyond 65,536 in size, the basis's beyond 1, min
                                  or max below 0 or above 131,072 */
    REGISTER_TOLERANCE = 22,   /* tolerance below 1e-9 or above 1e-3 */
    REGISTER_RULE = 25,        /* rule of crowded lines other than 1, 2 */
    REGISTER_IDENTITY = 10,    /* the first row moves a point */
    REGISTER_PERMUTATION = 11, /* a row that is no permutation */
    REGISTER_PACKAGE = 18,     /* register_noble: a package that breaks its rules */
    REGISTER_WORKSPACE = 12,   /* workspace shorter than the rank's, see above */
    REGISTER_ORBITS = 13,      /* a 257th orbit of planes (or lines) in some call */
    REGISTER_REFIT = 14,       /* points found in one plane (line) that do not give
                                  that plane (line) when it is fitted to them all */
    REGISTER_FACETS = 15,      /* a 1,025th possible facet or entry in some call */
    REGISTER_BUDGET = 16,      /* a list to examine, and the budget is used up */
    REGISTER_ROOM = 17,        /* answer buffer shorter than the answer: lend a
                                  longer one and call again */
    REGISTER_ROW = 26,         /* register_batch: a length overruns the row, or one
                                  to three bytes are left */
    REGISTER_RECORDS = 27      /* register_batch: answer buffer shorter than all
                                  records, or an answer of 2^32 bytes or more */
};

/*
 * Lists every faceting of the job's points: the figure of every closed choice of
 * facets, as said below.
 *
 * Returns the length of the answer, which is 0 or more, or minus the number of a
 * refusal, -1 to -17, -22 or -25. Nothing else is returned (code-says), and every call ends.
 *
 * What is promised, for all bytes in the three slices:
 *
 *   - After an answer of length r, the first r bytes of the answer buffer are the
 *     answer and all bytes behind them are zero.
 *   - After a refusal, the whole answer buffer is zero.
 *   - Which of the two it is, the refusal's number and each byte of the answer are
 *     determined by the job and the lengths of the other two slices. What stands
 *     in the workspace or in the answer buffer before the call makes no
 *     difference.
 *   - Lending more changes nothing but refusals 12 and 17: an answer is the same
 *     with every longer workspace and every buffer from its length on
 *     (answer-stays), and so is any other refusal (refusal-stays).
 *   - Each number of an answer is below 2^32, so its four bytes are the whole of
 *     it (accepted-words).
 *   - At ranks 3 and 4 the list is sound and complete [13.8]. A choice takes one
 *     or more possible facets, never two of one orbit; it is closed if they add
 *     up to 0 or 2 in every ridge orbit. Each entry belongs to a closed choice,
 *     which its record names: the facets of its list before splitting. If there
 *     is no entry limit, each closed choice has an entry. Where a facet's places
 *     in one ridge orbit always have the same share it has just one: the choices
 *     that the records name, in the entries' order, are all closed choices, once
 *     each. An entry limit m lets no more than max(m, 1) entries pass; under the
 *     same condition they name different choices, and there are max(m, 1), or one
 *     for each closed choice if those are fewer.
 *     Closed is a matter of these sums [1.3]. Whether each ridge of a figure lies
 *     in just two of its facets is another question: [1.4] to [1.6].
 *   - Entries stand in ascending order of their split lists, equal ones in the
 *     order in which the search emitted them.
 *   - The summary of an entry counts the points at which an edge of its figure ends,
 *     each once, its edges and its facets [12.5] (used-are-ends).
 *   - At ranks 3 and 4, if the rows are closed under composition (any row after
 *     any row is a row), every row carries each entry's figure to itself: the
 *     images of its edges, of its polygons and of its facets are its edges, its
 *     polygons and its facets [13.12].
 *   - Nothing outside the three slices is read or written, but for the stack, the
 *     job is not written, and no memory is asked for. Nothing is kept between
 *     calls, so calls may run at the same time, each on slices of its own.
 *
 * What the caller owes:
 *
 *   - Each pointer is not null, even where its length is 0, and so many bytes may
 *     be read there (job) or read and written (workspace, answer).
 *   - The workspace and the answer buffer overlap neither each other nor the job,
 *     and nobody else uses the three during the call.
 *   - There is room on the stack: the measured jobs took less than 48,000 bytes.
 *
 * The workspace may be lent again for the next call as it is. Its contents after a
 * call mean nothing.
 */
int64_t register_answer(const uint8_t *job, size_t job_length,
                        uint8_t *workspace, size_t workspace_length,
                        uint8_t *answer, size_t answer_length);

/*
 * Answers a row of jobs, each behind its length as a u32. For each job, in order,
 * it writes a record: the answer's length as a u32 (0 where the job is refused),
 * the refusal's number as a u16 (0 where it is accepted), and the answer [15.2].
 * Numbers are little-endian bytes, and a record may begin at any of them. Each
 * record is of what register_answer gives that job with the same workspace and a
 * buffer that is long enough; every job gets the whole workspace, and a refused
 * one does not hold up the others.
 *
 * Returns the length of all records, 0 for a row of no bytes, or -26 or -27.
 * After a refusal the whole answer buffer is zero, and after the records every
 * byte behind them. A row that is refused with 26 is so before any job is run.
 * examples/row.c is a program that uses it. What else is promised, and what the
 * caller owes, is as for register_answer, with the row in place of the job.
 */
int64_t register_batch(const uint8_t *row, size_t row_length,
                       uint8_t *workspace, size_t workspace_length,
                       uint8_t *answer, size_t answer_length);

/* The bytes of a tariff, and of a slip. */
#define REGISTER_TARIFF_LENGTH ((size_t)768)
#define REGISTER_SLIP_LENGTH ((size_t)1520)

/* Why there is no quote, behind all refusals of the job but 17, which comes last [16.4]
 * [16.6]. */
#define REGISTER_TARIFF 19 /* tariff of another length, or with a number above its bound */
#define REGISTER_SOLIDS 20 /* rank other than 4 */
#define REGISTER_ENTRY 21  /* not so many entries */

/*
 * What an entry of a job of rank 4 costs at a tariff, in pence, and the slip: what its
 * polygons of each edge count cost.
 *
 * Entries are counted from 0, as the answer has them. A tariff is 192 uint32_t, each
 * in four bytes, the lowest first: the price of a polygon of 1 edge, of 2, .., of 190;
 * the price of a joint; the discount in thousandths. Prices are at most 1,000,000, the
 * discount at most 1,000.
 *
 * S is the price of each polygon of the entry's figure, by its edges, and of a joint
 * for each edge of the figure. Returns floor((S * (1000 - discount) + 500) / 1000), or
 * minus the number of a refusal: those of register_answer but 17, then 19, 20, 21, and
 * 17 last, if the buffer is shorter than a slip. Nothing else is returned, and every
 * call ends.
 *
 * The slip is 190 uint64_t, each in eight bytes, the lowest first: for each edge count
 * from 1 up the price times the figure's polygons of that size, without joints and
 * before the discount. It stands at the front of the buffer, with zeros behind it;
 * after a refusal the whole buffer is zero.
 *
 * What is promised, for all bytes in the slices: value and buffer are the definition's
 * quote [16.4] and slip [16.6], at the figure of the definition's entry. Every polygon
 * has a price (sizes-priced), no total overflows (never-overflows), and the total is
 * that of the slip's numbers and the joints (adds-up). The workspace's contents before
 * make no difference and mean nothing afterwards. The caller owes what
 * register_answer's owes.
 */
int64_t register_price(const uint8_t *job, size_t job_length,
                       uint8_t *workspace, size_t workspace_length,
                       uint64_t entry,
                       const uint8_t *tariff, size_t tariff_length,
                       uint8_t *answer, size_t answer_length);

/*
 * Writes which entries of a job are plain: those in whose split list the ordered
 * walk of [8.7] finds no other entry's list of equal or smaller length whose first
 * item is not above theirs [18.2]. First how many they are, then the number of
 * each, ascending, counted from 0: little-endian u32 in a buffer of any alignment.
 * Of two entries with equal lists neither is among them; at rank 2 it writes 1, 0.
 *
 * Returns the length in bytes, 4 * (1 + how many), or minus the number of the
 * job's refusal, as register_answer does, 17 for a buffer shorter than that. The
 * length of the job's answer is not asked, and no figure is worked out. 4,100
 * bytes hold every list.
 *
 * Promised beside what is promised of register_answer: every entry whose number is
 * not written has another entry whose list stands inside its own, item by item in
 * order, of the entries that register_answer gives for the same job; so every
 * compound is left out. The converse is not: the walk ends at an item above the one
 * it looks for, and may keep an entry that another stands inside of [18.4]. What
 * the caller owes is as for register_answer.
 */
int64_t register_plain(const uint8_t *job, size_t job_length,
                       uint8_t *workspace, size_t workspace_length,
                       uint8_t *answer, size_t answer_length);

/*
 * Lists the figures of a job that may be the facets of noble figures: figures of one
 * facet kind. The package tells of a full set of points, of which the job's are some:
 * a u16 number of full rows, 1 to 120; a u8 g, the points of the full set, 2 to 20; a
 * u16 count, 1 to 65,535; the global number of each of the job's n points, a byte
 * each, below g and no two the same; then the full rows, permutations of the g
 * points, a byte a number, the first of them the identity [17.2]. Numbers are
 * little-endian. A package that is not so is refused with 18, after 11 and before 12
 * [17.3].
 *
 * The answer is in register_answer's form, and so is the return value, which may be
 * -18 too. From rank 3 on it is that of the call in which, when all orbits are found
 * and counted by 13, those are dropped that the package does not keep [17.6], and in
 * which a closed choice is not extended [17.9]; calls one rank below take no package.
 * At rank 2 the answer is the one without a package.
 *
 * Promised, for all bytes in the four slices: return value and buffer are the
 * definition's [17.10], determined by job, package and the lengths of the other two,
 * with zeros behind an answer and throughout after a refusal. Each entry is that of
 * a closed choice over the kept orbits, which its record names. If there is no entry
 * limit, and a facet's places in one ridge orbit always have the same share, the
 * choices that the records name are just the closed choices over the kept orbits
 * with no closed choice properly inside them, once each [17.11]. Rows that are
 * closed under composition carry each figure to itself [13.12]. What the caller owes
 * is as for register_answer; the package is read and not written.
 */
int64_t register_noble(const uint8_t *job, size_t job_length,
                       const uint8_t *package, size_t package_length,
                       uint8_t *workspace, size_t workspace_length,
                       uint8_t *answer, size_t answer_length);

#ifdef __cplusplus
}
#endif

#endif
