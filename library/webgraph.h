/* Archives of web graphs (BVGraph, version 0) that lie in the caller's memory.
 *
 * No call keeps anything: there is no handle, nothing to open or to close, and threads may call at once. A call is told
 * the parameters, the bytes of the files and arrays of its caller; it answers a status, which is the exit status of the
 * program where that has one. What it gives at which status is proved. What a caller owes is in the last comment.
 *
 * Pages count from 0. A length counts the elements of its array, and is exact where nothing else is said. A place is a
 * bit of the graph file, from 0. No call reads an array before it knows that its length is right, and each ends: its
 * time is linear in what it is lent, but where its comment says else. Status 2 comes before any other.
 */
#ifndef WEBGRAPH_H
#define WEBGRAPH_H

#include <stddef.h>
#include <stdint.h>

#ifdef __cplusplus
extern "C" {
#endif

enum {
    WG_DONE = 0,
    WG_USAGE = 2,          /* these are the parameters of no archive, or an array has not the length that they tell */
    WG_MEMORY = 3,         /* malloc gave none; the arrays have no meaning, and the call may be made again */
    WG_BAD_PROPERTIES = 8, /* the text is no properties file of such an archive */
    WG_BAD_ARCHIVE = 9,    /* the first fault is told */
    WG_NO_PAGE = 10,       /* a page is not below `nodes` */
    WG_BAD_WEIGHTS = 12,   /* a weight is above 2^32 - 1, or there are pages and each weight is 0 */
    WG_BAD_BOUNDS = 16,    /* these are no lower bounds that a round proves */
    WG_NO_ROOM = 17,       /* there is more to write than room */
    WG_BAD_PLACES = 18     /* by the places, a record would end before it begins */
};

/* The parameters of an archive: pages, arcs, the window of references (0: none), the longest chain of references
 * (UINT64_MAX: no limit), the least length of an interval (0: no intervals), and the codes of the fields. A code is 0
 * for unary, 1 gamma, 2 delta, 3 zeta with the parameter `zeta`, 4 nibbles. */
typedef struct {
    uint64_t nodes, arcs, window, chain, interval;
    uint32_t zeta, outdegrees, references, block_counts, blocks, residuals, offsets;
} wg_params;

/* The first fault of an archive, written at status 9 alone.
 *
 *   which  what                           page                    at                found, stored
 *     1    a field of a record            its page                its bit           0, 0
 *     2    bits after the records         0                       the bit           0, 0
 *     3    too few arcs                   0                       how many          0, 0
 *     4    a length of the offsets        the page of the record  0                 its bits by graph, by offsets
 *     5    a word of the offsets is cut   the number of the word  0                 0, 0
 *     6    no word of their code          the number of the word  0                 0, 0
 *     7    the first word is not 0        0                       0                 0, 0
 *     8    a word tells too large a place the number of the word  0                 0, 0
 *     9    bits after the words           0                       the bit           0, 0
 *
 * `field` is 0 the outdegree, 1 the reference, 2 the count of copy blocks, 3 a copy block, 4 what is copied, 5 the
 * count of intervals, 6 the left end of one, 7 its length, 8 a residual, 9 the whole record. `kind` is 0 the file ends,
 * 1 no word of the code, 2 a value that is not allowed there, 3 too many references after one another, 4 more arcs than
 * the parameters say, 5 more successors are copied than the page has, 6 a successor comes twice. */
typedef struct {
    uint32_t which, field, kind;
    uint64_t page, at, found, stored;
} wg_fault;

/* A number of 128 bits: low + 2^64 * high. */
typedef struct {
    uint64_t low, high;
} wg_wide;

/* The parameters that a .properties text stands for. Written at status 0 alone. Status 0, 8. */
uint32_t wg_read_properties(const uint8_t *text, size_t length, wg_params *params);

/* The places of all records, from a .offsets file: `count` is nodes + 1, and the last place is the end. It takes no
 * memory. At status 9 the places have no meaning. Status 0, 2, 9. */
uint32_t wg_read_offsets(const wg_params *params, const uint8_t *file, size_t length, uint64_t *places, size_t count,
                         wg_fault *fault);

/* The .offsets file of places, at the front of an array: `count` is nodes + 1, the first place is 0, and none is past
 * the last bit that a graph file may have, 2^49; else the status is 2, or 18 where a place is below the one before. At
 * status 0 the first *length bytes are the file, and the others are as before; at 17 the file is longer than `room`
 * (16 * count is enough), *length is not told, and what stands in the array has no meaning; at 2 and 18 nothing is
 * written. It takes no memory. Status 0, 2, 17, 18. */
uint32_t wg_write_offsets(const wg_params *params, const uint64_t *places, size_t count, uint8_t *file, size_t room,
                          uint64_t *length);

/* The successors of one page, ascending, of an archive that nobody has checked. Only the records of the page's chain of
 * references are read, and these are validated; `count` is nodes + 1. At status 0 the first *outdegree numbers of `out`
 * are written, and at any other none; at 0 and 17 *outdegree is how many successors there are, so that an array of that
 * length is enough. Time and memory are linear in the lists of the chain. Status 0, 2, 3, 9, 10, 17, 18. */
uint32_t wg_successors(const wg_params *params, const uint8_t *graph, size_t length, const uint64_t *places,
                       size_t count, uint64_t page, uint64_t *out, size_t room, uint64_t *outdegree, wg_fault *fault);

/* The successors of several pages, in any order, one list after the other: that of pages[i] ends before out[ends[i]],
 * and begins where the one before it ends. `ends_room` is at least `how_many`. At each status but 2, where nothing is
 * told, *done lists stand in the arrays; if the status is not 0, pages[*done] is why. After 17 a call for the rest of
 * the pages, with an empty array, goes on. Each list costs what a call of wg_successors does. Status 0, 2, 3, 9, 10,
 * 17, 18. */
uint32_t wg_successors_of(const wg_params *params, const uint8_t *graph, size_t length, const uint64_t *places,
                          size_t count, const uint64_t *pages, size_t how_many, uint64_t *ends, size_t ends_room,
                          uint64_t *out, size_t room, uint64_t *done, wg_fault *fault);

/* The successors of the pages first, first + 1 and so on, `pages` of them, one list after the other, as
 * wg_successors_of has them: that of page first + i ends before out[ends[i]]. At each status but 2, where nothing is
 * told, *done lists stand in the arrays; if the status is not 0, page first + *done is why. After 17 a call from that
 * page on, with an empty array, goes on. Each record of the range is decoded once; a page before the range is read as
 * by wg_successors, each time that a record of the range refers to it. Memory for 8 bytes a page of the range and a few
 * lists. Several threads may read ranges of one archive at once. Status 0, 2, 3, 9, 10, 17, 18. */
uint32_t wg_read_range(const wg_params *params, const uint8_t *graph, size_t length, const uint64_t *places,
                       size_t count, uint64_t first, uint64_t *ends, size_t pages, uint64_t *out, size_t room,
                       uint64_t *done, wg_fault *fault);

/* The whole graph, validated: the successors of page x end before all[ends[x]], and begin where those of x - 1 end, or
 * at all[0]. `nodes` and `arcs` are those of the parameters. Memory for the lists of a window. At any status but 0 the
 * arrays have no meaning. Status 0, 2, 3, 9. */
uint32_t wg_read_lists(const wg_params *params, const uint8_t *graph, size_t length, uint64_t *ends, size_t nodes,
                       uint64_t *all, size_t arcs, wg_fault *fault);

/* The outdegree of each page, the graph validated to its end as wg_read_lists does; `count` is `nodes`. Memory for the
 * lists of a window. At any status but 0 the array has no meaning. Status 0, 2, 3, 9. */
uint32_t wg_read_outdegrees(const wg_params *params, const uint8_t *graph, size_t length, uint64_t *outdegrees,
                            size_t count, wg_fault *fault);

/* Whether a graph file is valid, to its end. Memory for the lists of a window. Status 0, 2, 3, 9. */
uint32_t wg_check(const wg_params *params, const uint8_t *graph, size_t length, wg_fault *fault);

/* Whether a graph file and its .offsets file are valid and tell the same, as the program's `check` does. A fault of the
 * graph is told first, then one of a word of the offsets, then the first page whose lengths differ. Memory for the
 * lists of a window. Status 0, 2, 3, 9. */
uint32_t wg_check_offsets(const wg_params *params, const uint8_t *graph, size_t length, const uint8_t *file,
                          size_t file_length, wg_fault *fault);

/* Bounds of each page's share of 1 by PageRank, after so many rounds, in units of 10^-24: that of page x lies from
 * low[2x] + 2^64 * low[2x + 1] to high[2x] + 2^64 * high[2x + 1]. The damping is in thousandths, at most 999, and
 * `rounds` at most 10000; both arrays have 2 * nodes words. The surfer goes on to a page by its weight; `weighted` is
 * nodes, or 0 where each page weighs alike. The arrays are written at status 0 alone. A round reads the graph once;
 * memory is as the program's `rank` has it, and where some of it is refused, wg_rank may do without. Status 0, 2, 3, 9,
 * 12. */
uint32_t wg_rank(const wg_params *params, const uint8_t *graph, size_t length, const uint64_t *weights, size_t weighted,
                 uint64_t damping, uint64_t rounds, uint64_t *low, size_t low_words, uint64_t *high, size_t high_words,
                 wg_fault *fault);

/* Whether these are lower bounds, in the words of wg_rank: one round lowers none of them. Then *left is what they leave
 * of 1, in units of 10^-24: no share is more than that above its bound. At status 16 *page is the first page whose
 * bound a round lowers, or UINT64_MAX where all add up to more than 1. Status 0, 2, 3, 9, 12, 16. */
uint32_t wg_verify(const wg_params *params, const uint8_t *graph, size_t length, const uint64_t *weights,
                   size_t weighted, uint64_t damping, const uint64_t *low, size_t low_words, wg_wide *left,
                   uint64_t *page, wg_fault *fault);

/* What a caller owes, and nothing checks:
 * - each pointer is aligned and not null, also where its length is 0, and there is as much memory as the length says;
 * - what a call writes overlaps nothing else that it is lent;
 * - while it runs, nobody else writes what it is lent. A mapped file counts: changed by others it is undefined, and cut
 *   short it is a SIGBUS;
 * - malloc, realloc and free are of one allocator;
 * - no call is made from a signal handler, nor in the forked child of a process with threads. */

#ifdef __cplusplus
}
#endif
#endif
