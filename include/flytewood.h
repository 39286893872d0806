/*
 * Flytewood: a small label kernel, called from C.
 *
 * Threads, gates, segments and containers, each with a label and a storage quota, in two byte areas that the host lends
 * to every call. Link with libflytewood.a (`hosts/archive` builds it), which is for x86-64.
 *
 * What is lent to every call, first and in this order
 *   book, book_len   the book: exactly fw_book_len() bytes (docs/BOOK.md says what they hold)
 *   area, area_len   the data area: exactly FW_AREA_LEN bytes, 256 blocks of 64
 *   caller           the id of the thread that calls (not fw_start)
 *
 * The host's duties
 *   - Things lent to one call never overlap: the book, the data area, every label, description, closure, input, output
 *     and every number that a pointer leads to are apart from each other.
 *   - A pointer and its length tell of so many bytes that are really there. An empty slice may come with any pointer,
 *     also a null one; pointers to numbers are never null.
 *   - Between calls nothing but calls touches the two areas. (A call checks them all the same, and answers 1.)
 *   - One call at a time on the same two areas.
 *   - Stack enough: no call takes more than 2,048 bytes, but for fw_unreference on deep trees, which takes 48 bytes for
 *     each container on the way down. Measured, not proved (docs/PERFORMANCE.md).
 *
 * Numbers
 *   Every call takes the next number, granted or not, except after answers 1 and 2. An id or a category that a call
 *   issues is the call's own number, and it is the call's value. After fw_start with f the next call has number f + 2.
 *
 * Labels
 *   A label or a clearance is FW_LABEL_LEN bytes: its default code in one byte, then eight words, little-endian. A word
 *   is category * 8 + code. Used words come first, categories strictly rising; unused words are 0. Well formed also
 *   means: default code FW_LEVEL_0 to FW_LEVEL_3, pair codes FW_STAR to FW_LEVEL_3, no pair equal to the default, every
 *   category at least 1 and below the call's own number. Star stands only in labels of threads and gates and in the
 *   verify label, never in a clearance. flytewood_help.h makes labels from pairs.
 *     X flows to Y     X(c) <= Y(c) for every category c, so the defaults are compared too
 *     high(X)          star read as high star, above every level
 *     T may read O     O flows to high(T)
 *     T may write O    T flows to O, and O flows to high(T)
 *
 * Units
 *   Thread and gate have quota 1 and use 1. A segment of n bytes uses 1 + n/64 rounded up. A container uses 1 plus the
 *   quotas of all objects linked in it; an object linked in two containers is charged in both. Spare is quota less use.
 *
 * Answers
 *   Each function but fw_book_len returns the answer: FW_GRANTED, or the first refusal that applies in the order of
 *   their numbers. It writes the call's value through `value`, 0 on a refusal. A refused call changes nothing in the
 *   data area, in any output and in the book, except that the next number moves on by one (not after 1 and 2).
 *   Every call may answer 1, 2 and 3, and every call but 1, 8, 9 and 10 may answer 4; an id may be any number.
 *   With each function stand the refusals that are its own, in the order of check.
 *   "D readable" means that the caller may read D: a named container that is absent, is no container, is unreadable
 *   or does not hold the named object is refusal 5, and which of these it was does not show.
 */
#ifndef FLYTEWOOD_H
#define FLYTEWOOD_H

#include <stdint.h>

#ifdef __cplusplus
extern "C" {
#endif

/* Lengths, in bytes. */
#define FW_BOOK_MAX 65536                      /* no book is longer; fw_book_len() gives its one length */
#define FW_BLOCK_LEN 64                        /* a block of the data area: one unit of quota */
#define FW_BLOCKS 256                          /* blocks of the data area */
#define FW_AREA_LEN (FW_BLOCK_LEN * FW_BLOCKS) /* the data area: 16,384 */
#define FW_LABEL_WORDS 8                       /* pairs a label can hold */
#define FW_LABEL_LEN (1 + 8 * FW_LABEL_WORDS)  /* a label or clearance: 65 */
#define FW_DESCRIPTION_LEN 32                  /* an object's description */
#define FW_CLOSURE_LEN 32                      /* a gate's closure bytes, and the output of call 15 */
#define FW_LOOK_LEN (40 + 8 * FW_LABEL_WORDS)  /* the output of call 16: 104 */
#define FW_SEGMENT_MAX 16256                   /* a segment's length is at most this: 254 blocks */
#define FW_SEGMENT_LAST_BLOCK 253              /* k of calls 12 and 13 is at most this */

/* Where things stand in the output of call 16. */
#define FW_LOOK_DESCRIPTION 0 /* 32 bytes */
#define FW_LOOK_KIND 32       /* one byte */
#define FW_LOOK_SHOWN 33      /* 1 if the label is shown, else 0 and zeros for the label */
#define FW_LOOK_DEFAULT 34    /* the label's default code; five zeros follow */
#define FW_LOOK_WORDS 40      /* the label's words, little-endian */

/* Numbers. */
#define FW_FIRST_MAX UINT64_C(2305843009213693949)   /* fw_start takes 1 to this */
#define FW_LAST_NUMBER UINT64_C(2305843009213693951) /* 2^61 - 1: no call has a higher number */

/* Level codes, and how many bits of a word they take. */
#define FW_STAR 0
#define FW_LEVEL_0 1
#define FW_LEVEL_1 2
#define FW_LEVEL_2 3
#define FW_LEVEL_3 4
#define FW_HIGH_STAR 5 /* occurs only in comparisons, never in a label */
#define FW_LEVEL_BITS 3

/* Kinds of object. */
#define FW_THREAD 1
#define FW_GATE 2
#define FW_SEGMENT 3
#define FW_CONTAINER 4

/* A container's mask: the kinds that may not be created in it; with FW_FORBID_SEGMENT none is linked in it either. */
#define FW_FORBID_THREAD 1
#define FW_FORBID_GATE 2
#define FW_FORBID_SEGMENT 4
#define FW_FORBID_CONTAINER 8
#define FW_MASK_MAX 15

/* Quotas, in units. */
#define FW_ROOT_QUOTA 256
#define FW_QUOTA_MAX 255            /* of a create */
#define FW_QUOTA_DEFAULT 0          /* a create's quota 0 means one of the next two */
#define FW_SEGMENT_DEFAULT_QUOTA 5
#define FW_CONTAINER_DEFAULT_QUOTA 8
#define FW_MOVE_MAX 256             /* n of call 11 is from -256 to 256 */

/* Answers, in the order of check. */
#define FW_GRANTED 0
#define FW_BAD_AREA 1       /* an area has the wrong length, or the book is unsound */
#define FW_NUMBERS_ENDED 2  /* the numbers have ended */
#define FW_NO_CALLER 3      /* the caller is no live thread */
#define FW_BAD_ARGUMENT 4   /* an argument is malformed or over its limit, or something lent has the wrong length */
#define FW_NO_ENTRY 5       /* a container is absent, no container or unreadable, or does not hold the object */
#define FW_WRONG_KIND 6     /* the object's kind does not suit the call */
#define FW_LABEL_FORBIDS 7  /* a label condition fails */
#define FW_MASK_FORBIDS 8   /* the container's mask forbids the kind, of a create and of a link */
#define FW_QUOTA_FIXED 9    /* link: the quota is not fixed; move: it is */
#define FW_ALREADY_LINKED 10 /* link: already in that container */
#define FW_BEYOND_LENGTH 11 /* bytes beyond the segment's length */
#define FW_NINTH_PAIR 12    /* a label would need a ninth pair */
#define FW_NO_SPARE 13      /* not enough spare */

/* The book's one length, at most FW_BOOK_MAX. */
uint64_t fw_book_len(void);

/*
 * Start: clears the data area and makes the root container `first` (label {1}, quota 256, mask 0) and in it thread
 * first + 1 (label {1}, clearance {2}), descriptions all zero. Answers 1 for a wrong area length, then 4 for any other
 * `first` than 1 to FW_FIRST_MAX; both areas then stay as lent.
 */
uint64_t fw_start(uint8_t *book, uint64_t book_len, uint8_t *area, uint64_t area_len, uint64_t first);

/*
 * Call 1, category: the caller gets star at the new category, and clearance 3 there. Value: the category.
 * Answers 12 if the caller's label or clearance would need a ninth pair.
 */
uint64_t fw_create_category(uint8_t *book, uint64_t book_len, uint8_t *area, uint64_t area_len, uint64_t caller,
                            uint64_t *value);

/*
 * Call 2, set label: the caller takes the label. It may hold star.
 * Answers 7 unless the caller flows to the label and the label to the caller's clearance.
 */
uint64_t fw_set_label(uint8_t *book, uint64_t book_len, uint8_t *area, uint64_t area_len, uint64_t caller,
                      const uint8_t *label, uint64_t label_len, uint64_t *value);

/*
 * Call 3, set clearance: the caller takes the clearance.
 * Answers 7 unless the caller flows to it and it flows to the join of the old clearance and high(caller).
 */
uint64_t fw_set_clearance(uint8_t *book, uint64_t book_len, uint8_t *area, uint64_t area_len, uint64_t caller,
                          const uint8_t *clearance, uint64_t clearance_len, uint64_t *value);

/*
 * Call 4, create a container in d. It also gets d's mask bits; mask at most 15. Quota 1 to 255, or 0, which means
 * FW_CONTAINER_DEFAULT_QUOTA: a host that counts on a number of units passes that number. Value: the container's id.
 * Answers 4 also for star in the label; 5 unless d is readable; 7 unless the caller may write d, flows to the label,
 * and the label flows to the caller's clearance; 8 if d's mask forbids containers; 13 if the quota is above d's spare.
 */
uint64_t fw_create_container(uint8_t *book, uint64_t book_len, uint8_t *area, uint64_t area_len, uint64_t caller,
                             uint64_t d, const uint8_t *label, uint64_t label_len, const uint8_t *description,
                             uint64_t description_len, uint64_t mask, uint64_t quota, uint64_t *value);

/*
 * Call 5, create a segment of length 0 in d. Quota 1 to 255, or 0, which means FW_SEGMENT_DEFAULT_QUOTA.
 * Value: the segment's id. Answers as call 4, with 8 if d's mask forbids segments.
 */
uint64_t fw_create_segment(uint8_t *book, uint64_t book_len, uint8_t *area, uint64_t area_len, uint64_t caller,
                           uint64_t d, const uint8_t *label, uint64_t label_len, const uint8_t *description,
                           uint64_t description_len, uint64_t quota, uint64_t *value);

/*
 * Call 6, create a gate in d, with any entry number and 32 closure bytes. Its label may hold star.
 * Value: the gate's id. Answers 5 unless d is readable; 7 unless the caller may write d, flows to the label, the label
 * to the new clearance and that to the caller's; 8 if d's mask forbids gates; 13 if d has no spare.
 */
uint64_t fw_create_gate(uint8_t *book, uint64_t book_len, uint8_t *area, uint64_t area_len, uint64_t caller,
                        uint64_t d, const uint8_t *label, uint64_t label_len, const uint8_t *clearance,
                        uint64_t clearance_len, uint64_t entry, const uint8_t *closure, uint64_t closure_len,
                        const uint8_t *description, uint64_t description_len, uint64_t *value);

/*
 * Call 7, create a thread in d. Its label may hold star.
 * Value: the thread's id. Answers as call 6, with 8 if d's mask forbids threads.
 */
uint64_t fw_create_thread(uint8_t *book, uint64_t book_len, uint8_t *area, uint64_t area_len, uint64_t caller,
                          uint64_t d, const uint8_t *label, uint64_t label_len, const uint8_t *clearance,
                          uint64_t clearance_len, const uint8_t *description, uint64_t description_len,
                          uint64_t *value);

/*
 * Call 8, unreference o in d: the link goes. An object with no link left is freed, a freed segment's blocks are set to
 * zero, and a freed container unreferences everything in it, and so on down. The caller itself may go with it.
 * Answers 5 unless d is readable and holds o; 7 unless the caller may write d.
 */
uint64_t fw_unreference(uint8_t *book, uint64_t book_len, uint8_t *area, uint64_t area_len, uint64_t caller,
                        uint64_t d, uint64_t o, uint64_t *value);

/*
 * Call 9, link the segment o, an entry of d1, into d as well.
 * Answers 5 unless d1 and d are readable and d1 holds o; 6 unless o is a segment; 7 unless the caller may write d and o
 * flows to the caller's clearance; 8 if d's mask forbids segments (d1's is not asked); 9 unless o's quota is fixed; 10
 * if d holds o already; 13 if o's quota is above d's spare. A link made before call 9 asked the mask stays.
 */
uint64_t fw_link_segment(uint8_t *book, uint64_t book_len, uint8_t *area, uint64_t area_len, uint64_t caller,
                         uint64_t d1, uint64_t o, uint64_t d, uint64_t *value);

/*
 * Call 10, fix the quota of segment o, an entry of d, for good. Already fixed: granted.
 * Answers 5 unless d is readable and holds o; 6 unless o is a segment; 7 unless the caller may write d and flows to o.
 */
uint64_t fw_fix_quota(uint8_t *book, uint64_t book_len, uint8_t *area, uint64_t area_len, uint64_t caller, uint64_t d,
                      uint64_t o, uint64_t *value);

/*
 * Call 11, move n units from d into o, a segment or container in d; a negative n moves them back.
 * Answers 4 for n outside -256 to 256; 5 unless d is readable and holds o; 6 unless o is a segment or container; 7
 * unless the caller may write d, flows to o, o flows to the caller's clearance and, if n < 0, to high(caller); 9 if o's
 * quota is fixed; 13 if n > 0 is above d's spare, or -n above o's.
 */
uint64_t fw_move_quota(uint8_t *book, uint64_t book_len, uint8_t *area, uint64_t area_len, uint64_t caller, uint64_t d,
                       uint64_t o, int64_t n, uint64_t *value);

/*
 * Call 12, read count bytes of segment s, an entry of d: block k, from byte `from` of it. The bytes are not copied:
 * they are the `*length` bytes of the data area from offset `*place` on, good until the next call. Both are 0 for
 * count 0 and on a refusal. Show the bytes to the job that reads, and `*place` to none: which blocks a segment lies in
 * tells what other jobs have used, also jobs whose work must not show (docs/DEMANDS.md, W5).
 * Answers 4 for k over 253 or from + count over 64; 5 unless d is readable and holds s; 6 unless s is a segment; 7
 * unless the caller may read s; 11 if 64k + from + count is above s's length, for count 0 too.
 */
uint64_t fw_read(uint8_t *book, uint64_t book_len, uint8_t *area, uint64_t area_len, uint64_t caller, uint64_t d,
                 uint64_t s, uint64_t k, uint64_t from, uint64_t count, uint64_t *place, uint64_t *length,
                 uint64_t *value);

/*
 * Call 13, write count bytes into segment s, an entry of d: block k, from byte `from` of it. `bytes` is exactly
 * `count` long.
 * Answers as call 12, with 4 also for another bytes_len than count and 7 unless the caller may write s.
 */
uint64_t fw_write(uint8_t *book, uint64_t book_len, uint8_t *area, uint64_t area_len, uint64_t caller, uint64_t d,
                  uint64_t s, uint64_t k, uint64_t from, uint64_t count, const uint8_t *bytes, uint64_t bytes_len,
                  uint64_t *value);

/*
 * Call 14, resize segment s, an entry of d, to `length` bytes, at most FW_SEGMENT_MAX. New bytes are zero.
 * Answers 4 for a greater length; 5 unless d is readable and holds s; 6 unless s is a segment; 7 unless the caller may
 * write s; 13 if the length would use more units than s's quota.
 */
uint64_t fw_resize(uint8_t *book, uint64_t book_len, uint8_t *area, uint64_t area_len, uint64_t caller, uint64_t d,
                   uint64_t s, uint64_t length, uint64_t *value);

/*
 * Call 15, enter gate g, an entry of d, asking for label label_r and clearance clearance_r, and showing label_v. The
 * caller takes label_r and clearance_r; `out` gets the closure bytes. Value: the entry number. label_r and label_v may
 * hold star.
 * Answers 4 also for an out_len other than 32; 5 unless d is readable and holds g; 6 unless g is a gate; 7 unless the
 * caller flows to the gate's clearance and to label_v, floor(caller, gate) to label_r, label_r to clearance_r and that
 * to the join of both clearances. (floor: star where either has star, else the larger.)
 */
uint64_t fw_enter_gate(uint8_t *book, uint64_t book_len, uint8_t *area, uint64_t area_len, uint64_t caller, uint64_t d,
                       uint64_t g, const uint8_t *label_r, uint64_t label_r_len, const uint8_t *clearance_r,
                       uint64_t clearance_r_len, const uint8_t *label_v, uint64_t label_v_len, uint8_t *out,
                       uint64_t out_len, uint64_t *value);

/*
 * Call 16, look at o, an entry of d; the pair (d, d) is an entry too. `out` gets 104 bytes: see FW_LOOK_KIND and
 * beside it. A thread's label is shown only if the caller may read it.
 * Answers 4 for an out_len other than 104; 5 unless d is readable and holds o.
 */
uint64_t fw_look(uint8_t *book, uint64_t book_len, uint8_t *area, uint64_t area_len, uint64_t caller, uint64_t d,
                 uint64_t o, uint8_t *out, uint64_t out_len, uint64_t *value);

#ifdef __cplusplus
}
#endif

#endif
