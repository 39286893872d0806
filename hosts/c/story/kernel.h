/* The kernel as the story uses it: the two areas, and each call watched for what every call promises. */
#ifndef STORY_KERNEL_H
#define STORY_KERNEL_H

#include "flytewood.h"
#include "flytewood_help.h"

typedef struct {
    uint8_t book[FW_BOOK_MAX];
    uint8_t area[FW_AREA_LEN];
    uint64_t number;      /* of the next call: every call takes one, but for answers 1 and 2 */
    uint64_t calls;
    uint64_t refusals;
    uint64_t misnumbered; /* ids and categories that were not their call's own number */
    uint64_t disturbed;   /* refused calls with a value, or after which more than the number had changed */
} kernel;

/* The answer and the value of one call. */
typedef struct {
    uint64_t answer;
    uint64_t value;
} reply;

reply kernel_start(kernel *k, uint64_t first);
reply make_category(kernel *k, uint64_t caller);
reply set_label(kernel *k, uint64_t caller, const fwh_label *label);
reply make_container(kernel *k, uint64_t caller, uint64_t d, const fwh_label *label, const char *name, uint64_t quota);
reply make_segment(kernel *k, uint64_t caller, uint64_t d, const fwh_label *label, const char *name, uint64_t quota);
reply make_thread(kernel *k, uint64_t caller, uint64_t d, const fwh_label *label, const fwh_label *clearance,
                  const char *name);
reply unreference(kernel *k, uint64_t caller, uint64_t d, uint64_t o);
reply link_segment(kernel *k, uint64_t caller, uint64_t d1, uint64_t o, uint64_t d);
reply fix_quota(kernel *k, uint64_t caller, uint64_t d, uint64_t o);
reply move_quota(kernel *k, uint64_t caller, uint64_t d, uint64_t o, int64_t n);
reply resize(kernel *k, uint64_t caller, uint64_t d, uint64_t s, uint64_t length);
reply look(kernel *k, uint64_t caller, uint64_t d, uint64_t o);

/* A whole block of a segment, written or read; zeros if it cannot be read. */
reply write_block(kernel *k, uint64_t caller, uint64_t d, uint64_t s, uint64_t block,
                  const uint8_t bytes[FW_BLOCK_LEN]);
reply read_block(kernel *k, uint64_t caller, uint64_t d, uint64_t s, uint64_t block, uint8_t bytes[FW_BLOCK_LEN]);

#endif
