#include "kernel.h"

#include <string.h>

typedef struct {
    uint8_t bytes[FW_DESCRIPTION_LEN];
} description;

/* The book's first field is the next number (docs/BOOK.md): a refusal moves that on, and nothing else. */
#define NUMBER_LEN 8

/* The two areas as they were before the call that is being made. */
static uint8_t book_before[FW_BOOK_MAX];
static uint8_t area_before[FW_AREA_LEN];

static description described(const char *name)
{
    description d;
    size_t length = strlen(name);
    memset(&d, 0, sizeof d);
    memcpy(d.bytes, name, length < sizeof d.bytes ? length : sizeof d.bytes);
    return d;
}

static void watch(const kernel *k)
{
    memcpy(book_before, k->book, sizeof book_before);
    memcpy(area_before, k->area, sizeof area_before);
}

static int as_before(const kernel *k)
{
    return memcmp(book_before + NUMBER_LEN, k->book + NUMBER_LEN, sizeof book_before - NUMBER_LEN) == 0 &&
           memcmp(area_before, k->area, sizeof area_before) == 0;
}

/* Counts the call, and what it should not have done. */
static reply seen(kernel *k, uint64_t answer, uint64_t value)
{
    reply r = {answer, value};
    k->calls++;
    if (answer != FW_GRANTED) {
        k->refusals++;
        k->disturbed += value != 0 || !as_before(k);
    }
    if (answer != FW_BAD_AREA && answer != FW_NUMBERS_ENDED) {
        k->number++;
    }
    return r;
}

static reply issued(kernel *k, uint64_t answer, uint64_t value)
{
    k->misnumbered += answer == FW_GRANTED && value != k->number;
    return seen(k, answer, value);
}

reply kernel_start(kernel *k, uint64_t first)
{
    reply r = {FW_GRANTED, 0};
    memset(k, 0, sizeof *k);
    r.answer = fw_start(FWH_AREAS(*k), first);
    k->number = first + 2;
    return r;
}

reply make_category(kernel *k, uint64_t caller)
{
    uint64_t value = 0, answer;
    watch(k);
    answer = fw_create_category(FWH_AREAS(*k), caller, &value);
    return issued(k, answer, value);
}

reply set_label(kernel *k, uint64_t caller, const fwh_label *label)
{
    uint64_t value = 0, answer;
    watch(k);
    answer = fw_set_label(FWH_AREAS(*k), caller, FWH_LABEL(*label), &value);
    return seen(k, answer, value);
}

reply make_container(kernel *k, uint64_t caller, uint64_t d, const fwh_label *label, const char *name, uint64_t quota)
{
    description about = described(name);
    uint64_t value = 0, answer;
    watch(k);
    answer = fw_create_container(FWH_AREAS(*k), caller, d, FWH_LABEL(*label), FWH_BYTES(about.bytes), 0, quota, &value);
    return issued(k, answer, value);
}

reply make_segment(kernel *k, uint64_t caller, uint64_t d, const fwh_label *label, const char *name, uint64_t quota)
{
    description about = described(name);
    uint64_t value = 0, answer;
    watch(k);
    answer = fw_create_segment(FWH_AREAS(*k), caller, d, FWH_LABEL(*label), FWH_BYTES(about.bytes), quota, &value);
    return issued(k, answer, value);
}

reply make_thread(kernel *k, uint64_t caller, uint64_t d, const fwh_label *label, const fwh_label *clearance,
                  const char *name)
{
    description about = described(name);
    uint64_t value = 0, answer;
    watch(k);
    answer = fw_create_thread(FWH_AREAS(*k), caller, d, FWH_LABEL(*label), FWH_LABEL(*clearance),
                              FWH_BYTES(about.bytes), &value);
    return issued(k, answer, value);
}

reply unreference(kernel *k, uint64_t caller, uint64_t d, uint64_t o)
{
    uint64_t value = 0, answer;
    watch(k);
    answer = fw_unreference(FWH_AREAS(*k), caller, d, o, &value);
    return seen(k, answer, value);
}

reply link_segment(kernel *k, uint64_t caller, uint64_t d1, uint64_t o, uint64_t d)
{
    uint64_t value = 0, answer;
    watch(k);
    answer = fw_link_segment(FWH_AREAS(*k), caller, d1, o, d, &value);
    return seen(k, answer, value);
}

reply fix_quota(kernel *k, uint64_t caller, uint64_t d, uint64_t o)
{
    uint64_t value = 0, answer;
    watch(k);
    answer = fw_fix_quota(FWH_AREAS(*k), caller, d, o, &value);
    return seen(k, answer, value);
}

reply move_quota(kernel *k, uint64_t caller, uint64_t d, uint64_t o, int64_t n)
{
    uint64_t value = 0, answer;
    watch(k);
    answer = fw_move_quota(FWH_AREAS(*k), caller, d, o, n, &value);
    return seen(k, answer, value);
}

reply resize(kernel *k, uint64_t caller, uint64_t d, uint64_t s, uint64_t length)
{
    uint64_t value = 0, answer;
    watch(k);
    answer = fw_resize(FWH_AREAS(*k), caller, d, s, length, &value);
    return seen(k, answer, value);
}

reply look(kernel *k, uint64_t caller, uint64_t d, uint64_t o)
{
    uint8_t out[FW_LOOK_LEN];
    uint64_t value = 0, answer;
    watch(k);
    answer = fw_look(FWH_AREAS(*k), caller, d, o, FWH_BYTES(out), &value);
    return seen(k, answer, value);
}

reply write_block(kernel *k, uint64_t caller, uint64_t d, uint64_t s, uint64_t block, const uint8_t bytes[FW_BLOCK_LEN])
{
    uint64_t value = 0, answer;
    watch(k);
    answer = fw_write(FWH_AREAS(*k), caller, d, s, block, 0, FW_BLOCK_LEN, bytes, FW_BLOCK_LEN, &value);
    return seen(k, answer, value);
}

reply read_block(kernel *k, uint64_t caller, uint64_t d, uint64_t s, uint64_t block, uint8_t bytes[FW_BLOCK_LEN])
{
    uint64_t value = 0, place = 0, length = 0, answer;
    memset(bytes, 0, FW_BLOCK_LEN);
    watch(k);
    answer = fw_read(FWH_AREAS(*k), caller, d, s, block, 0, FW_BLOCK_LEN, &place, &length, &value);
    if (answer == FW_GRANTED && length == FW_BLOCK_LEN && place <= FW_AREA_LEN - FW_BLOCK_LEN) {
        memcpy(bytes, k->area + place, FW_BLOCK_LEN);
    }
    return seen(k, answer, value);
}
