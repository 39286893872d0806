/*
 * Every call through the header, in one history worked out on paper from page 01, the user's own page of rules, which
 * docs/RULES.md restates and which is not in this repository: each argument is where the header says, since another
 * place would give another answer. Starts at 10; the comment before a call is its number.
 */
#include "flytewood_help.h"

#include <string.h>

#include "check.h"

#define ROOT 10
#define HEAD 11

static uint8_t book[FW_BOOK_MAX];
static uint8_t area[FW_AREA_LEN];
static uint64_t book_len, value;

#define AREAS book, book_len, area, sizeof area
#define BYTES(b) (b), sizeof(b)
#define LABEL(l) (l).bytes, sizeof(l).bytes

/* {1}, {2}, and category 12 at star, level 2 and level 3 with default 1, and at level 3 with default 2. */
static fwh_label one, two, owner, tainted, secret, high;

static uint8_t box_text[FW_DESCRIPTION_LEN] = "box", seg_text[FW_DESCRIPTION_LEN] = "seg";
static uint8_t gate_text[FW_DESCRIPTION_LEN] = "gate", closure[FW_CLOSURE_LEN] = "closure";
static uint8_t thread_text[FW_DESCRIPTION_LEN] = "thread";

static fwh_label with_12(uint8_t default_code, uint8_t code)
{
    fwh_pair pair = {12, code};
    fwh_label label = fwh_level(default_code);
    CHECK(fwh_label_of(&label, default_code, &pair, 1));
    return label;
}

static void make_labels(void)
{
    one = fwh_level(FW_LEVEL_1);
    two = fwh_level(FW_LEVEL_2);
    owner = with_12(FW_LEVEL_1, FW_STAR);
    tainted = with_12(FW_LEVEL_1, FW_LEVEL_2);
    secret = with_12(FW_LEVEL_1, FW_LEVEL_3);
    high = with_12(FW_LEVEL_2, FW_LEVEL_3);
}

/* The value is set to something before each call, so that one that is not written shows. */
static int answers(uint64_t answer, uint64_t expected, uint64_t expected_value)
{
    int same = answer == expected && value == expected_value;
    if (!same) {
        printf("answer %llu value %llu\n", (unsigned long long)answer, (unsigned long long)value);
    }
    value = 999;
    return same;
}

static void check_creates(void)
{
    /* 12 */ CHECK(answers(fw_create_category(AREAS, HEAD, &value), 0, 12));
    /* 13 */ CHECK(answers(fw_create_container(AREAS, HEAD, ROOT, LABEL(secret), BYTES(box_text), FW_FORBID_GATE, 30,
                                               &value), 0, 13));
    /* 14 */ CHECK(answers(fw_create_segment(AREAS, HEAD, 13, LABEL(secret), BYTES(seg_text), 3, &value), 0, 14));
}

static void check_bytes(void)
{
    static const uint8_t hello[5] = {'h', 'e', 'l', 'l', 'o'};
    uint64_t place = 999, length = 999;
    /* 15 */ CHECK(answers(fw_resize(AREAS, HEAD, 13, 14, 100, &value), 0, 0));
    /* 16 */ CHECK(answers(fw_write(AREAS, HEAD, 13, 14, 1, 2, 5, BYTES(hello), &value), 0, 0));
    /* 17 */ CHECK(answers(fw_read(AREAS, HEAD, 13, 14, 1, 2, 5, &place, &length, &value), 0, 0));
    CHECK(length == 5 && place <= sizeof area - 5 && place % FW_BLOCK_LEN == 2);
    CHECK(memcmp(area + place, hello, 5) == 0);
    /* 18: 64 + 30 + 7 is above 100 */
    CHECK(answers(fw_read(AREAS, HEAD, 13, 14, 1, 30, 7, &place, &length, &value), FW_BEYOND_LENGTH, 0));
    CHECK(place == 0 && length == 0);
}

static void check_gate(void)
{
    uint8_t out[FW_CLOSURE_LEN], look[FW_LOOK_LEN];
    /* 19 */ CHECK(answers(fw_create_gate(AREAS, HEAD, ROOT, LABEL(owner), LABEL(two), 77, BYTES(closure),
                                          BYTES(gate_text), &value), 0, 19));
    /* 20 */ CHECK(answers(fw_create_gate(AREAS, HEAD, 13, LABEL(owner), LABEL(two), 77, BYTES(closure),
                                          BYTES(gate_text), &value), FW_MASK_FORBIDS, 0));
    /* 21 */ CHECK(answers(fw_create_thread(AREAS, HEAD, ROOT, LABEL(one), LABEL(two), BYTES(thread_text), &value),
                           0, 21));
    /* 22 */ CHECK(answers(fw_look(AREAS, 21, 13, 14, BYTES(look), &value), FW_NO_ENTRY, 0));
    /* 23: the gate passes ownership on */
    CHECK(answers(fw_enter_gate(AREAS, 21, ROOT, 19, LABEL(owner), LABEL(two), LABEL(one), BYTES(out), &value), 0, 77));
    CHECK(memcmp(out, closure, sizeof out) == 0);
    /* 24: its clearance {2} stops {12:3, 1} */
    CHECK(answers(fw_set_label(AREAS, 21, LABEL(secret), &value), FW_LABEL_FORBIDS, 0));
    /* 25: the label asked for is the one taken: now it is {12:2, 1} */
    CHECK(answers(fw_enter_gate(AREAS, 21, ROOT, 19, LABEL(tainted), LABEL(two), LABEL(one), BYTES(out), &value), 0,
                  77));
    /* 26: and the owner again; what it shows must bear its taint */
    CHECK(answers(fw_enter_gate(AREAS, 21, ROOT, 19, LABEL(owner), LABEL(two), LABEL(one), BYTES(out), &value),
                  FW_LABEL_FORBIDS, 0));
    /* 27 */
    CHECK(answers(fw_enter_gate(AREAS, 21, ROOT, 19, LABEL(owner), LABEL(two), LABEL(tainted), BYTES(out), &value), 0,
                  77));
}

static void check_look(void)
{
    uint8_t look[FW_LOOK_LEN], expected[FW_LOOK_LEN] = "seg";
    expected[FW_LOOK_KIND] = FW_SEGMENT;
    expected[FW_LOOK_SHOWN] = 1;
    expected[FW_LOOK_DEFAULT] = FW_LEVEL_1;
    expected[FW_LOOK_WORDS] = 12 * 8 + FW_LEVEL_3;
    /* 28 */ CHECK(answers(fw_look(AREAS, 21, 13, 14, BYTES(look), &value), 0, 0));
    CHECK(memcmp(look, expected, sizeof look) == 0);
}

static void check_quotas(void)
{
    /* 29 */ CHECK(answers(fw_link_segment(AREAS, HEAD, 13, 14, ROOT, &value), FW_QUOTA_FIXED, 0));
    /* 30 */ CHECK(answers(fw_fix_quota(AREAS, HEAD, 13, 14, &value), 0, 0));
    /* 31 */ CHECK(answers(fw_move_quota(AREAS, HEAD, 13, 14, 1, &value), FW_QUOTA_FIXED, 0));
    /* 32 */ CHECK(answers(fw_link_segment(AREAS, HEAD, 13, 14, ROOT, &value), 0, 0));
    /* 33 */ CHECK(answers(fw_link_segment(AREAS, HEAD, ROOT, 14, 13, &value), FW_ALREADY_LINKED, 0));
    /* 34: 13 has 30 units and uses 1 + 3 */
    CHECK(answers(fw_move_quota(AREAS, HEAD, ROOT, 13, -5, &value), 0, 0));
    /* 35 */ CHECK(answers(fw_move_quota(AREAS, HEAD, ROOT, 13, -22, &value), FW_NO_SPARE, 0));
    /* 36 */ CHECK(answers(fw_move_quota(AREAS, HEAD, ROOT, 13, -21, &value), 0, 0));
    /* 37 */ CHECK(answers(fw_create_segment(AREAS, HEAD, 13, LABEL(secret), BYTES(seg_text), 1, &value), FW_NO_SPARE,
                           0));
    /* 38 */ CHECK(answers(fw_move_quota(AREAS, HEAD, ROOT, 19, 1, &value), FW_WRONG_KIND, 0));
}

/* What may not be created in a container may not be linked in it either. */
static void check_masks(void)
{
    /* 39 */ CHECK(answers(fw_create_container(AREAS, HEAD, ROOT, LABEL(one), BYTES(box_text), FW_FORBID_SEGMENT, 10,
                                               &value), 0, 39));
    /* 40 */ CHECK(answers(fw_create_segment(AREAS, HEAD, 39, LABEL(one), BYTES(seg_text), 1, &value),
                           FW_MASK_FORBIDS, 0));
    /* 41 */ CHECK(answers(fw_link_segment(AREAS, HEAD, ROOT, 14, 39, &value), FW_MASK_FORBIDS, 0));
}

static void check_own_labels(void)
{
    /* 42 */ CHECK(answers(fw_set_clearance(AREAS, HEAD, LABEL(secret), &value), 0, 0));
    /* 43 */ CHECK(answers(fw_set_clearance(AREAS, HEAD, LABEL(high), &value), FW_LABEL_FORBIDS, 0));
    /* 44 */ CHECK(answers(fw_set_label(AREAS, HEAD, LABEL(secret), &value), 0, 0));
    /* 45: tainted by 12, it may not write the root */
    CHECK(answers(fw_unreference(AREAS, HEAD, ROOT, 21, &value), FW_LABEL_FORBIDS, 0));
}

static void check_unreference(void)
{
    uint8_t look[FW_LOOK_LEN];
    /* 46: one of two links */
    CHECK(answers(fw_unreference(AREAS, 21, ROOT, 14, &value), 0, 0));
    /* 47 */ CHECK(answers(fw_look(AREAS, 21, 13, 14, BYTES(look), &value), 0, 0));
    /* 48: the box with what is in it */
    CHECK(answers(fw_unreference(AREAS, 21, ROOT, 13, &value), 0, 0));
    /* 49 */ CHECK(answers(fw_look(AREAS, 21, ROOT, 13, BYTES(look), &value), FW_NO_ENTRY, 0));
    /* 50: itself */
    CHECK(answers(fw_unreference(AREAS, 21, ROOT, 21, &value), 0, 0));
    /* 51 */ CHECK(answers(fw_create_category(AREAS, 21, &value), FW_NO_CALLER, 0));
    /* 52 */ CHECK(answers(fw_create_category(AREAS, HEAD, &value), 0, 52));
}

static void check_lengths(void)
{
    uint8_t look[FW_LOOK_LEN];
    /* 53 */ CHECK(answers(fw_look(AREAS, HEAD, ROOT, HEAD, look, sizeof look - 1, &value), FW_BAD_ARGUMENT, 0));
    /* 54: an empty slice may come with a null pointer */
    CHECK(answers(fw_set_label(AREAS, HEAD, NULL, 0, &value), FW_BAD_ARGUMENT, 0));
    /* No number: the areas are wrong. */
    CHECK(answers(fw_create_category(book, book_len - 1, area, sizeof area, HEAD, &value), FW_BAD_AREA, 0));
    CHECK(answers(fw_create_category(book, book_len, area, sizeof area - 1, HEAD, &value), FW_BAD_AREA, 0));
    /* 55 */ CHECK(answers(fw_create_category(AREAS, HEAD, &value), 0, 55));
}

int main(void)
{
    book_len = fw_book_len();
    CHECK(book_len <= sizeof book && fw_start(AREAS, ROOT) == FW_GRANTED);
    value = 999;
    make_labels();
    check_creates();
    check_bytes();
    check_gate();
    check_look();
    check_quotas();
    check_masks();
    check_own_labels();
    check_unreference();
    check_lengths();
    return end_checks("calls");
}
