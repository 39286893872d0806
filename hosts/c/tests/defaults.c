/*
 * Quota 0 for a container (W7): what it stands for, and what an engine sees that still counts on the 16 units it stood
 * for on page 01. Worked out from docs/RULES.md, 3.7 and 12.9 to 12.11. Starts at 10; the root is 10, its thread 11.
 */
#include "flytewood_help.h"

#include <string.h>

#include "check.h"

#define ROOT 10
#define HEAD 11
#define UNITS_BEFORE_W7 16

/* By docs/BOOK.md: the tables id and quota. */
#define ROWS 256
#define ID_AT 16
#define QUOTA_AT 2832

static fwh_areas areas, kept;
static fwh_label plain;
static const uint8_t about[FW_DESCRIPTION_LEN] = "room";

static uint64_t number_at(uint64_t at, int width)
{
    uint64_t number = 0;
    while (width-- > 0) {
        number = number << 8 | areas.book[at + (uint64_t)width];
    }
    return number;
}

static uint64_t quota_of(uint64_t id)
{
    for (uint64_t row = 0; row < ROWS; row++) {
        if (number_at(ID_AT + 8 * row, 8) == id) {
            return number_at(QUOTA_AT + 2 * row, 2);
        }
    }
    return 0;
}

static void start(void)
{
    memset(&areas, 0, sizeof areas);
    plain = fwh_level(FW_LEVEL_1);
    CHECK(fw_start(FWH_AREAS(areas), ROOT) == FW_GRANTED);
}

static uint64_t room(uint64_t d, uint64_t quota, uint64_t *made)
{
    return fw_create_container(FWH_AREAS(areas), HEAD, d, FWH_LABEL(plain), FWH_BYTES(about), 0, quota, made);
}

static uint64_t piece(uint64_t d, uint64_t *made)
{
    return fw_create_segment(FWH_AREAS(areas), HEAD, d, FWH_LABEL(plain), FWH_BYTES(about), 1, made);
}

/* Segments of one unit, as many as are granted. */
static uint64_t fill(uint64_t d)
{
    uint64_t made, count = 0;
    while (count < FW_ROOT_QUOTA && piece(d, &made) == FW_GRANTED) {
        count++;
    }
    return count;
}

/* Whether the areas are as they were kept, but for the next number, the book's first eight bytes. */
static int nothing_else_changed(void)
{
    return memcmp(areas.book + 8, kept.book + 8, sizeof areas.book - 8) == 0 &&
           memcmp(areas.area, kept.area, sizeof areas.area) == 0;
}

static void check_default(void)
{
    uint64_t d, inner;
    start();
    CHECK(room(ROOT, FW_QUOTA_DEFAULT, &d) == FW_GRANTED);
    CHECK(quota_of(d) == 8 && quota_of(d) == FW_CONTAINER_DEFAULT_QUOTA);
    kept = areas;
    CHECK(room(d, FW_QUOTA_DEFAULT, &inner) == FW_NO_SPARE && inner == 0 && nothing_else_changed());
    CHECK(fill(d) == 7);
}

/* A container of 0 fits where 8 are left, and just there. */
static void check_exact_fit(void)
{
    uint64_t d, inner, more;
    start();
    CHECK(room(ROOT, 9, &d) == FW_GRANTED);
    CHECK(room(d, FW_QUOTA_DEFAULT, &inner) == FW_GRANTED && quota_of(inner) == 8);
    CHECK(piece(d, &more) == FW_NO_SPARE);
    CHECK(fill(inner) == 7);
}

/* 0 and the default written out leave the same bytes. */
static void check_written_out(void)
{
    uint64_t d, same;
    start();
    CHECK(room(ROOT, FW_QUOTA_DEFAULT, &d) == FW_GRANTED);
    kept = areas;
    start();
    CHECK(room(ROOT, FW_CONTAINER_DEFAULT_QUOTA, &same) == FW_GRANTED && same == d);
    CHECK(memcmp(&areas, &kept, sizeof areas) == 0);
}

/* An engine that puts 15 pieces into a room: whole where it passes 16, and where it still passes 0 the eighth piece is
   answered 13, the room and the seven stay, and units moved into the room let it go on. */
static void check_missed_site(void)
{
    uint64_t asked, missed, more, none;
    start();
    CHECK(room(ROOT, UNITS_BEFORE_W7, &asked) == FW_GRANTED && quota_of(asked) == 16);
    CHECK(fill(asked) == 15);
    CHECK(room(ROOT, FW_QUOTA_DEFAULT, &missed) == FW_GRANTED);
    CHECK(fill(missed) == 7);
    kept = areas;
    CHECK(piece(missed, &more) == FW_NO_SPARE && more == 0 && nothing_else_changed());
    CHECK(fw_move_quota(FWH_AREAS(areas), HEAD, ROOT, missed, 8, &none) == FW_GRANTED && quota_of(missed) == 16);
    CHECK(fill(missed) == 8);
    CHECK(quota_of(asked) == 16);
}

int main(void)
{
    check_default();
    check_exact_fit();
    check_written_out();
    check_missed_site();
    return end_checks("defaults");
}
