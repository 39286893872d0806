/* The header by itself, twice, as C99 and as C++: the numbers of docs/RULES.md behind its names, and a start. */
#include "flytewood.h"
#include "flytewood.h"

#include "check.h"

static uint8_t book[FW_BOOK_MAX];
static uint8_t area[FW_AREA_LEN];

static void check_lengths(void)
{
    CHECK(FW_AREA_LEN == 16384 && FW_BLOCKS == 256 && FW_BLOCK_LEN == 64);
    CHECK(FW_LABEL_LEN == 65 && FW_LOOK_LEN == 104);
    CHECK(FW_DESCRIPTION_LEN == 32 && FW_CLOSURE_LEN == 32);
    CHECK(FW_SEGMENT_MAX == 16256 && FW_SEGMENT_MAX == (FW_SEGMENT_LAST_BLOCK + 1) * FW_BLOCK_LEN);
    CHECK(FW_LOOK_WORDS + 8 * FW_LABEL_WORDS == FW_LOOK_LEN && FW_LOOK_WORDS - FW_LOOK_DEFAULT - 1 == 5);
}

static void check_numbers(void)
{
    CHECK(FW_LAST_NUMBER == (UINT64_C(1) << 61) - 1 && FW_FIRST_MAX == FW_LAST_NUMBER - 2);
    CHECK(FW_STAR == 0 && FW_LEVEL_0 == 1 && FW_LEVEL_3 == 4 && FW_HIGH_STAR == 5 && 1 << FW_LEVEL_BITS == 8);
    CHECK(FW_THREAD == 1 && FW_GATE == 2 && FW_SEGMENT == 3 && FW_CONTAINER == 4);
    CHECK(FW_FORBID_THREAD == 1 << 0 && FW_FORBID_CONTAINER == 1 << 3);
    CHECK((FW_FORBID_THREAD | FW_FORBID_GATE | FW_FORBID_SEGMENT | FW_FORBID_CONTAINER) == FW_MASK_MAX);
    CHECK(FW_ROOT_QUOTA == 256 && FW_QUOTA_MAX == 255 && FW_MOVE_MAX == 256);
    CHECK(FW_QUOTA_DEFAULT == 0 && FW_SEGMENT_DEFAULT_QUOTA == 5 && FW_CONTAINER_DEFAULT_QUOTA == 8);
    CHECK(FW_GRANTED == 0 && FW_BAD_AREA == 1 && FW_NO_SPARE == 13);
}

static void check_start(void)
{
    uint64_t length = fw_book_len();
    CHECK(length > 0 && length <= FW_BOOK_MAX);
    CHECK(fw_start(book, length - 1, area, sizeof area, 0) == FW_BAD_AREA);
    CHECK(fw_start(book, length, area, sizeof area - 1, 0) == FW_BAD_AREA);
    CHECK(fw_start(book, length, area, sizeof area, 0) == FW_BAD_ARGUMENT);
    CHECK(fw_start(book, length, area, sizeof area, FW_FIRST_MAX + 1) == FW_BAD_ARGUMENT);
    CHECK(fw_start(book, length, area, sizeof area, FW_FIRST_MAX) == FW_GRANTED);
    CHECK(fw_start(book, length, area, sizeof area, 1) == FW_GRANTED);
}

int main(void)
{
    check_lengths();
    check_numbers();
    check_start();
    return end_checks("header");
}
