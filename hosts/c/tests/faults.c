/*
 * Kernels that are wrong in one way, for the story to find out: the linker puts one of these in front of a function
 * (--wrap). Each is the real kernel but for what its comment says. FAULT chooses which one is compiled.
 */
#include "flytewood.h"

#include <string.h>

#define SHARED_STORE 1
#define PRETENDED_WRITES 2
#define OPEN_DOORS 3
#define UNCLEARED_BLOCKS 4
#define TRACES_OF_REFUSALS 5
#define EMPTY_GRANTS 6

/* Every function below stands in for a real one; only the linker calls it. */
#define REAL(name) __real_##name
#define STAND_IN(name) __wrap_##name

#if FAULT == SHARED_STORE || FAULT == TRACES_OF_REFUSALS
uint64_t REAL(fw_resize)(uint8_t *, uint64_t, uint8_t *, uint64_t, uint64_t, uint64_t, uint64_t, uint64_t, uint64_t *);
uint64_t STAND_IN(fw_resize)(uint8_t *, uint64_t, uint8_t *, uint64_t, uint64_t, uint64_t, uint64_t, uint64_t,
                             uint64_t *);
#endif

#if FAULT == SHARED_STORE

#define STORE 217 /* blocks there are for everybody, whatever was granted */
#define OWNER_AT 56588
#define LENGTH_AT 3344
#define ID_AT 16

static uint64_t number_at(const uint8_t *book, uint64_t at, int width)
{
    uint64_t number = 0;
    while (width-- > 0) {
        number = number << 8 | book[at + (uint64_t)width];
    }
    return number;
}

/* By docs/BOOK.md: the blocks in use, and those of one segment. */
static uint64_t blocks_used(const uint8_t *book)
{
    uint64_t used = 0;
    for (uint64_t i = 0; i < FW_BLOCKS; i++) {
        used += number_at(book, OWNER_AT + 2 * i, 2) != 0;
    }
    return used;
}

static uint64_t blocks_of(const uint8_t *book, uint64_t segment)
{
    for (uint64_t row = 0; row < 256; row++) {
        if (number_at(book, ID_AT + 8 * row, 8) == segment) {
            return (number_at(book, LENGTH_AT + 2 * row, 2) + FW_BLOCK_LEN - 1) / FW_BLOCK_LEN;
        }
    }
    return 0;
}

/* The story's fault: a grant is only a number, and the blocks come from one store that a neighbour may use up. */
uint64_t STAND_IN(fw_resize)(uint8_t *book, uint64_t book_len, uint8_t *area, uint64_t area_len, uint64_t caller,
                             uint64_t d, uint64_t s, uint64_t length, uint64_t *value)
{
    uint64_t wanted = (length + FW_BLOCK_LEN - 1) / FW_BLOCK_LEN;
    if (wanted > blocks_of(book, s) && blocks_used(book) - blocks_of(book, s) + wanted > STORE) {
        REAL(fw_resize)(book, book_len, area, area_len, caller, 0, s, length, value); /* takes the number */
        return FW_NO_SPARE;
    }
    return REAL(fw_resize)(book, book_len, area, area_len, caller, d, s, length, value);
}

#elif FAULT == TRACES_OF_REFUSALS

/* A refused resize spoils a byte of the data area. */
uint64_t STAND_IN(fw_resize)(uint8_t *book, uint64_t book_len, uint8_t *area, uint64_t area_len, uint64_t caller,
                             uint64_t d, uint64_t s, uint64_t length, uint64_t *value)
{
    uint64_t answer = REAL(fw_resize)(book, book_len, area, area_len, caller, d, s, length, value);
    area[0] ^= answer != FW_GRANTED;
    return answer;
}

#elif FAULT == PRETENDED_WRITES

uint64_t REAL(fw_write)(uint8_t *, uint64_t, uint8_t *, uint64_t, uint64_t, uint64_t, uint64_t, uint64_t, uint64_t,
                        uint64_t, const uint8_t *, uint64_t, uint64_t *);
uint64_t STAND_IN(fw_write)(uint8_t *, uint64_t, uint8_t *, uint64_t, uint64_t, uint64_t, uint64_t, uint64_t, uint64_t,
                            uint64_t, const uint8_t *, uint64_t, uint64_t *);

/* A write is answered as it should be, and writes nothing. */
uint64_t STAND_IN(fw_write)(uint8_t *book, uint64_t book_len, uint8_t *area, uint64_t area_len, uint64_t caller,
                            uint64_t d, uint64_t s, uint64_t k, uint64_t from, uint64_t count, const uint8_t *bytes,
                            uint64_t bytes_len, uint64_t *value)
{
    (void)count, (void)bytes_len;
    return REAL(fw_write)(book, book_len, area, area_len, caller, d, s, k, from, 0, bytes, 0, value);
}

#elif FAULT == OPEN_DOORS

uint64_t REAL(fw_create_segment)(uint8_t *, uint64_t, uint8_t *, uint64_t, uint64_t, uint64_t, const uint8_t *,
                                 uint64_t, const uint8_t *, uint64_t, uint64_t, uint64_t *);
uint64_t STAND_IN(fw_create_segment)(uint8_t *, uint64_t, uint8_t *, uint64_t, uint64_t, uint64_t, const uint8_t *,
                                     uint64_t, const uint8_t *, uint64_t, uint64_t, uint64_t *);

/* Where a label forbids a segment, it is made all the same, in the engine's name. */
uint64_t STAND_IN(fw_create_segment)(uint8_t *book, uint64_t book_len, uint8_t *area, uint64_t area_len,
                                     uint64_t caller, uint64_t d, const uint8_t *label, uint64_t label_len,
                                     const uint8_t *text, uint64_t text_len, uint64_t quota, uint64_t *value)
{
    uint64_t answer = REAL(fw_create_segment)(book, book_len, area, area_len, caller, d, label, label_len, text,
                                              text_len, quota, value);
    if (answer != FW_LABEL_FORBIDS) {
        return answer;
    }
    return REAL(fw_create_segment)(book, book_len, area, area_len, 1001, d, label, label_len, text, text_len, quota,
                                   value);
}

#elif FAULT == UNCLEARED_BLOCKS

uint64_t REAL(fw_unreference)(uint8_t *, uint64_t, uint8_t *, uint64_t, uint64_t, uint64_t, uint64_t, uint64_t *);
uint64_t STAND_IN(fw_unreference)(uint8_t *, uint64_t, uint8_t *, uint64_t, uint64_t, uint64_t, uint64_t, uint64_t *);

/* The blocks of what is freed keep their bytes. */
uint64_t STAND_IN(fw_unreference)(uint8_t *book, uint64_t book_len, uint8_t *area, uint64_t area_len, uint64_t caller,
                                  uint64_t d, uint64_t o, uint64_t *value)
{
    static uint8_t before[FW_AREA_LEN];
    uint64_t answer;
    memcpy(before, area, sizeof before);
    answer = REAL(fw_unreference)(book, book_len, area, area_len, caller, d, o, value);
    memcpy(area, before, sizeof before);
    return answer;
}

#elif FAULT == EMPTY_GRANTS

uint64_t REAL(fw_move_quota)(uint8_t *, uint64_t, uint8_t *, uint64_t, uint64_t, uint64_t, uint64_t, int64_t,
                             uint64_t *);
uint64_t STAND_IN(fw_move_quota)(uint8_t *, uint64_t, uint8_t *, uint64_t, uint64_t, uint64_t, uint64_t, int64_t,
                                 uint64_t *);

/* A move of units that are not there is granted, and moves nothing. */
uint64_t STAND_IN(fw_move_quota)(uint8_t *book, uint64_t book_len, uint8_t *area, uint64_t area_len, uint64_t caller,
                                 uint64_t d, uint64_t o, int64_t n, uint64_t *value)
{
    uint64_t answer = REAL(fw_move_quota)(book, book_len, area, area_len, caller, d, o, n, value);
    return answer == FW_NO_SPARE ? FW_GRANTED : answer;
}

#endif
