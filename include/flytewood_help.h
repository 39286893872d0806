/*
 * Small helpers for a C host of Flytewood: slices lent in a word, labels made from pairs, and numbers named in words.
 * The functions need no kernel and keep nothing; compile flytewood_help.c with the host.
 */
#ifndef FLYTEWOOD_HELP_H
#define FLYTEWOOD_HELP_H

#include <stddef.h>
#include <stdint.h>

#include "flytewood.h"

#ifdef __cplusplus
extern "C" {
#endif

/* The two areas that are lent to every call, with room for any book. Between calls only calls touch them. */
typedef struct {
    uint8_t book[FW_BOOK_MAX];
    uint8_t area[FW_AREA_LEN];
} fwh_areas;

/* A label or clearance, as the calls take it. */
typedef struct {
    uint8_t bytes[FW_LABEL_LEN];
} fwh_label;

/*
 * A slice is two arguments, a pointer and a length. Each of these stands for both, or for the four of the areas:
 *     fw_create_container(FWH_AREAS(areas), 101, 100, FWH_LABEL(label), FWH_BYTES(about), 0, 20, &room)
 * `areas` is a fwh_areas, or a variable of any struct that has its two members; `label` is a fwh_label; `array` is an
 * array of bytes, lent whole. With a pointer one writes FWH_LABEL(*pointer).
 */
#define FWH_AREAS(areas) (areas).book, fw_book_len(), (areas).area, sizeof((areas).area)
#define FWH_LABEL(label) (label).bytes, sizeof((label).bytes)
#define FWH_BYTES(array) (array), sizeof(array)

/* What a label says of one category: a level code, FW_STAR to FW_LEVEL_3. */
typedef struct {
    uint64_t category;
    uint8_t code;
} fwh_pair;

/* The label that says `code` of every category. */
fwh_label fwh_level(uint8_t code);

/*
 * Makes the label that says each pair's code of its category and `default_code` of every other. The pairs may stand in
 * any order; one that says what the default says is left out, as a well-formed label asks. Returns 1, or 0 and leaves
 * *label as it was when there is no such label: a default that is no level 0 to 3, a code over FW_LEVEL_3, a category
 * of 0 or over FW_LAST_NUMBER, a category named twice, or more than FW_LABEL_WORDS pairs to keep.
 */
int fwh_label_of(fwh_label *label, uint8_t default_code, const fwh_pair *pairs, size_t count);

/* What the label says of the category. */
uint8_t fwh_says(const fwh_label *label, uint64_t category);

/* A word taken apart and put together. */
uint64_t fwh_word(uint64_t category, uint8_t code);
fwh_pair fwh_pair_of(uint64_t word);

/* The label's word at index 0 to FW_LABEL_WORDS - 1. */
uint64_t fwh_word_at(const fwh_label *label, size_t index);

/* Long enough for any label in words. */
#define FWH_LABEL_TEXT 224

/*
 * Writes the label as docs/RULES.md does, levels by their own numbers and star as a word: "{7:star, 102:3, 1}". Cut to
 * fit `size` with its closing zero, as snprintf does; returns the length it has uncut.
 */
size_t fwh_label_text(const fwh_label *label, char *text, size_t size);

/* Names in words, never null: what is not known is "unknown answer" and the like. */
const char *fwh_answer_name(uint64_t answer);
const char *fwh_call_name(uint64_t call);
const char *fwh_kind_name(uint64_t kind);

#ifdef __cplusplus
}
#endif

#endif
