/* The helpers: slices lent in a word, labels from pairs, and names. */
#include "flytewood_help.h"

#include <string.h>

#include "check.h"

static int lends(const uint8_t *lent, uint64_t lent_len, const void *bytes, size_t length)
{
    return (const void *)lent == bytes && lent_len == length;
}

static int lends_areas(uint8_t *book, uint64_t book_len, uint8_t *area, uint64_t area_len, const fwh_areas *areas)
{
    return book_len <= sizeof areas->book && lends(book, book_len, areas->book, (size_t)fw_book_len()) &&
           lends(area, area_len, areas->area, FW_AREA_LEN);
}

/* A struct of the host's own may hold the areas among other things. */
static void check_slices(void)
{
    static fwh_areas areas, *pointer = &areas;
    static struct {
        int before;
        uint8_t area[FW_AREA_LEN];
        uint8_t book[FW_BOOK_MAX];
    } host;
    fwh_label label = fwh_level(FW_LEVEL_1), *to_label = &label;
    uint8_t about[FW_DESCRIPTION_LEN] = "a room", look[FW_LOOK_LEN];
    uint64_t room = 999;
    CHECK(lends_areas(FWH_AREAS(areas), &areas) && lends_areas(FWH_AREAS(*pointer), &areas));
    CHECK(lends(FWH_LABEL(label), &label, FW_LABEL_LEN) && lends(FWH_LABEL(*to_label), &label, FW_LABEL_LEN));
    CHECK(lends(FWH_BYTES(about), about, 32) && lends(FWH_BYTES(look), look, 104));
    CHECK(fw_start(FWH_AREAS(host), 10) == FW_GRANTED);
    CHECK(fw_create_container(FWH_AREAS(host), 11, 10, FWH_LABEL(label), FWH_BYTES(about), 0, 20, &room) == FW_GRANTED);
    CHECK(fw_look(FWH_AREAS(host), 11, 10, room, FWH_BYTES(look), &room) == FW_GRANTED);
    CHECK(memcmp(look, about, sizeof about) == 0 && look[FW_LOOK_KIND] == FW_CONTAINER);
}

static int text_is(fwh_label label, const char *expected)
{
    char text[FWH_LABEL_TEXT];
    return fwh_label_text(&label, text, sizeof text) == strlen(expected) && strcmp(text, expected) == 0;
}

static void check_words(void)
{
    CHECK(fwh_word(5, FW_LEVEL_3) == 44); /* category 5 at level 3: 5 * 8 + 4 */
    CHECK(fwh_pair_of(44).category == 5 && fwh_pair_of(44).code == FW_LEVEL_3);
    CHECK(fwh_pair_of(fwh_word(FW_LAST_NUMBER, FW_STAR)).category == FW_LAST_NUMBER);
}

static void check_level(void)
{
    fwh_label label = fwh_level(FW_LEVEL_1);
    uint8_t expected[FW_LABEL_LEN] = {2};
    CHECK(memcmp(label.bytes, expected, sizeof expected) == 0);
    CHECK(text_is(label, "{1}") && text_is(fwh_level(FW_LEVEL_3), "{3}"));
    CHECK(fwh_says(&label, 1) == FW_LEVEL_1 && fwh_says(&label, FW_LAST_NUMBER) == FW_LEVEL_1);
}

/* The bytes of {102:3, 1}: the word is 102 * 8 + 4 = 820 = 3 * 256 + 52. */
static void check_bytes(void)
{
    fwh_pair pair = {102, FW_LEVEL_3};
    uint8_t expected[FW_LABEL_LEN] = {2, 52, 3};
    fwh_label label;
    CHECK(fwh_label_of(&label, FW_LEVEL_1, &pair, 1));
    CHECK(memcmp(label.bytes, expected, sizeof expected) == 0);
    CHECK(fwh_word_at(&label, 0) == 820 && fwh_word_at(&label, 7) == 0);
}

static void check_order(void)
{
    fwh_pair pairs[] = {{300, FW_STAR}, {7, FW_LEVEL_0}, {40, FW_LEVEL_1}, {102, FW_LEVEL_3}};
    fwh_label label;
    CHECK(fwh_label_of(&label, FW_LEVEL_1, pairs, 4));
    CHECK(text_is(label, "{7:0, 102:3, 300:star, 1}")); /* 40 says what the default says */
    CHECK(fwh_says(&label, 7) == FW_LEVEL_0 && fwh_says(&label, 300) == FW_STAR && fwh_says(&label, 40) == FW_LEVEL_1);
    CHECK(fwh_label_of(&label, FW_LEVEL_2, NULL, 0) && text_is(label, "{2}"));
}

static void check_eight_pairs(void)
{
    fwh_pair pairs[9];
    fwh_label label;
    char text[FWH_LABEL_TEXT];
    for (size_t i = 0; i < 9; i++) {
        pairs[i].category = FW_LAST_NUMBER - i;
        pairs[i].code = FW_STAR;
    }
    CHECK(fwh_label_of(&label, FW_LEVEL_1, pairs, 8));
    CHECK(fwh_label_text(&label, text, sizeof text) < sizeof text);
    CHECK(fwh_word_at(&label, 0) == fwh_word(FW_LAST_NUMBER - 7, FW_STAR));
    CHECK(fwh_word_at(&label, 7) == fwh_word(FW_LAST_NUMBER, FW_STAR));
    CHECK(!fwh_label_of(&label, FW_LEVEL_1, pairs, 9));
    pairs[3].code = FW_LEVEL_1; /* nine pairs, but one says what the default says */
    CHECK(fwh_label_of(&label, FW_LEVEL_1, pairs, 9));
}

static int refused(uint8_t default_code, fwh_pair first, fwh_pair second)
{
    fwh_pair pairs[2];
    fwh_label label = fwh_level(FW_LEVEL_3), before = label;
    pairs[0] = first;
    pairs[1] = second;
    return !fwh_label_of(&label, default_code, pairs, 2) && memcmp(&label, &before, sizeof label) == 0;
}

static void check_refusals(void)
{
    fwh_pair good = {5, FW_LEVEL_3}, zero = {0, FW_LEVEL_3}, high = {6, FW_HIGH_STAR}, twin = {5, FW_STAR};
    fwh_pair far = {FW_LAST_NUMBER + 1, FW_LEVEL_3}, hidden_twin = {5, FW_LEVEL_1}, other = {6, FW_STAR};
    CHECK(refused(FW_STAR, good, other) && refused(FW_HIGH_STAR, good, other));
    CHECK(refused(FW_LEVEL_1, good, zero) && refused(FW_LEVEL_1, good, high) && refused(FW_LEVEL_1, good, far));
    CHECK(refused(FW_LEVEL_1, good, twin) && refused(FW_LEVEL_1, hidden_twin, good));
    CHECK(!refused(FW_LEVEL_1, good, other));
}

static void check_cut_text(void)
{
    fwh_label label = fwh_level(FW_LEVEL_1);
    char text[3] = "zz";
    CHECK(fwh_label_text(&label, text, 0) == 3 && text[0] == 'z');
    CHECK(fwh_label_text(&label, text, sizeof text) == 3 && strcmp(text, "{1") == 0);
}

static int all_differ(const char *(*name)(uint64_t), uint64_t first, uint64_t last)
{
    for (uint64_t i = first; i <= last; i++) {
        for (uint64_t k = i + 1; k <= last + 1; k++) { /* last + 1 is unknown */
            if (strcmp(name(i), name(k)) == 0) {
                return 0;
            }
        }
    }
    return strncmp(name(last + 1), "unknown", 7) == 0 && name(UINT64_MAX) == name(last + 1);
}

static void check_names(void)
{
    CHECK(all_differ(fwh_answer_name, FW_GRANTED, FW_NO_SPARE));
    CHECK(all_differ(fwh_call_name, 0, 16));
    CHECK(all_differ(fwh_kind_name, FW_THREAD, FW_CONTAINER));
    CHECK(strcmp(fwh_answer_name(13), "not enough spare") == 0);
    CHECK(strcmp(fwh_call_name(1), "create category") == 0 && strcmp(fwh_call_name(16), "look") == 0);
    CHECK(strcmp(fwh_call_name(8), "unreference") == 0 && strcmp(fwh_call_name(11), "move quota") == 0);
    CHECK(strcmp(fwh_kind_name(FW_GATE), "gate") == 0);
}

int main(void)
{
    check_slices();
    check_words();
    check_level();
    check_bytes();
    check_order();
    check_eight_pairs();
    check_refusals();
    check_cut_text();
    check_names();
    return end_checks("helpers");
}
