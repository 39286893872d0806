#include "flytewood_help.h"

#include <stdio.h>
#include <string.h>

#define LEVEL_MASK ((UINT64_C(1) << FW_LEVEL_BITS) - 1)

uint64_t fwh_word(uint64_t category, uint8_t code)
{
    return category << FW_LEVEL_BITS | code;
}

fwh_pair fwh_pair_of(uint64_t word)
{
    fwh_pair pair;
    pair.category = word >> FW_LEVEL_BITS;
    pair.code = (uint8_t)(word & LEVEL_MASK);
    return pair;
}

uint64_t fwh_word_at(const fwh_label *label, size_t index)
{
    uint64_t word = 0;
    for (size_t i = 8; i-- > 0;) {
        word = word << 8 | label->bytes[1 + 8 * index + i];
    }
    return word;
}

static void put_word(fwh_label *label, size_t index, uint64_t word)
{
    for (size_t i = 0; i < 8; i++) {
        label->bytes[1 + 8 * index + i] = (uint8_t)(word >> (8 * i));
    }
}

fwh_label fwh_level(uint8_t code)
{
    fwh_label label;
    memset(&label, 0, sizeof label);
    label.bytes[0] = code;
    return label;
}

static int is_pair(const fwh_pair *pair)
{
    return pair->code <= FW_LEVEL_3 && pair->category >= 1 && pair->category <= FW_LAST_NUMBER;
}

/* Whether a pair before this one has the same category. */
static int named_before(const fwh_pair *pairs, size_t at)
{
    for (size_t i = 0; i < at; i++) {
        if (pairs[i].category == pairs[at].category) {
            return 1;
        }
    }
    return 0;
}

/* Puts the word where the rising order asks for it, among the first `used` words. */
static void insert_word(fwh_label *label, size_t used, uint64_t word)
{
    size_t at = used;
    while (at > 0 && fwh_word_at(label, at - 1) > word) {
        put_word(label, at, fwh_word_at(label, at - 1));
        at--;
    }
    put_word(label, at, word);
}

int fwh_label_of(fwh_label *label, uint8_t default_code, const fwh_pair *pairs, size_t count)
{
    fwh_label made = fwh_level(default_code);
    size_t used = 0;
    if (default_code < FW_LEVEL_0 || default_code > FW_LEVEL_3) {
        return 0;
    }
    for (size_t i = 0; i < count; i++) {
        if (!is_pair(&pairs[i]) || named_before(pairs, i)) {
            return 0;
        }
        if (pairs[i].code == default_code) {
            continue;
        }
        if (used == FW_LABEL_WORDS) {
            return 0;
        }
        insert_word(&made, used, fwh_word(pairs[i].category, pairs[i].code));
        used++;
    }
    *label = made;
    return 1;
}

uint8_t fwh_says(const fwh_label *label, uint64_t category)
{
    for (size_t i = 0; i < FW_LABEL_WORDS; i++) {
        uint64_t word = fwh_word_at(label, i);
        if (word == 0) {
            break;
        }
        if (fwh_pair_of(word).category == category) {
            return fwh_pair_of(word).code;
        }
    }
    return label->bytes[0];
}

static const char *level_name(uint8_t code)
{
    static const char *const names[] = {"star", "0", "1", "2", "3"};
    return code < sizeof names / sizeof names[0] ? names[code] : "?";
}

size_t fwh_label_text(const fwh_label *label, char *text, size_t size)
{
    char whole[FWH_LABEL_TEXT] = "{";
    size_t length = 1;
    for (size_t i = 0; i < FW_LABEL_WORDS && fwh_word_at(label, i) != 0; i++) {
        fwh_pair pair = fwh_pair_of(fwh_word_at(label, i));
        length += (size_t)snprintf(whole + length, sizeof whole - length, "%llu:%s, ",
                                   (unsigned long long)pair.category, level_name(pair.code));
    }
    length += (size_t)snprintf(whole + length, sizeof whole - length, "%s}", level_name(label->bytes[0]));
    if (size > 0) {
        size_t kept = length < size ? length : size - 1;
        memcpy(text, whole, kept);
        text[kept] = '\0';
    }
    return length;
}

const char *fwh_answer_name(uint64_t answer)
{
    static const char *const names[] = {
        "granted",
        "an area has the wrong length, or the book is unsound",
        "the numbers have ended",
        "the caller is no live thread",
        "an argument is malformed or over its limit",
        "no such entry, or its container is unreadable",
        "the object's kind does not suit the call",
        "a label forbids it",
        "the container's mask forbids the kind",
        "the quota is not fixed (link) or is fixed (move)",
        "already in that container",
        "bytes beyond the segment's length",
        "a label would need a ninth pair",
        "not enough spare",
    };
    return answer < sizeof names / sizeof names[0] ? names[answer] : "unknown answer";
}

const char *fwh_call_name(uint64_t call)
{
    static const char *const names[] = {
        "start",          "create category", "set label",      "set clearance", "create container", "create segment",
        "create gate",    "create thread",   "unreference",    "link segment",  "fix quota",        "move quota",
        "read",           "write",           "resize",         "enter gate",    "look",
    };
    return call < sizeof names / sizeof names[0] ? names[call] : "unknown call";
}

const char *fwh_kind_name(uint64_t kind)
{
    static const char *const names[] = {"nothing", "thread", "gate", "segment", "container"};
    return kind < sizeof names / sizeof names[0] ? names[kind] : "unknown kind";
}
