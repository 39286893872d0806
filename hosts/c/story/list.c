#include "list.h"

#include <string.h>

#define NAME_AT 1
#define DIGEST_AT 32

static void add_entry(list *l, char kind, const char *name, digest sum)
{
    entry *e = &l->entries[l->count++];
    e->kind = kind;
    strcpy(e->name, name);
    e->sum = sum;
}

list list_of(const analysis *a, const command *c)
{
    list l;
    memset(&l, 0, sizeof l);
    for (size_t i = 0; i < a->file_count; i++) {
        add_entry(&l, i == 0 ? ENTRY_SOURCE : ENTRY_HEADER, a->files[i], a->sums[i]);
    }
    add_entry(&l, ENTRY_FLAGS, "flags", digest_of_words(c->flags, c->flag_count));
    add_entry(&l, ENTRY_MACROS, "macros", digest_of_words(c->macros, c->macro_count));
    return l;
}

int digest_now(const entry *e, const inputs *in, const command *c, digest *now)
{
    switch (e->kind) {
    case ENTRY_SOURCE:
    case ENTRY_HEADER: return digest_of_file(in, e->name, now);
    case ENTRY_FLAGS: *now = digest_of_words(c->flags, c->flag_count); return 1;
    case ENTRY_MACROS: *now = digest_of_words(c->macros, c->macro_count); return 1;
    default: return 0;
    }
}

size_t first_changed(const entry *entries, size_t count, const inputs *in, const command *c)
{
    for (size_t i = 0; i < count; i++) {
        digest now;
        if (!digest_now(&entries[i], in, c, &now) || !digest_equal(&now, &entries[i].sum)) {
            return i;
        }
    }
    return count;
}

void entry_to_block(const entry *e, uint8_t block[FW_BLOCK_LEN])
{
    memset(block, 0, FW_BLOCK_LEN);
    block[0] = (uint8_t)e->kind;
    memcpy(block + NAME_AT, e->name, strlen(e->name));
    memcpy(block + DIGEST_AT, e->sum.bytes, DIGEST_LEN);
}

int entry_of_block(entry *e, const uint8_t block[FW_BLOCK_LEN])
{
    memset(e, 0, sizeof *e);
    e->kind = (char)block[0];
    memcpy(e->name, block + NAME_AT, NAME_MAX_LEN);
    memcpy(e->sum.bytes, block + DIGEST_AT, DIGEST_LEN);
    return e->kind != '\0' && e->name[0] != '\0' && block[DIGEST_AT - 1] == 0;
}

int entry_equal(const entry *a, const entry *b)
{
    return a->kind == b->kind && strcmp(a->name, b->name) == 0 && digest_equal(&a->sum, &b->sum);
}

int list_equal(const list *a, const list *b)
{
    for (size_t i = 0; i < a->count && i < b->count; i++) {
        if (!entry_equal(&a->entries[i], &b->entries[i])) {
            return 0;
        }
    }
    return a->count == b->count;
}

const char *entry_kind(const entry *e)
{
    switch (e->kind) {
    case ENTRY_SOURCE: return "source";
    case ENTRY_HEADER: return "header";
    case ENTRY_FLAGS: return "command line";
    case ENTRY_MACROS: return "command line";
    default: return "unknown";
    }
}
