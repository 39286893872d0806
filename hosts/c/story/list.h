/* A result's list of what it depended on. An entry is one block: its kind, its name, its digest. */
#ifndef STORY_LIST_H
#define STORY_LIST_H

#include "analysis.h"
#include "flytewood.h"

#define ENTRIES_MAX (FILES_MAX + 2)

#define ENTRY_SOURCE 'S'
#define ENTRY_HEADER 'H'
#define ENTRY_FLAGS 'F'
#define ENTRY_MACROS 'M'

typedef struct {
    char kind;
    char name[NAME_MAX_LEN + 1];
    digest sum;
} entry;

typedef struct {
    entry entries[ENTRIES_MAX];
    size_t count;
} list;

/* What this analysis depended on: source, headers, flags, and last the macros. */
list list_of(const analysis *a, const command *c);

/* The digest of what the entry names as it is now; 0 if there is no such thing any more. */
int digest_now(const entry *e, const inputs *in, const command *c, digest *now);

/* The first of these entries whose thing has changed; `count` if none has. */
size_t first_changed(const entry *entries, size_t count, const inputs *in, const command *c);

/* An entry as the bytes of a block, and back; 0 if the bytes are no entry. */
void entry_to_block(const entry *e, uint8_t block[FW_BLOCK_LEN]);
int entry_of_block(entry *e, const uint8_t block[FW_BLOCK_LEN]);

int entry_equal(const entry *a, const entry *b);
int list_equal(const list *a, const list *b);
const char *entry_kind(const entry *e);

#endif
