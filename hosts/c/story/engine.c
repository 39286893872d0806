#include "engine.h"

#include <string.h>

#define DEFAULT_BEFORE_W7 16 /* units of a container that was created with quota 0 */

int engine_start(engine *e, uint64_t first, wrong_engine wrong)
{
    reply made;
    memset(e, 0, sizeof *e);
    e->wrong = wrong;
    if (kernel_start(&e->k, first).answer != FW_GRANTED) {
        return 0;
    }
    e->root = first;
    e->self = first + 1;
    made = make_category(&e->k, e->self);
    e->mark = made.value;
    return made.answer == FW_GRANTED;
}

job *take_on(engine *e, const command *cmd, privacy shown)
{
    job *j = &e->jobs[e->job_count];
    reply made;
    if (e->job_count == JOBS_MAX) {
        return NULL;
    }
    memset(j, 0, sizeof *j);
    made = make_category(&e->k, e->self);
    if (made.answer != FW_GRANTED) {
        return NULL;
    }
    j->cmd = *cmd;
    j->shown = shown;
    j->category = made.value;
    e->job_count++;
    return j;
}

/* The mark at level 2 and, with a category, its level there; level 1 elsewhere. */
static fwh_label marked_with(const engine *e, uint64_t category, uint8_t code)
{
    fwh_pair pairs[2] = {{e->mark, FW_LEVEL_2}, {category, code}};
    fwh_label label = fwh_level(FW_LEVEL_1);
    fwh_label_of(&label, FW_LEVEL_1, pairs, category == 0 ? 1 : 2);
    return label;
}

fwh_label marked(const engine *e)
{
    return marked_with(e, 0, FW_LEVEL_1);
}

fwh_label room_label(const engine *e, const job *j)
{
    if (e->wrong == WRONG_OPEN_ROOM) {
        return marked(e);
    }
    return marked_with(e, j->category, j->shown == FOR_ALL_TO_READ ? FW_LEVEL_0 : FW_LEVEL_3);
}

fwh_label thread_label(const engine *e, const job *j)
{
    return marked_with(e, j->category, FW_STAR);
}

fwh_label thread_clearance(const job *j)
{
    fwh_pair own = {j->category, FW_LEVEL_3};
    fwh_label clearance = fwh_level(FW_LEVEL_2);
    if (j->shown == FOR_ITS_OWNER_ONLY) {
        fwh_label_of(&clearance, FW_LEVEL_2, &own, 1);
    }
    return clearance;
}

int run_analysis(engine *e, const job *j, const inputs *in, result *r)
{
    static analysis a;
    memset(r, 0, sizeof *r);
    e->analyses++;
    if (!analyse(&a, in, &j->cmd)) {
        return 0;
    }
    r->report_len = write_report(&a, &j->cmd, r->report);
    r->depends = list_of(&a, &j->cmd);
    if (e->wrong == WRONG_NO_MACROS) {
        r->depends.count--;
    }
    r->all_hold = all_hold(&a);
    return r->report_len > 0;
}

static uint64_t blocks_for(size_t bytes)
{
    return (bytes + FW_BLOCK_LEN - 1) / FW_BLOCK_LEN;
}

uint64_t units_for(const result *r)
{
    return 1 + 1 + (1 + blocks_for(r->report_len)) + (1 + r->depends.count);
}

static uint64_t quota_passed(const engine *e, uint64_t quota)
{
    return e->wrong == WRONG_DEFAULT_ROOM && quota == DEFAULT_BEFORE_W7 ? FW_QUOTA_DEFAULT : quota;
}

reply grant_room(engine *e, job *j, uint64_t quota)
{
    fwh_label room = room_label(e, j), label = thread_label(e, j), clearance = thread_clearance(j);
    reply made = make_container(&e->k, e->self, e->root, &room, j->cmd.job, quota_passed(e, quota));
    if (made.answer != FW_GRANTED) {
        return made;
    }
    j->room = made.value;
    j->quota = quota;
    made = make_thread(&e->k, e->self, j->room, &label, &clearance, j->cmd.job);
    j->thread = made.value;
    return made;
}

/* One step of a job, after which the others have their turn. */
static int granted(engine *e, growth *g, reply r)
{
    g->answer = r.answer;
    if (e->between != NULL) {
        e->between(e->with);
    }
    return r.answer == FW_GRANTED;
}

static void text_block(const result *r, size_t block, uint8_t bytes[FW_BLOCK_LEN])
{
    size_t from = block * FW_BLOCK_LEN, left = r->report_len - from;
    memset(bytes, 0, FW_BLOCK_LEN);
    memcpy(bytes, r->report + from, left < FW_BLOCK_LEN ? left : FW_BLOCK_LEN);
}

static int store_report(engine *e, job *j, const result *r, growth *g)
{
    fwh_label label = room_label(e, j);
    uint64_t blocks = blocks_for(r->report_len);
    reply made = make_segment(&e->k, j->thread, j->room, &label, "report", 1 + blocks);
    if (!granted(e, g, made)) {
        return 0;
    }
    j->report = made.value;
    if (!granted(e, g, resize(&e->k, j->thread, j->room, j->report, blocks * FW_BLOCK_LEN))) {
        return 0;
    }
    for (uint64_t b = 0; b < blocks; b++) {
        uint8_t bytes[FW_BLOCK_LEN];
        text_block(r, b, bytes);
        if (!granted(e, g, write_block(&e->k, j->thread, j->room, j->report, b, bytes))) {
            return 0;
        }
    }
    return 1;
}

/* A unit out of the room into the list, a block more, and the entry into it. */
static int store_entry(engine *e, job *j, const entry *what, uint64_t at, growth *g)
{
    uint8_t bytes[FW_BLOCK_LEN];
    entry_to_block(what, bytes);
    return granted(e, g, move_quota(&e->k, j->thread, j->room, j->list, 1)) &&
           granted(e, g, resize(&e->k, j->thread, j->room, j->list, (at + 1) * FW_BLOCK_LEN)) &&
           granted(e, g, write_block(&e->k, j->thread, j->room, j->list, at, bytes));
}

static int store_list(engine *e, job *j, const list *l, growth *g)
{
    fwh_label label = room_label(e, j);
    reply made = make_segment(&e->k, j->thread, j->room, &label, "depends on", 1);
    if (!granted(e, g, made)) {
        return 0;
    }
    j->list = made.value;
    for (g->entries = 0; g->entries < l->count; g->entries++) {
        if (!store_entry(e, j, &l->entries[g->entries], g->entries, g)) {
            return 0;
        }
    }
    return 1;
}

growth store_result(engine *e, job *j, const result *r)
{
    growth g = {0, FW_GRANTED};
    int whole = store_report(e, j, r, &g) && store_list(e, j, &r->depends, &g);
    j->kept = whole || (e->wrong == WRONG_SHORT_LIST && j->list != 0);
    if (!j->kept) {
        drop_room(e, j);
    }
    return g;
}

reply drop_room(engine *e, job *j)
{
    reply gone = unreference(&e->k, e->self, e->root, j->room);
    j->room = j->thread = j->report = j->list = 0;
    j->kept = 0;
    return gone;
}

/* The report up to the first zero of its last block. */
static int read_report(engine *e, const job *j, result *r)
{
    uint8_t bytes[FW_BLOCK_LEN];
    uint64_t b = 0;
    reply got = read_block(&e->k, e->self, j->room, j->report, b, bytes);
    while (got.answer == FW_GRANTED && (b + 1) * FW_BLOCK_LEN <= REPORT_MAX_LEN) {
        memcpy(r->report + b * FW_BLOCK_LEN, bytes, FW_BLOCK_LEN);
        got = read_block(&e->k, e->self, j->room, j->report, ++b, bytes);
    }
    r->report[b * FW_BLOCK_LEN] = '\0';
    r->report_len = strlen(r->report);
    return got.answer == FW_BEYOND_LENGTH;
}

/* As many entries as the segment has blocks. */
static int read_list(engine *e, const job *j, list *l)
{
    uint8_t bytes[FW_BLOCK_LEN];
    reply got = read_block(&e->k, e->self, j->room, j->list, 0, bytes);
    for (l->count = 0; got.answer == FW_GRANTED && l->count < ENTRIES_MAX;) {
        if (!entry_of_block(&l->entries[l->count++], bytes)) {
            return 0;
        }
        got = read_block(&e->k, e->self, j->room, j->list, l->count, bytes);
    }
    return got.answer == FW_BEYOND_LENGTH;
}

int read_result(engine *e, const job *j, result *r)
{
    memset(r, 0, sizeof *r);
    return j->kept && read_report(e, j, r) && read_list(e, j, &r->depends);
}

int still_fresh(engine *e, const job *j, const inputs *in, size_t *changed)
{
    static result kept;
    *changed = 0;
    if (!read_result(e, j, &kept)) {
        return 0;
    }
    *changed = first_changed(kept.depends.entries, kept.depends.count, in, &j->cmd);
    return e->wrong == WRONG_ALWAYS_FRESH || *changed == kept.depends.count;
}
