#include "neighbour.h"

#include <string.h>

static void put_by(neighbour *n, uint64_t segment, uint64_t quota)
{
    if (n->count < HOARD_MAX) {
        n->hoard[n->count] = segment;
        n->sizes[n->count] = quota;
        n->count++;
    }
}

/* A segment of this quota in its own yard, if it is granted. */
static int take(neighbour *n, uint64_t quota)
{
    fwh_label label = marked(n->e);
    reply made = make_segment(&n->e->k, n->thread, n->yard, &label, "mine", quota);
    if (made.answer == FW_GRANTED) {
        put_by(n, made.value, quota);
    }
    return made.answer == FW_GRANTED;
}

/* Something to push into other rooms: a segment whose quota is fixed can be linked a second time. */
static void make_token(neighbour *n)
{
    if (take(n, 1)) {
        n->token = n->hoard[n->count - 1];
        fix_quota(&n->e->k, n->thread, n->yard, n->token);
    }
}

reply let_in(neighbour *n, engine *e, uint64_t quota)
{
    fwh_label label = marked(e), clearance = fwh_level(FW_LEVEL_2);
    reply made = make_container(&e->k, e->self, e->root, &label, "yard", quota);
    memset(n, 0, sizeof *n);
    n->e = e;
    n->quota = quota;
    n->yard = made.value;
    if (made.answer == FW_GRANTED) {
        made = make_thread(&e->k, e->self, n->yard, &label, &clearance, "neighbour");
        n->thread = made.value;
    }
    return made;
}

static void grow(neighbour *n, size_t i)
{
    uint64_t whole = (n->sizes[i] - 1) * FW_BLOCK_LEN;
    if (whole <= FW_SEGMENT_MAX &&
        resize(&n->e->k, n->thread, n->yard, n->hoard[i], whole).answer == FW_GRANTED) {
        n->bytes += whole;
    }
}

void hoard_bytes(neighbour *n)
{
    make_token(n);
    for (uint64_t quota = FW_QUOTA_MAX; quota >= 1; quota--) {
        while (take(n, quota)) {
        }
    }
    for (size_t i = 0; i < n->count; i++) {
        grow(n, i);
    }
}

void hoard_objects(neighbour *n)
{
    for (size_t i = 0; i < n->count; i++) {
        unreference(&n->e->k, n->thread, n->yard, n->hoard[i]);
    }
    n->count = 0;
    n->bytes = 0;
    make_token(n);
    while (take(n, 1)) {
    }
}

uint64_t units_held(const neighbour *n)
{
    uint64_t units = 2;
    for (size_t i = 0; i < n->count; i++) {
        units += n->sizes[i];
    }
    return units;
}

static void tried(neighbour *n, reply r)
{
    n->reached++;
    n->got += r.answer == FW_GRANTED;
    n->refused_by_label += r.answer == FW_LABEL_FORBIDS;
    n->refused_by_entry += r.answer == FW_NO_ENTRY;
    n->otherwise += r.answer != FW_GRANTED && r.answer != FW_LABEL_FORBIDS && r.answer != FW_NO_ENTRY;
}

static void reach_for_root(neighbour *n)
{
    kernel *k = &n->e->k;
    fwh_label own = marked(n->e), plain = fwh_level(FW_LEVEL_1);
    tried(n, make_segment(k, n->thread, n->e->root, &own, "from the root", 1));
    tried(n, move_quota(k, n->thread, n->e->root, n->yard, 1));
    tried(n, unreference(k, n->thread, n->e->root, n->e->self));
    tried(n, set_label(k, n->thread, &plain));
}

/* A room as a whole: own it, use its units, take them back out of it, charge it with a link, have it gone. */
static void reach_for_room(neighbour *n, const job *j)
{
    kernel *k = &n->e->k;
    fwh_label own = marked(n->e), theirs = room_label(n->e, j), owner = thread_label(n->e, j);
    fwh_label clearance = fwh_level(FW_LEVEL_2);
    tried(n, set_label(k, n->thread, &owner));
    tried(n, make_segment(k, n->thread, j->room, &own, "in your room", 1));
    tried(n, make_segment(k, n->thread, j->room, &theirs, "in your room", 1));
    tried(n, make_container(k, n->thread, j->room, &own, "in your room", 1));
    tried(n, make_thread(k, n->thread, j->room, &own, &clearance, "in your room"));
    tried(n, move_quota(k, n->thread, n->e->root, j->room, -1));
    tried(n, link_segment(k, n->thread, n->yard, n->token, j->room));
    tried(n, unreference(k, n->thread, n->e->root, j->room));
    tried(n, unreference(k, n->thread, j->room, j->thread));
}

/* The list in it: shorten it, write over it, take its units or fix them, have it gone. */
static void reach_for_list(neighbour *n, const job *j)
{
    static const uint8_t junk[FW_BLOCK_LEN] = {'j', 'u', 'n', 'k'};
    kernel *k = &n->e->k;
    tried(n, resize(k, n->thread, j->room, j->list, 0));
    tried(n, write_block(k, n->thread, j->room, j->list, 0, junk));
    tried(n, move_quota(k, n->thread, j->room, j->list, -1));
    tried(n, fix_quota(k, n->thread, j->room, j->list));
    tried(n, unreference(k, n->thread, j->room, j->list));
}

void reach_out(neighbour *n)
{
    reach_for_root(n);
    for (size_t i = 0; i < n->e->job_count; i++) {
        const job *j = &n->e->jobs[i];
        if (j->room != 0) {
            reach_for_room(n, j);
        }
        if (j->list != 0) {
            reach_for_list(n, j);
        }
    }
}

void neighbour_turn(void *with)
{
    neighbour *n = with;
    take(n, 1);
    reach_out(n);
}
