/* The neighbour: a job that takes all it can get, and reaches for everybody's room at every turn. */
#ifndef STORY_NEIGHBOUR_H
#define STORY_NEIGHBOUR_H

#include "engine.h"

#define HOARD_MAX 256

typedef struct {
    engine *e;
    uint64_t yard, thread;
    uint64_t quota;              /* of its yard */
    uint64_t token;              /* a segment with its quota fixed, to be pushed into other rooms */
    uint64_t hoard[HOARD_MAX];   /* its segments */
    uint64_t sizes[HOARD_MAX];   /* and their quotas */
    size_t count;
    uint64_t bytes;              /* how many bytes they were grown to */
    uint64_t reached, refused_by_label, refused_by_entry; /* tries outside its yard, and what stopped them */
    uint64_t got;                /* tries outside its yard that were granted */
    uint64_t otherwise;          /* tries that were answered neither way */
} neighbour;

/* Grants the neighbour a yard of so many units, and a thread in it. */
reply let_in(neighbour *n, engine *e, uint64_t quota);

/* Takes its whole yard in the largest pieces that are granted, and grows each to its last byte. */
void hoard_bytes(neighbour *n);

/* Lets go of its pieces and takes the whole yard in pieces of one unit: as many objects as there can be. */
void hoard_objects(neighbour *n);

/* The units it holds in its yard, with itself and the yard. */
uint64_t units_held(const neighbour *n);

/* Reaches once for the root, for every room and for every list. */
void reach_out(neighbour *n);

/* A turn: takes what its yard may have got, and reaches out. The engine's `between`, with a neighbour. */
void neighbour_turn(void *with);

#endif
