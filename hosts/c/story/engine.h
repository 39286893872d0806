/* The incremental engine: one room a job, each result kept there with the list of what it depended on. */
#ifndef STORY_ENGINE_H
#define STORY_ENGINE_H

#include "kernel.h"
#include "list.h"

/* Engines that are wrong in one way, so that a test can see the story's claims fail. */
typedef enum {
    WRONG_IN_NOTHING,
    WRONG_OPEN_ROOM,  /* rooms without a category of their own: a neighbour may write in them */
    WRONG_SHORT_LIST, /* keeps a result whose list did not fit */
    WRONG_NO_MACROS,  /* never lists the macros */
    WRONG_ALWAYS_FRESH, /* hands out what it has without looking at the list */
    WRONG_DEFAULT_ROOM /* passes quota 0 for a room of 16 units, which it stood for before W7 */
} wrong_engine;

/* Who may see a job's results: any job, or only one that owns the job's category. */
typedef enum { FOR_ALL_TO_READ, FOR_ITS_OWNER_ONLY } privacy;

typedef struct {
    command cmd;
    privacy shown;
    uint64_t category;
    uint64_t quota;                      /* of its room */
    uint64_t room, thread, report, list; /* ids, 0 where there is none */
    int kept;                            /* whether a result is handed out from here */
} job;

typedef struct {
    kernel k;
    uint64_t root, self;
    uint64_t mark; /* the category that every job's thread bears at level 2 */
    job jobs[JOBS_MAX];
    size_t job_count;
    unsigned analyses; /* how often the analysis was run */
    wrong_engine wrong;
    void (*between)(void *with); /* done between any two steps of a job: the others have their turn */
    void *with;
} engine;

/* One result: its report and its list. */
typedef struct {
    char report[REPORT_MAX_LEN + 1];
    size_t report_len;
    list depends;
    int all_hold;
} result;

/* How far a result got into its room. */
typedef struct {
    size_t entries;  /* of the list that were granted their place */
    uint64_t answer; /* FW_GRANTED, or what the first refused step answered */
} growth;

/* Starts the kernel and makes the mark; 0 if it did not start. */
int engine_start(engine *e, uint64_t first, wrong_engine wrong);

/* Takes on a job and makes its category; null if there is no place for it. */
job *take_on(engine *e, const command *cmd, privacy shown);

fwh_label marked(const engine *e);
fwh_label room_label(const engine *e, const job *j);
fwh_label thread_label(const engine *e, const job *j);
fwh_label thread_clearance(const job *j);

/* Runs the analysis of a job as its command stands; 0 if it was given up. */
int run_analysis(engine *e, const job *j, const inputs *in, result *r);

/* The units that a room needs for a result: itself, the job's thread, the report, and a list of so many entries. */
uint64_t units_for(const result *r);

/* Grants the job a room of so many units, and a thread in it. */
reply grant_room(engine *e, job *j, uint64_t quota);

/* Writes the result into the room, as the job's thread, the list entry by entry; drops it if a step is refused. */
growth store_result(engine *e, job *j, const result *r);

/* The room and all that is in it goes. */
reply drop_room(engine *e, job *j);

/* What is kept, read back from the kernel; 0 if nothing is, or it cannot be read. */
int read_result(engine *e, const job *j, result *r);

/* Whether the kept result may be handed out: *changed is the first entry that has changed, or the list's length. */
int still_fresh(engine *e, const job *j, const inputs *in, size_t *changed);

#endif
