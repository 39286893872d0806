/*
 * The engine's story: the fault that Flytewood was built for, played on the kernel. Every claim is checked as it is
 * told; the exit status is 0 only if all of them held.
 */
#include <stdio.h>
#include <string.h>

#include "claims.h"
#include "neighbour.h"

#define FIRST_NUMBER 1000
#define RESERVE 4 /* units that the engine keeps in the root for itself */

#define USAGE "usage: story [--quiet] [--wrong open-room|short-list|no-macros|always-fresh|default-room] [INPUTS]\n"

/* Everybody in the story. The jobs are the first three of the command file, in its order. */
typedef struct {
    engine e;
    neighbour n;
    job *crossing, *barrier, *lamps;
    result morning[JOBS_MAX]; /* what the morning's analyses found, job by job */
    inputs in, in_changed;
} cast;

static cast c;

static const char *label_words(fwh_label label)
{
    static char text[FWH_LABEL_TEXT];
    fwh_label_text(&label, text, sizeof text);
    return text;
}

static result *morning_of(const job *j)
{
    return &c.morning[j - c.e.jobs];
}

static void show_report(const char *report)
{
    char copy[REPORT_MAX_LEN + 1];
    strcpy(copy, report);
    for (char *line = strtok(copy, "\n"); line != NULL; line = strtok(NULL, "\n")) {
        say("    | %s", line);
    }
}

/* Whether the kernel holds, for this job, just what an analysis of its present inputs finds. */
static int kept_is_true(job *j, const inputs *in)
{
    static result kept, fresh;
    unsigned analyses = c.e.analyses;
    int same = read_result(&c.e, j, &kept) && run_analysis(&c.e, j, in, &fresh) &&
               strcmp(kept.report, fresh.report) == 0 && list_equal(&kept.depends, &fresh.depends);
    c.e.analyses = analyses; /* this one was the test's, not the engine's */
    return same;
}

/* ---- The morning: rooms are granted ---- */

static int take_on_jobs(void)
{
    command commands[JOBS_MAX];
    if (read_commands(&c.in, "commands", commands) != 3) {
        return 0;
    }
    c.crossing = take_on(&c.e, &commands[0], FOR_ALL_TO_READ);
    c.barrier = take_on(&c.e, &commands[1], FOR_ALL_TO_READ);
    c.lamps = take_on(&c.e, &commands[2], FOR_ITS_OWNER_ONLY);
    return c.crossing != NULL && c.barrier != NULL && c.lamps != NULL;
}

/* The room a job is granted: what its result needs, but one unit less for the job that is to run out. */
static uint64_t morning_room(const job *j)
{
    return units_for(morning_of(j)) - (j == c.barrier ? 1 : 0);
}

static int grant_rooms(void)
{
    int granted = 1;
    for (size_t i = 0; i < c.e.job_count; i++) {
        job *j = &c.e.jobs[i];
        granted = granted && grant_room(&c.e, j, morning_room(j)).answer == FW_GRANTED;
        say("%s gets room %llu, of %llu units, labelled %s,", j->cmd.job, (unsigned long long)j->room,
            (unsigned long long)j->quota, label_words(room_label(&c.e, j)));
        say("    and works in it as thread %llu, labelled %s.", (unsigned long long)j->thread,
            label_words(thread_label(&c.e, j)));
    }
    return granted;
}

static uint64_t units_left_for_neighbour(void)
{
    uint64_t left = FW_ROOT_QUOTA - 2 - RESERVE;
    for (size_t i = 0; i < c.e.job_count; i++) {
        left -= c.e.jobs[i].quota;
    }
    return left;
}

/* Whether the root's spare is just so much: a unit more is refused, so many are granted (and given back). */
static int root_spare_is(uint64_t units)
{
    fwh_label plain = fwh_level(FW_LEVEL_1);
    reply over = make_segment(&c.e.k, c.e.self, c.e.root, &plain, "trial", units + 1);
    reply all = make_segment(&c.e.k, c.e.self, c.e.root, &plain, "trial", units);
    return over.answer == FW_NO_SPARE && all.answer == FW_GRANTED &&
           unreference(&c.e.k, c.e.self, c.e.root, all.value).answer == FW_GRANTED;
}

static void tell_fault(void)
{
    heading("The fault");
    say("An engine analyses the code of a level crossing and keeps each result with a list of what it depended on.");
    say("One night a neighbouring job used up room that was granted to another. So that job's list could not grow for");
    say("    its last entry, the macros of the command line. The short list was kept; the macros changed; the old");
    say("    result was handed out as fresh, and a report was signed for a setting that nobody had analysed.");
    say("Here is that day once more, on a kernel that keeps its grants.");
}

static void tell_neighbour_let_in(void)
{
    reply in = let_in(&c.n, &c.e, units_left_for_neighbour());
    claim(in.answer == FW_GRANTED, "a neighbour was let in: thread %llu, in yard %llu of %llu units, labelled %s",
          (unsigned long long)c.n.thread, (unsigned long long)c.n.yard, (unsigned long long)c.n.quota,
          label_words(marked(&c.e)));
}

static int tell_grants(void)
{
    heading("Morning: every job is granted a room");
    say("The kernel starts at %d: the root is container %d with %d units, the engine is thread %d.", FIRST_NUMBER,
        FIRST_NUMBER, FW_ROOT_QUOTA, FIRST_NUMBER + 1);
    say("Each job's thread bears the engine's mark, category %llu, at level 2: it can write only where the mark is,",
        (unsigned long long)c.e.mark);
    say("    so not in the root, where the rooms hang. A room has also a category of its own: at level 0 other jobs");
    say("    may read there and not write; at level 3 they may not even read.");
    for (size_t i = 0; i < c.e.job_count; i++) {
        if (!run_analysis(&c.e, &c.e.jobs[i], &c.in, &c.morning[i])) {
            return claim(0, "%s was analysed", c.e.jobs[i].cmd.job);
        }
    }
    claim(grant_rooms(), "every room was granted");
    tell_neighbour_let_in();
    claim(root_spare_is(RESERVE),
          "all units are given out: the root has the engine's reserve of %d to spare, and not one more", RESERVE);
    return 1;
}

/* ---- The neighbour ---- */

static int sees_nothing_of(const job *j)
{
    uint64_t nowhere = c.e.k.number + 1000;
    reply hidden = look(&c.e.k, c.n.thread, j->room, j->thread);
    reply absent = look(&c.e.k, c.n.thread, nowhere, j->thread);
    return hidden.answer == FW_NO_ENTRY && absent.answer == hidden.answer;
}

static void tell_neighbour(void)
{
    heading("The neighbour takes all it can get");
    hoard_bytes(&c.n);
    claim(units_held(&c.n) == c.n.quota && c.n.bytes > 0,
          "it took its own yard to the last of %llu units, %llu bytes, until answer %d (%s)",
          (unsigned long long)c.n.quota, (unsigned long long)c.n.bytes, FW_NO_SPARE, fwh_answer_name(FW_NO_SPARE));
    reach_out(&c.n);
    claim(c.n.got == 0 && c.n.otherwise == 0 && c.n.reached > 0,
          "it reached %llu times for the root and the rooms, to create, link, move and remove, and got nothing",
          (unsigned long long)c.n.reached);
    say("    (%llu times answer %d, %s; %llu times %d, %s)", (unsigned long long)c.n.refused_by_label, FW_LABEL_FORBIDS,
        fwh_answer_name(FW_LABEL_FORBIDS), (unsigned long long)c.n.refused_by_entry, FW_NO_ENTRY,
        fwh_answer_name(FW_NO_ENTRY));
    claim(sees_nothing_of(c.lamps), "to it, lamps' room is answered like a container that does not exist: 5");
    c.e.between = neighbour_turn;
    c.e.with = &c.n;
    say("From here on it has a turn after every step of every job, and tries all of it again.");
}

/* ---- The lists grow ---- */

static void show_entries(const list *l, size_t count)
{
    for (size_t i = 0; i < count; i++) {
        char sum[9];
        digest_short(&l->entries[i].sum, sum);
        say("    %u. %-13s %-12s %s..", (unsigned)(i + 1), entry_kind(&l->entries[i]), l->entries[i].name, sum);
    }
}

static int room_is_full(job *j)
{
    return move_quota(&c.e.k, j->thread, j->room, j->list, 1).answer == FW_NO_SPARE;
}

/* Stores the morning's result, and claims what a job with a room of the right size is owed. */
static void tell_growth(job *j)
{
    static result kept;
    const result *r = morning_of(j);
    uint64_t turns = c.n.reached;
    growth g = store_result(&c.e, j, r);
    const entry *last = &r->depends.entries[r->depends.count - 1];
    int read = read_result(&c.e, j, &kept);
    say("%s analyses %s and writes its list, a block of 64 bytes an entry, kind, name and SHA-256:", j->cmd.job,
        j->cmd.source);
    show_entries(&kept.depends, kept.depends.count);
    claim(g.answer == FW_GRANTED && g.entries == r->depends.count && last->kind == ENTRY_MACROS && c.n.reached > turns,
          "all %u entries were granted their place, the macros last; the neighbour reached out %llu times meanwhile",
          (unsigned)r->depends.count, (unsigned long long)(c.n.reached - turns));
    claim(j->kept && room_is_full(j), "the last entry took the last of the room's %llu units: one more is answer 13",
          (unsigned long long)j->quota);
    claim(read && list_equal(&kept.depends, &r->depends) && strcmp(kept.report, r->report) == 0,
          "list and report read back from the kernel as they were written");
}

static void tell_lists(void)
{
    heading("The lists grow into the rooms");
    tell_growth(c.crossing);
    say("The report that is kept with it:");
    show_report(morning_of(c.crossing)->report);
    hoard_objects(&c.n);
    claim(units_held(&c.n) == c.n.quota,
          "the neighbour let go and took its yard again in pieces of one unit: %u objects, and then answer 13",
          (unsigned)c.n.count);
    tell_growth(c.lamps);
}

/* ---- A list that does not fit ---- */

static int found_in_area(const digest *d)
{
    for (size_t at = 0; at + DIGEST_LEN <= FW_AREA_LEN; at++) {
        if (memcmp(c.e.k.area + at, d->bytes, DIGEST_LEN) == 0) {
            return 1;
        }
    }
    return 0;
}

static void tell_short_room(void)
{
    const result *r = morning_of(c.barrier);
    uint64_t quota = c.barrier->quota, room = c.barrier->room;
    growth g;
    heading("A list that does not fit");
    say("barrier was granted %llu units. Its result needs %llu: the estimate was made before a header was added.",
        (unsigned long long)quota, (unsigned long long)units_for(r));
    g = store_result(&c.e, c.barrier, r);
    claim(g.answer == FW_NO_SPARE && g.entries == r->depends.count - 1 &&
              r->depends.entries[g.entries].kind == ENTRY_MACROS,
          "%u of its %u entries were granted; the last, the macros, was answered 13 (%s)", (unsigned)g.entries,
          (unsigned)r->depends.count, fwh_answer_name(FW_NO_SPARE));
    claim(!c.barrier->kept && look(&c.e.k, c.e.self, c.e.root, room).answer == FW_NO_ENTRY,
          "the engine does not keep the short list: result DROPPED, room %llu is gone", (unsigned long long)room);
    claim(!found_in_area(&r->depends.entries[0].sum),
          "nothing of it is left in the data area: the digest of %s is nowhere in it", c.barrier->cmd.source);
    claim(grant_room(&c.e, c.barrier, units_for(r)).answer == FW_GRANTED &&
              store_result(&c.e, c.barrier, r).answer == FW_GRANTED && c.barrier->kept && room_is_full(c.barrier),
          "with one unit more, from the engine's reserve, the whole list fits, and the result is kept");
}

/* ---- The rest of the day: what is served, and what is analysed anew ---- */

/* One job is asked for again: hands out what is kept, or analyses anew. Returns 1 if it handed out what was kept. */
static int ask_for(job *j, const inputs *in)
{
    static result r;
    size_t changed;
    int had = j->kept;
    if (still_fresh(&c.e, j, in, &changed)) {
        say("%s: nothing on its list has changed; the kept result is handed out.", j->cmd.job);
        return 1;
    }
    say("%s: %s; it is analysed anew.", j->cmd.job, had ? "something on its list has changed" : "nothing is kept");
    if (j->room != 0) {
        drop_room(&c.e, j);
        neighbour_turn(&c.n); /* the freed units lie in the root for a moment */
    }
    if (run_analysis(&c.e, j, in, &r) && grant_room(&c.e, j, units_for(&r)).answer == FW_GRANTED) {
        store_result(&c.e, j, &r);
    }
    return 0;
}

/* Asks for all three; says in bits, crossing lowest, which were handed out from what was kept. */
static unsigned ask_for_all(const inputs *in)
{
    unsigned served = 0;
    for (size_t i = 0; i < c.e.job_count; i++) {
        served |= (unsigned)ask_for(&c.e.jobs[i], in) << i;
    }
    return served;
}

static int all_kept_are_true(const inputs *in)
{
    return kept_is_true(c.crossing, in) && kept_is_true(c.barrier, in) && kept_is_true(c.lamps, in);
}

#define CROSSING 1u
#define BARRIER 2u
#define LAMPS 4u

static void tell_noon(void)
{
    unsigned analyses = c.e.analyses;
    heading("Noon: nothing has changed");
    claim(ask_for_all(&c.in) == (CROSSING | BARRIER | LAMPS) && c.e.analyses == analyses,
          "all three results were handed out again, and no analysis was run");
    claim(all_kept_are_true(&c.in), "each is what an analysis at noon would find");
}

static void tell_afternoon(void)
{
    heading("Afternoon: the header lamps.h is changed");
    claim(ask_for_all(&c.in_changed) == BARRIER, "just the two jobs that list lamps.h were analysed anew");
    claim(all_kept_are_true(&c.in_changed), "each result kept now is what an analysis of the changed header finds");
}

static int set_evening_commands(void)
{
    command commands[JOBS_MAX];
    if (read_commands(&c.in_changed, "commands.evening", commands) != (int)c.e.job_count) {
        return 0;
    }
    for (size_t i = 0; i < c.e.job_count; i++) {
        c.e.jobs[i].cmd = commands[i];
    }
    return 1;
}

static void show_changed_digest(const entry *kept)
{
    char before[9], after[9];
    digest now;
    digest_short(&kept->sum, before);
    if (digest_now(kept, &c.in_changed, &c.crossing->cmd, &now)) {
        digest_short(&now, after);
        say("crossing's entry for the macros has the digest %s.., the macros now have %s..", before, after);
    }
}

/* What the engine with the fault did: it looked at a list from which the last entry was missing. */
static void tell_old_fault(const result *kept, const result *fresh)
{
    const list *l = &kept->depends;
    size_t others = l->count > 0 ? l->count - 1 : 0;
    int only_last = others > 0 && l->entries[others].kind == ENTRY_MACROS &&
                    first_changed(l->entries, l->count, &c.in_changed, &c.crossing->cmd) == others;
    if (others > 0) {
        show_changed_digest(&l->entries[others]);
    }
    claim(only_last, "of the %u things on crossing's list only the macros have changed", (unsigned)l->count);
    claim(only_last && strcmp(kept->report, fresh->report) != 0 && strstr(kept->report, "FAILS") == NULL &&
              !fresh->all_hold,
          "a list without them would have shown no change: the old report, where everything holds, would be signed");
}

static void tell_evening(void)
{
    static result kept, fresh;
    unsigned analyses = c.e.analyses;
    heading("Evening: the line speed on crossing's command line goes from 120 to 160 km/h");
    claim(set_evening_commands() && read_result(&c.e, c.crossing, &kept) &&
              run_analysis(&c.e, c.crossing, &c.in_changed, &fresh),
          "the evening's commands and the kept result are there");
    c.e.analyses = analyses;
    tell_old_fault(&kept, &fresh);
    claim(ask_for_all(&c.in_changed) == (BARRIER | LAMPS) && c.e.analyses == analyses + 1,
          "the engine noticed: crossing was analysed anew, the other two were handed out");
    claim(all_kept_are_true(&c.in_changed) && read_result(&c.e, c.crossing, &kept) &&
              strstr(kept.report, "LINE_SPEED_KMH=160") != NULL && strstr(kept.report, "FAILS") != NULL,
          "the report that is handed out now is for the setting that was asked for, and says what fails in it");
    show_report(kept.report);
}

static void tell_end(void)
{
    heading("Night: what held all day");
    claim(c.n.got == 0 && c.n.otherwise == 0 && units_held(&c.n) == c.n.quota,
          "the neighbour reached out %llu times in all and got nothing but its yard", (unsigned long long)c.n.reached);
    claim(c.e.k.misnumbered == 0 && c.e.k.disturbed == 0,
          "of %llu calls %llu were refused, and no refusal changed more than the number",
          (unsigned long long)c.e.k.calls, (unsigned long long)c.e.k.refusals);
}

static int tell_all(wrong_engine wrong)
{
    int started = engine_start(&c.e, FIRST_NUMBER, wrong);
    if (!started || !take_on_jobs()) {
        fputs("story: the kernel did not start, or the inputs cannot be read\n", stderr);
        return 1;
    }
    tell_fault();
    if (tell_grants()) {
        tell_neighbour();
        tell_lists();
        tell_short_room();
        tell_noon();
        tell_afternoon();
        tell_evening();
        tell_end();
    }
    return verdict();
}

static int wrong_by_name(const char *name, wrong_engine *wrong)
{
    static const char *const names[] = {"nothing",   "open-room",    "short-list",
                                        "no-macros", "always-fresh", "default-room"};
    for (size_t i = 1; i < sizeof names / sizeof names[0]; i++) {
        if (strcmp(name, names[i]) == 0) {
            *wrong = (wrong_engine)i;
            return 1;
        }
    }
    return 0;
}

int main(int argc, char **argv)
{
    static char changed[1024];
    wrong_engine wrong = WRONG_IN_NOTHING;
    c.in.first = "hosts/c/story/inputs";
    for (int i = 1; i < argc; i++) {
        if (strcmp(argv[i], "--quiet") == 0) {
            be_quiet();
        } else if (strcmp(argv[i], "--wrong") == 0 && i + 1 < argc && wrong_by_name(argv[i + 1], &wrong)) {
            i++;
        } else if (argv[i][0] != '-' && strlen(argv[i]) < 900) {
            c.in.first = argv[i];
        } else {
            fputs(USAGE, stderr);
            return 2;
        }
    }
    snprintf(changed, sizeof changed, "%s/changed", c.in.first);
    c.in_changed.first = changed;
    c.in_changed.second = c.in.first;
    return tell_all(wrong);
}
