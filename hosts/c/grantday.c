/* The day of docs/RULES.md through the C interface, from 100 on. A line a call: number, caller, call, answer, value. */
#include <inttypes.h>
#include <stdio.h>
#include <stdlib.h>

#include "flytewood.h"
#include "flytewood_help.h"

#define FIRST 100
#define ROOT FIRST
#define HEAD (FIRST + 1)

static fwh_areas areas;
static const uint8_t nothing[FW_DESCRIPTION_LEN];
static uint64_t number = FIRST + 2;

static fwh_label plain(void)
{
    return fwh_level(FW_LEVEL_1);
}

static fwh_label secret(uint64_t category)
{
    fwh_label label = plain();
    fwh_pair pair = {category, FW_LEVEL_3};
    if (!fwh_label_of(&label, FW_LEVEL_1, &pair, 1)) {
        fputs("grantday: no such label\n", stderr);
        exit(1);
    }
    return label;
}

static void line(uint64_t caller, int call, uint64_t answer, uint64_t value)
{
    printf("%" PRIu64 " %" PRIu64 " %d %" PRIu64 " %" PRIu64 "\n", number, caller, call, answer, value);
    number++;
}

static void category(uint64_t caller)
{
    uint64_t value;
    uint64_t answer = fw_create_category(FWH_AREAS(areas), caller, &value);
    line(caller, 1, answer, value);
}

static void set_label(uint64_t caller, fwh_label label)
{
    uint64_t value;
    uint64_t answer = fw_set_label(FWH_AREAS(areas), caller, FWH_LABEL(label), &value);
    line(caller, 2, answer, value);
}

static void container(uint64_t caller, uint64_t d, fwh_label label, uint64_t quota)
{
    uint64_t value;
    uint64_t answer = fw_create_container(FWH_AREAS(areas), caller, d, FWH_LABEL(label), FWH_BYTES(nothing), 0, quota,
                                          &value);
    line(caller, 4, answer, value);
}

static void segment(uint64_t caller, uint64_t d, fwh_label label, uint64_t quota)
{
    uint64_t value;
    uint64_t answer = fw_create_segment(FWH_AREAS(areas), caller, d, FWH_LABEL(label), FWH_BYTES(nothing), quota,
                                        &value);
    line(caller, 5, answer, value);
}

static void thread(uint64_t caller, uint64_t d, fwh_label label, fwh_label clearance)
{
    uint64_t value;
    uint64_t answer = fw_create_thread(FWH_AREAS(areas), caller, d, FWH_LABEL(label), FWH_LABEL(clearance),
                                       FWH_BYTES(nothing), &value);
    line(caller, 7, answer, value);
}

static void unreference(uint64_t caller, uint64_t d, uint64_t o)
{
    uint64_t value;
    uint64_t answer = fw_unreference(FWH_AREAS(areas), caller, d, o, &value);
    line(caller, 8, answer, value);
}

static void move_quota(uint64_t caller, uint64_t d, uint64_t o, int64_t n)
{
    uint64_t value;
    uint64_t answer = fw_move_quota(FWH_AREAS(areas), caller, d, o, n, &value);
    line(caller, 11, answer, value);
}

static void read_bytes(uint64_t caller, uint64_t d, uint64_t s, uint64_t k, uint64_t from, uint64_t count)
{
    uint64_t value, place, length;
    uint64_t answer = fw_read(FWH_AREAS(areas), caller, d, s, k, from, count, &place, &length, &value);
    line(caller, 12, answer, value);
}

static void resize(uint64_t caller, uint64_t d, uint64_t s, uint64_t length)
{
    uint64_t value;
    uint64_t answer = fw_resize(FWH_AREAS(areas), caller, d, s, length, &value);
    line(caller, 14, answer, value);
}

int main(void)
{
    if (fw_start(FWH_AREAS(areas), FIRST) != FW_GRANTED) {
        fputs("grantday: the kernel did not start\n", stderr);
        return 1;
    }
    category(HEAD);
    container(HEAD, ROOT, secret(102), 20);
    segment(HEAD, 103, secret(102), FW_QUOTA_DEFAULT);
    resize(HEAD, 103, 104, 256);
    resize(HEAD, 103, 104, 257);
    thread(HEAD, ROOT, plain(), fwh_level(FW_LEVEL_2));
    read_bytes(107, 103, 104, 0, 0, 1);
    set_label(107, secret(102));
    segment(107, ROOT, plain(), 234);
    segment(107, ROOT, plain(), 233);
    move_quota(HEAD, ROOT, 103, 1);
    segment(HEAD, 103, secret(102), 14);
    segment(HEAD, 103, secret(102), 1);
    unreference(HEAD, ROOT, 111);
    category(111);
    move_quota(HEAD, ROOT, 103, 1);
    return 0;
}
