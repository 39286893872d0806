/*
 * For a team that looks for its calls that rely on a container's default quota: tells each create of a container with
 * quota 0, and the addresses that it was called from, the innermost first. Link a program with this file and the
 * linker's option --wrap=fw_create_container, and run it; hosts/c/README.md has the commands. The call itself goes on
 * as it was made. Needs glibc, for backtrace.
 */
#include <execinfo.h>
#include <inttypes.h>
#include <stdio.h>

#include "flytewood.h"

#define DEPTH 8

/* Each address lies after a call, so one less is in it. The first is in the stand-in itself. */
static void tell(uint64_t d, void *const *frames, int count)
{
    fprintf(stderr, "quota 0 for a container in %" PRIu64 ", from", d);
    for (int i = 1; i < count; i++) {
        fprintf(stderr, " 0x%" PRIxPTR, (uintptr_t)frames[i] - 1);
    }
    fputc('\n', stderr);
}

uint64_t __real_fw_create_container(uint8_t *book, uint64_t book_len, uint8_t *area, uint64_t area_len,
                                    uint64_t caller, uint64_t d, const uint8_t *label, uint64_t label_len,
                                    const uint8_t *description, uint64_t description_len, uint64_t mask,
                                    uint64_t quota, uint64_t *value);
uint64_t __wrap_fw_create_container(uint8_t *book, uint64_t book_len, uint8_t *area, uint64_t area_len,
                                    uint64_t caller, uint64_t d, const uint8_t *label, uint64_t label_len,
                                    const uint8_t *description, uint64_t description_len, uint64_t mask,
                                    uint64_t quota, uint64_t *value);

uint64_t __wrap_fw_create_container(uint8_t *book, uint64_t book_len, uint8_t *area, uint64_t area_len,
                                    uint64_t caller, uint64_t d, const uint8_t *label, uint64_t label_len,
                                    const uint8_t *description, uint64_t description_len, uint64_t mask,
                                    uint64_t quota, uint64_t *value)
{
    if (quota == FW_QUOTA_DEFAULT) {
        void *frames[DEPTH];
        int count = backtrace(frames, DEPTH);
        tell(d, frames, count);
    }
    return __real_fw_create_container(book, book_len, area, area_len, caller, d, label, label_len, description,
                                      description_len, mask, quota, value);
}
