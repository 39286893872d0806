/* The smallest host: start a kernel, and grant a room of 20 units in its root. */
#include <stdio.h>
#include "flytewood_help.h"

static fwh_areas areas;
static uint8_t about[FW_DESCRIPTION_LEN] = "a room";

int main(void)
{
    fwh_label label = fwh_level(FW_LEVEL_1);
    uint64_t room = 0, answer = fw_start(FWH_AREAS(areas), 100); /* root 100, with thread 101 */
    if (answer == FW_GRANTED) {
        answer = fw_create_container(FWH_AREAS(areas), 101, 100, FWH_LABEL(label), FWH_BYTES(about), 0, 20,
                                     &room);
    }
    printf("%s: container %llu\n", fwh_answer_name(answer), (unsigned long long)room);
    return answer == FW_GRANTED ? 0 : 1;
}
