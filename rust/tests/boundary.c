/* The five functions of include/sedge.h on hill network H, as a C program calls them. */
#include "sedge.h"

#include <inttypes.h>
#include <stdio.h>

static const uint8_t nodes[] = {0x38, 0xff, 0xff, 0xff, 0x0c, 0xfe, 0xff, 0xff, 0, 0, 0, 0, 0, 0, 0, 0};
static const uint8_t roads[] = {0, 0, 1, 0, 0x2c, 0x01, 0, 0, 1, 0, 2, 0, 0x0c, 0xfe, 0xff, 0xff,
                                0, 0, 2, 0, 0x64, 0,    0, 0, 2, 0, 3, 0, 0x84, 0x03, 0,    0};

/* The numbers of a best route and the list of five after it. */
static void plan(int64_t battery, int64_t start, uint64_t source, uint64_t target)
{
    uint16_t route[5] = {7, 7, 7, 7, 7};

    sedge_planned planned =
        sedge_best_route(nodes, sizeof nodes, roads, sizeof roads, battery, start, source, target, route, 5);
    printf("%" PRIu64 " %" PRIu64 " %" PRIu64 " %" PRIu64 " %" PRIu64 " %" PRIu64 " %" PRIu64 ":", planned.number,
           planned.place, planned.roads, planned.arrival, planned.drawn, planned.recovered, planned.spilled);
    for (int i = 0; i < 5; i++)
        printf(" %d", route[i]);
    printf("\n");
}

int main(void)
{
    int32_t charges[5] = {7, 7, 7, 7, 7};
    const uint16_t down[1] = {1};

    sedge_checked checked = sedge_check(nodes, sizeof nodes, roads, sizeof roads - 1);
    printf("%" PRIu64 " %" PRIu64 "\n", checked.number, checked.place);

    plan(1000, 900, 0, 3);
    plan(1000, 699, 0, 3);
    plan(1000, 99, 0, 2);
    plan(899, 899, 0, 3);
    plan(1000, 1000, 3, 0);

    sedge_driven driven = sedge_drive(nodes, sizeof nodes, roads, sizeof roads, 1000, 1000, 1, down, 1);
    printf("%" PRIu64 " %" PRIu64 " %" PRIu64 " %" PRIu64 " %" PRIu64 " %" PRIu64 "\n", driven.number, driven.place,
           driven.arrival, driven.drawn, driven.recovered, driven.spilled);

    sedge_profiled profiled = sedge_profile(nodes, sizeof nodes, roads, sizeof roads, 1000, 1, down, 1);
    printf("%" PRIu64 " %" PRIu64 " %" PRIu64 " %" PRId64 " %" PRIu64 "\n", profiled.number, profiled.place,
           profiled.need, profiled.sum, profiled.top);

    sedge_checked listed = sedge_set_off(nodes, sizeof nodes, roads, sizeof roads, 1000, 2, charges, 5);
    printf("%" PRIu64 " %" PRIu64 ":", listed.number, listed.place);
    for (int i = 0; i < 5; i++)
        printf(" %" PRId32, charges[i]);
    printf("\n");
    return 0;
}
