/* The planner's C boundary: five functions of two files, numbers and a lent list.
 *
 * Files. nodes: 4 bytes a junction, its potential (signed). roads: 8 bytes a road, tail and head
 * (unsigned 16 bits), consumption (signed 32 bits). Both little-endian, without a header. All
 * energy is in mWh. A road is named by its record number, a junction by its own, from 0.
 *
 * Answers. number 0 is success, any other the refusal's number (README.md has the table); place is
 * the place of the first fault, of 10 the least start charge. A refusal has zero for all other
 * numbers and writes to no list.
 *
 * Asked of the caller: each pointer is to as many elements as the length beside it says, and is not
 * null even where that length is 0; no list that is written overlaps anything else that is lent.
 * Any bytes and any numbers are taken. Nothing is kept, allocated or printed, so that threads may
 * call at the same time. Below the caller's frame sedge_best_route and sedge_set_off use some 52 KB
 * of stack.
 */
#ifndef SEDGE_H
#define SEDGE_H

#include <stddef.h>
#include <stdint.h>

#ifdef __cplusplus
extern "C" {
#endif

typedef struct { uint64_t number, place; } sedge_checked;
typedef struct { uint64_t number, place, roads, arrival, drawn, recovered, spilled; } sedge_planned;
typedef struct { uint64_t number, place, arrival, drawn, recovered, spilled; } sedge_driven;
typedef struct { uint64_t number, place, need; int64_t sum; uint64_t top; } sedge_profiled;

/* Network check: are both files sound? Refusals in order: 1, 2, then record by record 7, 8, 9. */
sedge_checked sedge_check(const uint8_t *nodes, size_t nodes_len, const uint8_t *roads, size_t roads_len);

/* Best route: of all walks from source to target, of any length, one that arrives with the most
 * charge and visits no junction twice. route needs room for (junctions - 1) entries; its first
 * `roads` entries become the route, the others stay. Refusals in order: 1 to 6, the records, then
 * where no walk is feasible one of: 10, a larger start up to a full battery would do, and place is
 * the least; 16, none would, but a chain of roads leads there; 17, no chain of roads does. */
sedge_planned sedge_best_route(const uint8_t *nodes, size_t nodes_len, const uint8_t *roads, size_t roads_len,
                               int64_t battery, int64_t start, uint64_t source, uint64_t target,
                               uint16_t *route, size_t route_len);

/* Drive of a given route: the charge on arrival and what was drawn, recovered and spilled on the
 * way. Refusals in order: 1, 2, 3, 4, 5, 11, the records, then place by place 12, 13, 14. */
sedge_driven sedge_drive(const uint8_t *nodes, size_t nodes_len, const uint8_t *roads, size_t roads_len,
                         int64_t battery, int64_t start, uint64_t source, const uint16_t *route, size_t route_len);

/* Profile of a given route: below `need` it cannot be driven; from need on the arrival is the
 * smaller of `top` and start - `sum`. Refusals in order: 1, 2, 3, 5, 11, the records, then place by
 * place 12, 13, 15. */
sedge_profiled sedge_profile(const uint8_t *nodes, size_t nodes_len, const uint8_t *roads, size_t roads_len,
                             int64_t battery, uint64_t source, const uint16_t *route, size_t route_len);

/* Charge to set off with: for each junction the least charge from which some walk to the depot, of
 * any length, is feasible, and -1 where no charge up to a full battery is enough. The depot has 0.
 * list needs room for one entry a junction; so many are written, in order, and the others stay.
 * Refusals in order: 1, 2, 3, 5, 6, the records. */
sedge_checked sedge_set_off(const uint8_t *nodes, size_t nodes_len, const uint8_t *roads, size_t roads_len,
                            int64_t battery, uint64_t depot, int32_t *list, size_t list_len);

#ifdef __cplusplus
}
#endif

#endif
