/* A route is read, and read again with its last byte missing. */

#include <inttypes.h>
#include <stdio.h>

#include "route_record.h"

int main(void)
{
    const uint32_t grammar[] = {3, 4, 0, 2, 1, 0, 0, 5, 0, 0, 2, 1, 2}; /* tuple(u32, bytes) */
    const uint8_t record[] = {7, 0, 0, 0, 2, 0, 0, 0, 0, 0, 0, 0, 0x41, 0x42};
    uint64_t rows[3 * ROUTE_ROW_WORDS];
    route_answer a = route_demarshall(grammar, 13, record, 14, rows, 3 * ROUTE_ROW_WORDS);
    if (a.number != 0) /* else the rows are 4 3 2 0 14, 1 1 7 0 4, 5 1 2 12 10 */
        return 1;
    printf("%" PRIu64 " rows, %" PRIu64 " and %" PRIu64 " bytes\n", a.first, rows[7], rows[12]);
    a = route_demarshall(grammar, 13, record, 13, rows, 3 * ROUTE_ROW_WORDS);
    if (a.number != ROUTE_REFUSED_BYTES_MISSING || a.place_kind != ROUTE_PLACE_BYTE)
        return 1;
    printf("refused at byte %" PRIu64 ": %s\n", a.place, route_refusal_meaning(a.number));
    return 0;
}
