/* Cases of sheets and segments. Each group answers the number of its failures, which it prints. */
#ifndef SECOND_SHEETS_H
#define SECOND_SHEETS_H

#include <stdint.h>

/* inspected.c: sheets that break a clause, or pass */
unsigned group_sheets(uint64_t count);
unsigned places_missing(void);
/* changed.c: sheets and cores changed anywhere */
unsigned group_changed(uint64_t count);
/* passed.c: segments that pass, step by step and by post */
unsigned group_passed(uint64_t count);
unsigned stops_missing(void);
unsigned sizes_missing(void);
unsigned sizes_all(void);
/* posts.c: posts that are refused */
unsigned group_posts(uint64_t count);
/* stored.c: paper 01's example */
unsigned group_stored_sheets(void);
unsigned stored_sheets_all(void);
/* neighbours.c: neighbouring arrays */
unsigned group_neighbours(void);
unsigned neighbours_all(void);

#endif
