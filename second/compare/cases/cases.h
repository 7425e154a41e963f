/* Cases of core and registers. Each group answers the number of its failures, which it prints. */
#ifndef SECOND_CASES_H
#define SECOND_CASES_H

#include <stdint.h>

/* steps.c */
unsigned group_step(uint64_t count);
unsigned group_run(uint64_t count);
/* files.c */
unsigned group_files(uint64_t count);
/* malformed.c */
unsigned group_malformed(uint64_t count);
/* hand_out.c */
unsigned group_hand_out(uint64_t count);
/* stored.c */
unsigned group_stored(void);
unsigned stored_all(void);

#endif
