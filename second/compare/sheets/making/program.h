/* Code that passes the scan. */
#ifndef SECOND_PROGRAM_H
#define SECOND_PROGRAM_H

#include "segment.h"

void make_body(struct segment *seg, bool longest);
void make_end(struct segment *seg, bool communicates, bool longest);

#endif
