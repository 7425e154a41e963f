/* The clauses of the inspector's rules, each with a way to break it and nothing before it. */
#ifndef SECOND_CLAUSES_H
#define SECOND_CLAUSES_H

#include "../making/segment.h"

enum { MOST_CLAUSES = 400 };

/*
 * Spoils a segment; the place is the one that the inspector must answer. False if this segment
 * does not lend itself to it. A clause of the code is broken before the layout is made.
 */
typedef bool spoil(struct segment *seg, unsigned which, uint64_t *place);

struct clause {
    unsigned number;
    char name[72];
    bool of_code;
    spoil *spoil;
    unsigned which;
    void (*wants)(struct wish *wish, unsigned which); /* or NULL */
    uint64_t reached;
};

extern struct clause clause[MOST_CLAUSES];
extern unsigned clauses;

struct clause *add_clause(unsigned number, const char *name, spoil *how, unsigned which);
/* A segment in which this clause is the first that is broken; at times a later one is too. */
uint64_t make_damaged(struct segment *seg, struct clause *broken);

/* Prints how often each was broken; answers how many never were, of how many. */
unsigned clauses_missing(void);
unsigned clauses_all(void);

#endif
