/* Stores by chance: each leaves nothing, but a place one item. */
#ifndef SECOND_STORES_H
#define SECOND_STORES_H

void make_place(void);
void make_store(void);
void make_pile(void);

#endif
