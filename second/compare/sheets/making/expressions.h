/* Expressions by chance: each leaves one literal or number more, or puts one for another. */
#ifndef SECOND_EXPRESSIONS_H
#define SECOND_EXPRESSIONS_H

void make_word(unsigned deep);
void make_two_operator(void);
/* An index that fits; in wild code often one that need not. */
void make_index(unsigned array, unsigned deep);
/* Tame code keeps its words small. */
void make_smaller(void);
/* A number cell that is no loop's counter. */
unsigned stored_cell(void);

#endif
