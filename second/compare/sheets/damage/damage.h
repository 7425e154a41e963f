/* All the inspector's clauses, by number, with a way to break each. */
#ifndef SECOND_DAMAGE_H
#define SECOND_DAMAGE_H

void list_clauses(void);

/* sheet.c: 4, 1, 30, 31. areas.c: 32. cells.c: 33. code.c, shapes.c: 34. targets.c: 35. */
void list_sheet_clauses(void);
void list_area_clauses(void);
void list_cell_clauses(void);
void list_code_clauses(void);
void list_shape_clauses(void);
void list_target_clauses(void);

#endif
