/* The clauses in the order in which the inspector looks. */
#include "damage.h"

void list_clauses(void)
{
    list_sheet_clauses();
    list_area_clauses();
    list_cell_clauses();
    list_code_clauses();
    list_shape_clauses();
    list_target_clauses();
}
