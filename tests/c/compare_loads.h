/* Test loads, compared with the model. */
#ifndef COMPARE_LOADS_H
#define COMPARE_LOADS_H

#include "vongselik.h"

/* Compares loads on the state that events reached, on locks strewn over its table, on either with changes, on noise, and on zeros. */
void compare_loads(const vongselik_state *reached);

/* Prints how many loads of each kind there were, and checks that there were some. */
void check_loads_occurred(int tables);

#endif
