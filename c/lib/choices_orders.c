/* The runtime of memory orders, for programs that ask it what the environment does (choices.c). */
#include "orders.c"

int orders_choose(void) {
    if (!is_parallel())
        return choose(2);
    begin_operation(0, OTHERS);
    int is = choose(2);
    leave(me());
    return is;
}
