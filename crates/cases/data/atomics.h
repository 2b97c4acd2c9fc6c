#include <stdatomic.h>

static inline int exchange(atomic_int *place, int value) {
    return atomic_exchange(place, value);
}
