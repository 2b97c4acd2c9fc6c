/* A barrier whose last comer turns its sense (Hensgen, Finkel, Manber): what was written in front of it is read behind it. */
#include "orders_of.h"
static _Atomic int missing = 2, sense; static int made[2];
static void barrier(int turned) {
    if (sub(&missing, 1, ACQ_REL) > 1) {
        while (load(&sense, ACQ) != turned) ;
        return;
    }
    store(&missing, 2, RLX);
    store(&sense, turned, REL);
}
static void *work(void *p) {
    int me = (int)(long)p;
    made[me] = 1;
    barrier(1);
    assert(made[!me] == 1);
    barrier(0);
    made[me] = 2;
    return p;
}
int main(void) { START2(work, work); return 0; }
