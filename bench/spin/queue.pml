/* examples/search/queue.wat: a queue of two slots, two producers and two consumers, ITEMS items each. A step for each access to
 * the memory, with what the thread makes of it. */
#ifndef ITEMS
#define ITEMS 2
#endif
#include "wait.inc"

byte put, taken, locked, sum, done, slots[2];
chan on_put = [4] of { byte };
chan on_taken = [4] of { byte };
chan on_lock = [4] of { byte };
chan on_done = [4] of { byte };

inline lock() {
    do
    :: atomic {
           old = locked; locked = 1;
           if
           :: old == 0 -> break
           :: else -> old = 0
           fi
       }
       wait(locked, 1, on_lock)
    od
}

inline unlock() {
    locked = 0;
    notify_one(on_lock)
}

inline produce() {
    items = ITEMS;
    do
    :: lock();
       t = taken;
       atomic {
           p = put;
           if
           :: p - t == 2 -> goto no_room
           :: else -> t = 0
           fi
       }
       p = put;
       slots[p & 1] = items;
       p = put;
       put = p + 1;
       notify_all(on_put);
       locked = 0;
       atomic {
           notify_one(on_lock);
           p = 0; items--;
           if
           :: items == 0 -> break
           :: else
           fi
       }
       goto next;
no_room:
       unlock();
       wait(taken, t, on_taken);
next:  skip
    od
}

inline consume() {
    items = ITEMS;
    do
    :: lock();
       p = put;
       atomic {
           t = taken;
           if
           :: p == t -> goto no_item
           :: else -> p = 0
           fi
       }
       s = sum;
       t = taken;
       v = slots[t & 1];
       sum = s + v;
       t = taken;
       taken = t + 1;
       notify_all(on_taken);
       atomic {
           t = taken; s = 0; v = 0;
           if
           :: t == 2 * ITEMS -> t = 0
           :: else -> t = 0; goto more
           fi
       }
       done = 1;
       notify_one(on_done);
more:  locked = 0;
       atomic {
           notify_one(on_lock);
           items--;
           if
           :: items == 0 -> break
           :: else
           fi
       }
       goto next;
no_item:
       unlock();
       wait(put, p, on_put);
next:  skip
    od
}

proctype producer() {
    byte items, old, t, p, who;
    produce()
}

proctype consumer() {
    byte items, old, t, p, s, v, who;
    consume()
}

init {
    byte items, old, t, p, who;
    run producer();
    run consumer();
    run consumer();
    produce();
    wait(done, 0, on_done);
    assert(sum == ITEMS * (ITEMS + 1))
}
