/* examples/search/mutex.wat: a mutex that sleeps, THREADS threads, ROUNDS rounds each. A step for each access to the
 * memory, with what the thread makes of it. */
#ifndef THREADS
#define THREADS 3
#endif
#ifndef ROUNDS
#define ROUNDS 3
#endif
#include "wait.inc"

byte word, number, done;
chan on_word = [4] of { byte };
chan on_done = [4] of { byte };

inline work() {
    rounds = ROUNDS;
    do
    :: atomic {
           old = word;
           if
           :: old == 0 -> word = 1; goto held
           :: else -> old = 0
           fi
       }
       do
       :: atomic {
              old = word; word = 2;
              if
              :: old == 0 -> break
              :: else -> old = 0
              fi
          }
          wait(word, 2, on_word)
       od;
held:  n = number;
       number = n + 1;
       atomic {
           old = word; word = 0; n = 0;
           if
           :: old == 2 -> old = 0
           :: else -> old = 0; goto done_so
           fi
       }
       notify_one(on_word);
done_so:
       atomic {
           rounds--;
           if
           :: rounds == 0 -> break
           :: else
           fi
       }
    od
}

proctype worker() {
    byte rounds, old, n, who;
    work();
    done++;
    notify_one(on_done)
}

init {
    byte rounds, old, n, d, who;
    for (n : 2 .. THREADS) {
        run worker()
    }
    work();
    do
    :: atomic {
           d = done;
           if
           :: d + 1 < THREADS
           :: else -> break
           fi
       }
       wait(done, d, on_done)
    od
    assert(number == THREADS * ROUNDS)
}
