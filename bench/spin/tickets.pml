/* examples/search/tickets.wat: a ticket lock that spins, THREADS threads, ROUNDS rounds each. A step for each access to
 * the memory, with what the thread makes of it. */
#ifndef THREADS
#define THREADS 3
#endif
#ifndef ROUNDS
#define ROUNDS 4
#endif
#include "wait.inc"

byte drawn, served, number, done;
chan on_done = [4] of { byte };

inline work() {
    rounds = ROUNDS;
    do
    :: d_step { ticket = drawn; drawn++ }
       do
       :: atomic {
              s = served;
              if
              :: s == ticket -> s = 0; break
              :: else -> s = 0
              fi
          }
       od;
       n = number;
       number = n + 1;
       atomic {
           served++; n = 0; ticket = 0; rounds--;
           if
           :: rounds == 0 -> break
           :: else
           fi
       }
    od
}

proctype worker() {
    byte rounds, ticket, s, n, who;
    work();
    done++;
    notify_one(on_done)
}

init {
    byte rounds, ticket, s, n, d, who;
    for (n : 2 .. THREADS) {
        run worker()
    }
    work();
    do
    :: atomic {
           d = done;
           if
           :: d + 1 < THREADS
           :: else -> break
           fi
       }
       wait(done, d, on_done)
    od
    assert(number == THREADS * ROUNDS)
}
