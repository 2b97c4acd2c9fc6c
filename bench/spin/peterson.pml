/* examples/search/peterson.wat: Peterson's lock, two threads, ROUNDS rounds each. A step for each access to the memory, with
 * what the thread makes of it. */
#ifndef ROUNDS
#define ROUNDS 20
#endif
#include "wait.inc"

bool flag[2];
byte turn, number, done;
chan on_done = [1] of { byte };

inline work(me) {
    rounds = ROUNDS;
    do
    :: flag[me] = true;
       turn = 1 - me;
       do
       :: atomic {
              if
              :: !flag[1 - me] -> break
              :: else
              fi
          }
          atomic {
              if
              :: turn != 1 - me -> break
              :: else
              fi
          }
       od;
       n = number;
       number = n + 1;
       atomic {
           flag[me] = false; n = 0; rounds--;
           if
           :: rounds == 0 -> break
           :: else
           fi
       }
    od
}

proctype other() {
    byte rounds, n, who;
    work(1);
    done = 1;
    notify_one(on_done)
}

init {
    byte rounds, n, who;
    run other();
    work(0);
    wait(done, 0, on_done);
    assert(number == 2 * ROUNDS)
}
