/* What is printed, by three threads: calls in pieces, lines of several calls, of each length, empty ones, a line that isn't
   ended, and an assert that fails with -DBUG. The counter makes each thread wait for its turn, so there is one order of the
   lines. */
#include <assert.h>
#include <pthread.h>
#include <stdio.h>
#include <wathread.h>

static _Atomic int turn;

static void wait_for(int mine) {
    int now;
    while ((now = turn) != mine)
        wait_while(&turn, now);
}

static void give(int next) {
    turn = next;
    notify_all(&turn);
}

static void *worker(void *arg) {
    int n = *(int *)arg;
    wait_for(n);
    printf("worker %d of %s\n", n, "two, which is more than eight letters");
    give(n + 1);
    wait_for(n + 2);
    puts("");
    printf("no line feed from %d", n);
    give(n + 3);
    return 0;
}

int main(void) {
    pthread_t threads[2];
    int numbers[2] = {1, 2};
    puts("two lines\nof one call");
    for (int i = 0; i < 2; i++)
        pthread_create(&threads[i], 0, worker, &numbers[i]);
    give(1);
    for (int i = 0; i < 2; i++)
        pthread_join(threads[i], 0);
    fputs("", stdout);
    putchar('\n');
    for (int n = 1; n <= 17; n++) {
        printf("%.*s", n, "abcdefghijklmnopq");
        if (n % 8 < 2)
            printf("%s|%d\n", n % 8 ? "" : "the eighth", n);
    }
    printf("open");
#ifdef BUG
    assert(turn == 7);
#endif
    return 0;
}
