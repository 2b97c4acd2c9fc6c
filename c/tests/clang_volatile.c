/* Volatile variables of each width, by which a thread says that the others are there. */
#include <assert.h>
#include <stdbool.h>
#include <wathread.h>

struct both { volatile short low; volatile bool high; };
static volatile signed char byte;
static volatile long long wide;
static int *volatile pointer;
static struct both both;
static volatile int words[2];
static int x;

static void writer(int n) {
    x = n;
    byte = -1;
    while (!wide) {}
    x++;
    both.low = 7;
    while (!both.high) {}
    x++;
    pointer = &x;
    while (!words[1]) {}
    x++;
}

static void reader(int n) {
    while (byte != -1) {}
    assert(x == n);
    wide = 1ll << 40;
    while (both.low != 7) {}
    x++;
    both.high = 1;
    while (!pointer) {}
    ++*pointer;
    words[1] = 1;
}

int main(void) {
    int a = thread_spawn(writer, 3), b = thread_spawn(reader, 3);
    thread_join(a);
    thread_join(b);
    assert(x == 8);
    return x;
}
