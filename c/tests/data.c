/* Data as C has it: constants, strings, structs that are copied, function pointers, varargs, and thread-local data with
   first values, which no thread sees of another. */
#include <assert.h>
#include <pthread.h>
#include <stdarg.h>
#include <string.h>

struct large {
    int numbers[40];
    char letter;
};

static const char *const names[] = {"zero", "one", "two"};
static const struct large constant = {{1, 2, 3}, 'x'};
_Thread_local int local = 7;
static _Thread_local char text[6] = "hello";
_Thread_local long long wide;

static int twice(int x) { return 2 * x; }
static int thrice(int x) { return 3 * x; }
int (*volatile times[])(int) = {twice, thrice};

static int sum_of(int count, ...) {
    va_list list;
    int sum = 0;
    va_start(list, count);
    while (count--)
        sum += va_arg(list, int);
    va_end(list);
    return sum;
}

static void *thread(void *arg) {
    int n = (int)arg;
    volatile char deep[200];
    memset((char *)deep, n, sizeof deep);
    assert(local == 7 && wide == 0 && !strcmp(text, "hello"));
    local += n;
    wide = n;
    text[0] = '0' + n;
    struct large copy = constant;
    copy.numbers[n] += times[n & 1](5);
    assert(deep[199] == n && local == 7 + n && wide == n && text[0] == '0' + n);
    return (void *)copy.numbers[n];
}

int main(void) {
    pthread_t threads[2];
    int results[2];
    local = 100;
    for (int i = 0; i < 2; i++)
        pthread_create(&threads[i], 0, thread, (void *)(i + 1));
    for (int i = 0; i < 2; i++) {
        void *result;
        pthread_join(threads[i], &result);
        results[i] = (int)result;
    }
    assert(local == 100 && strlen(names[2]) == 3 && constant.letter == 'x');
    return sum_of(3, results[0], results[1], !pthread_self());
}
