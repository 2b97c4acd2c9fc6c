/* EXPECT data_race: numbers are sorted while another thread reads one of them. */
#include <pthread.h>
#include <stdlib.h>

static int numbers[4] = {4, 3, 2, 1}, seen;

static int by_value(const void *a, const void *b) { return *(const int *)a - *(const int *)b; }

static void *read_one(void *arg) {
    seen = numbers[1];
    return arg;
}

int main(void) {
    pthread_t one;
    pthread_create(&one, 0, read_one, 0);
    qsort(numbers, 4, sizeof *numbers, by_value);
    pthread_join(one, 0);
    return 0;
}
