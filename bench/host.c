/* host.c MODULE NAME RUNS: that many runs of a function without arguments through the library, and how many a second. */
#include <stdio.h>
#include <stdlib.h>
#include <string.h>
#include <time.h>

#include "wathread.h"

static uint8_t module[1 << 20], record[1 << 20];

static double now(void)
{
    struct timespec it;
    clock_gettime(CLOCK_MONOTONIC, &it);
    return (double)it.tv_sec + (double)it.tv_nsec / 1e9;
}

int main(int argc, char **argv)
{
    FILE *file = argc == 4 ? fopen(argv[1], "rb") : NULL;
    if (!file)
        return fprintf(stderr, "host MODULE NAME RUNS\n"), 3;
    size_t len = fread(module, 1, sizeof module, file);
    struct wathread_options options = WATHREAD_OPTIONS;
    struct wathread_answer answer;
    struct wathread_word none = {0, 0};
    int runs = atoi(argv[3]);
    double start = now();
    for (int n = 1; n <= runs; n++) {
        options.run = (uint64_t)n;
        uint32_t status = wathread_run(module, len, (const uint8_t *)argv[2], strlen(argv[2]), &none, 0, &options, record,
                                       sizeof record, &answer);
        if (status > WATHREAD_ENDED)
            return fprintf(stderr, "run %d: status %u\n", n, (unsigned)status), (int)status;
    }
    printf("%.0f\n", runs / (now() - start));
    return 0;
}
