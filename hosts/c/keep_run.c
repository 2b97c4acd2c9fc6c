/* Checks a plug-in, makes 20 runs of it, keeps the record of the first that ends otherwise than run 1, and replays it.
 * Then eight threads make these runs at once, 1,000 each, and each run has to end as it did before.
 *
 *     keep_run MODULE [CALLS]
 */
#include <inttypes.h>
#include <pthread.h>
#include <stdio.h>
#include <stdlib.h>
#include <string.h>

#include "wathread.h"

enum { SEED = 4, RUNS = 20, THREADS = 8 };
enum { MOST_MODULE = (1 << 20) + 1, MOST_RECORD = 1 << 20, MOST_TEXT = 1 << 16 };

static uint8_t module[MOST_MODULE];
static size_t module_len;
static int calls = 1000;
static struct wathread_answer ends[RUNS + 1];

static uint32_t run(uint64_t number, uint8_t *record, size_t record_len, struct wathread_answer *end)
{
    struct wathread_options options = WATHREAD_OPTIONS;
    struct wathread_word none = {0, 0};
    options.seed = SEED;
    options.run = number;
    return wathread_run(module, module_len, (const uint8_t *)"main", 4, &none, 0, &options, record, record_len, end);
}

static int are_alike(const struct wathread_answer *one, const struct wathread_answer *other)
{
    return one->kind == other->kind && one->number == other->number && one->value == other->value;
}

static const char *words(const struct wathread_answer *end)
{
    static char text[64];
    if (end->kind == WATHREAD_TRAP || end->kind == WATHREAD_STOP)
        snprintf(text, sizeof text, "%s %" PRIu32, end->kind == WATHREAD_TRAP ? "trap" : "stop", end->number);
    else if (end->kind == WATHREAD_VOID)
        return "ok";
    else
        snprintf(text, sizeof text, "ok %s:%" PRIu64, end->kind == WATHREAD_I32 ? "i32" : "i64", end->value);
    return text;
}

/* Makes the runs again, and counts those that end as before. */
static void *make_runs(void *alike)
{
    uint8_t nothing[1];
    for (int n = 0; n < calls; n++) {
        struct wathread_answer end;
        uint64_t number = (uint64_t)(n % RUNS + 1);
        if (run(number, nothing, 0, &end) <= WATHREAD_ENDED && are_alike(&end, &ends[number]))
            ++*(int *)alike;
    }
    return NULL;
}

static int make_at_once(void)
{
    pthread_t threads[THREADS];
    int alike[THREADS] = {0}, sum = 0;
    for (int n = 0; n < THREADS; n++)
        if (pthread_create(&threads[n], NULL, make_runs, &alike[n]))
            exit((fprintf(stderr, "a thread couldn't be started\n"), 5));
    for (int n = 0; n < THREADS; n++) {
        pthread_join(threads[n], NULL);
        sum += alike[n];
    }
    return sum;
}

/* The outcome of thread 0 in an object of JSON, as `{"ok":{"i32":1}}`. */
static const char *outcome(char *object)
{
    char *from = strstr(object, "\"outcome\":"), *to = from ? strstr(from, ",\"units\"") : NULL;
    if (!to)
        return "nothing";
    *to = 0;
    return from + strlen("\"outcome\":");
}

int main(int argc, char **argv)
{
    static uint8_t record[MOST_RECORD], text[MOST_TEXT + 1], nothing[1];
    struct wathread_answer answer;
    FILE *file = argc > 1 ? fopen(argv[1], "rb") : NULL;
    if (!file)
        return fprintf(stderr, "keep_run MODULE [CALLS]\n"), 3;
    calls = argc > 2 ? atoi(argv[2]) : calls;
    module_len = fread(module, 1, sizeof module, file);
    fclose(file);
    uint32_t status = wathread_check(module, module_len, text, MOST_TEXT, &answer);
    printf("check: %.*s\n", (int)answer.text - 1, (char *)text);
    if (status != WATHREAD_WELL)
        return (int)status;
    int kept = 0;
    size_t record_len = 0;
    for (int n = 1; n <= RUNS; n++) {
        status = run((uint64_t)n, record, kept ? 0 : sizeof record, &ends[n]);
        if (status > WATHREAD_ENDED)
            return fprintf(stderr, "run %d: status %" PRIu32 "\n", n, status), (int)status;
        if (!kept && !are_alike(&ends[n], &ends[1]))
            kept = n, record_len = ends[n].bytes;
    }
    printf("run 1: %s\n", words(&ends[1]));
    if (!kept)
        return printf("%d runs end alike\n", RUNS), 1;
    printf("run %d: %s, a record of %zu bytes\n", kept, words(&ends[kept]), record_len);
    status = wathread_replay(module, module_len, record, record_len, nothing, 0, text, MOST_TEXT, &answer);
    if (status > WATHREAD_ENDED || answer.text > MOST_TEXT)
        return fprintf(stderr, "replay: status %" PRIu32 "\n", status), (int)status;
    text[answer.text] = 0;
    printf("replay: %s\n", outcome((char *)text));
    int alike = make_at_once();
    printf("%d threads: %d of %d runs ended as before\n", THREADS, alike, THREADS * calls);
    return alike == THREADS * calls ? 0 : 1;
}
