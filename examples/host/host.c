/* A host that runs a plug-in a thousand times, each time another run, and says how these ended. The plug-in adds to a
 * counter without a lock, so not every run ends alike.
 *
 *     host MODULE [NAME [RUNS]]
 */
#include <inttypes.h>
#include <stdio.h>
#include <stdlib.h>
#include <string.h>

#include "wathread.h"

enum { MOST_ENDINGS = 16, MOST_RECORD = 1 << 20 };

struct ending {
    uint32_t kind, number;
    uint64_t value;
    int runs;
    uint64_t first;
};

static uint8_t record[MOST_RECORD];

static uint8_t *read_file(const char *path, size_t *len)
{
    FILE *file = fopen(path, "rb");
    uint8_t *bytes = NULL;
    if (file && !fseek(file, 0, SEEK_END)) {
        long size = ftell(file);
        rewind(file);
        bytes = size < 0 ? NULL : malloc((size_t)size + 1);
        if (bytes && fread(bytes, 1, (size_t)size, file) == (size_t)size)
            *len = (size_t)size;
        else
            free(bytes), bytes = NULL;
    }
    if (file)
        fclose(file);
    return bytes;
}

static void print_ending(const struct ending *it)
{
    if (it->kind == WATHREAD_TRAP || it->kind == WATHREAD_STOP)
        printf("%s %" PRIu32, it->kind == WATHREAD_TRAP ? "trap" : "stop", it->number);
    else
        printf("returned %" PRIu64, it->value);
    printf(": %d runs, the first of number %" PRIu64 "\n", it->runs, it->first);
}

int main(int argc, char **argv)
{
    const char *name = argc > 2 ? argv[2] : "main";
    int runs = argc > 3 ? atoi(argv[3]) : 1000, met = 0;
    struct ending endings[MOST_ENDINGS];
    struct wathread_options options = WATHREAD_OPTIONS;
    struct wathread_answer answer;
    uint8_t text[4096];
    size_t len = 0;
    uint8_t *module = argc > 1 ? read_file(argv[1], &len) : NULL;
    if (!module) {
        fprintf(stderr, "host MODULE [NAME [RUNS]]\n");
        return 3;
    }
    if (wathread_check(module, len, text, sizeof text, &answer) != WATHREAD_WELL) {
        fwrite(text, 1, answer.text, stdout);
        return 2;
    }
    for (int n = 1; n <= runs; n++) {
        struct wathread_word none = {0, 0};
        options.run = (uint64_t)n;
        uint32_t status = wathread_run(module, len, (const uint8_t *)name, strlen(name), &none, 0, &options, record,
                                       sizeof record, &answer);
        if (status > WATHREAD_ENDED) {
            fprintf(stderr, "run %d: status %" PRIu32 "\n", n, status);
            return (int)status;
        }
        int at = 0;
        while (at < met && (endings[at].kind != answer.kind || endings[at].number != answer.number ||
                            endings[at].value != answer.value))
            at++;
        if (at == MOST_ENDINGS)
            continue;
        if (at == met)
            endings[met++] = (struct ending){answer.kind, answer.number, answer.value, 0, options.run};
        endings[at].runs++;
    }
    for (int at = 0; at < met; at++)
        print_ending(&endings[at]);
    free(module);
    return 0;
}
