/* Opens a plug-in once and makes three calls of one instance, whose memory stays between them. The third is kept by its
 * record and the memory that it began with, and made again over those in another instance.
 *
 *     keep_memory MODULE NAME
 */
#include <inttypes.h>
#include <stdio.h>
#include <stdlib.h>
#include <string.h>

#include "wathread.h"

static uint8_t text[1 << 16], record[1 << 20];

static struct wathread_module module;
static struct wathread_instance instance, other;

static uint32_t open_module(const char *path)
{
    struct wathread_answer answer;
    uint8_t *bytes = malloc((1 << 20) + 1);
    FILE *file = fopen(path, "rb");
    if (!bytes || !file)
        return WATHREAD_FAILED;
    size_t len = fread(bytes, 1, (1 << 20) + 1, file);
    fclose(file);
    uint32_t status = wathread_module_open(bytes, len, &module, text, sizeof text, &answer);
    if (status != WATHREAD_WELL)
        fwrite(text, 1, answer.text, stderr);
    free(bytes);
    return status;
}

int main(int argc, char **argv)
{
    struct wathread_options options = WATHREAD_OPTIONS;
    struct wathread_answer answer;
    if (argc != 3)
        return fprintf(stderr, "keep_memory MODULE NAME\n"), WATHREAD_NO_CALL;
    uint32_t status = open_module(argv[1]);
    if (status == WATHREAD_WELL)
        status = wathread_instance_open(&module, &instance);
    if (status == WATHREAD_WELL)
        status = wathread_instance_open(&module, &other);
    wathread_module_free(&module);
    uint8_t *before = NULL, *behind = NULL;
    size_t before_len = 0;
    for (int call = 1; call <= 3 && status <= WATHREAD_ENDED; call++) {
        if (call == 3) {
            before_len = (size_t)65536 * wathread_instance_pages(&instance);
            before = malloc(before_len + 1), behind = malloc(before_len + 1);
            if (!before || !behind || wathread_instance_read(&instance, 0, before, before_len) != WATHREAD_WELL)
                return WATHREAD_FAILED;
        }
        status = wathread_call(&instance, (const uint8_t *)argv[2], strlen(argv[2]), NULL, 0, &options, record,
                               sizeof record, &answer);
        if (status <= WATHREAD_ENDED)
            printf("call %d: kind %" PRIu32 ", value %" PRIu64 "\n", call, answer.kind, answer.value);
    }
    if (status > WATHREAD_ENDED)
        return (int)status;
    size_t record_len = answer.bytes;
    status = wathread_instance_set(&other, before, before_len);
    if (status == WATHREAD_WELL)
        status = wathread_instance_replay(&other, record, record_len, text, sizeof text, &answer);
    if (status > WATHREAD_ENDED)
        return (int)status;
    int are_alike = wathread_instance_read(&instance, 0, before, before_len) == WATHREAD_WELL &&
                    wathread_instance_read(&other, 0, behind, before_len) == WATHREAD_WELL &&
                    memcmp(before, behind, before_len) == 0;
    printf("made again: %s memory, %s", are_alike ? "the same" : "another", (text[answer.text] = 0, (char *)text));
    wathread_instance_free(&instance);
    wathread_instance_free(&other);
    free(before), free(behind);
    return are_alike ? 0 : 70;
}
