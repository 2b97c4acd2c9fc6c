/* Each call with modules, names, arguments, records and buffers of all kinds. Prints what was wrong, and how many there
 * were.
 *
 *     tests FOLDER    examples/ of this repository
 */
#include <inttypes.h>
#include <stdio.h>
#include <stdlib.h>
#include <string.h>

#include "wathread.h"

static int wrong, tried;
static uint8_t record[1 << 20], other[1 << 20], text[1 << 20], memory[1 << 24];

#define WANT(what) \
    do { \
        tried++; \
        if (!(what)) \
            wrong++, printf("line %d: %s isn't so\n", __LINE__, #what); \
    } while (0)

struct file {
    uint8_t *bytes;
    size_t len;
};

static struct file read_file(const char *folder, const char *name)
{
    char path[4096];
    snprintf(path, sizeof path, "%s/%s", folder, name);
    FILE *file = fopen(path, "rb");
    struct file it = {malloc(1 << 20), 0};
    if (!file || !it.bytes)
        exit((fprintf(stderr, "%s isn't there\n", path), 70));
    it.len = fread(it.bytes, 1, 1 << 20, file);
    fclose(file);
    return it;
}

static const struct wathread_options plain = WATHREAD_OPTIONS;
static struct wathread_answer answer;

static uint32_t run(struct file m, const char *name, const struct wathread_word *args, size_t count,
                    const struct wathread_options *options, size_t room)
{
    return wathread_run(m.bytes, m.len, (const uint8_t *)name, strlen(name), args, count, options, record, room, &answer);
}

static uint32_t check(struct file m, size_t room)
{
    return wathread_check(m.bytes, m.len, text, room, &answer);
}

static uint32_t replay(struct file m, size_t len, size_t room, size_t text_room)
{
    return wathread_replay(m.bytes, m.len, record, len, memory, room, text, text_room, &answer);
}

static uint32_t search(struct file m, const char *name, const struct wathread_options *options, size_t room)
{
    struct wathread_word none = {0, 0};
    return wathread_search(m.bytes, m.len, (const uint8_t *)name, strlen(name), &none, 0, options, text, room, &answer);
}

static int says(const char *words)
{
    text[answer.text] = 0;
    return strstr((const char *)text, words) != NULL;
}

static struct wathread_module module;
static struct wathread_instance first, second;

static uint32_t open_module(struct file m, size_t room)
{
    return wathread_module_open(m.bytes, m.len, &module, text, room, &answer);
}

static uint32_t call(struct wathread_instance *it, const char *name, const struct wathread_options *options, size_t room)
{
    return wathread_call(it, (const uint8_t *)name, strlen(name), NULL, 0, options, record, room, &answer);
}

static uint32_t replay_over(struct wathread_instance *it, size_t len, size_t room)
{
    return wathread_instance_replay(it, record, len, text, room, &answer);
}

static uint32_t search_over(struct wathread_instance *it, const char *name, size_t room)
{
    return wathread_instance_search(it, (const uint8_t *)name, strlen(name), NULL, 0, &plain, text, room, &answer);
}

static int first_byte(struct wathread_instance *it)
{
    uint8_t byte = 0xff;
    return wathread_instance_read(it, 0, &byte, 1) == 0 ? byte : -1;
}

static void try_closed(void)
{
    WANT(wathread_instance_open(&module, &first) == 3 && !first.is_open);
    struct wathread_module shared = WATHREAD_CLOSED;
    WANT(wathread_module_share(&module, &shared) == 3 && !shared.is_open);
    WANT(wathread_instance_pages(&first) == 0 && wathread_instance_read(&first, 0, NULL, 0) == 3);
    WANT(wathread_instance_write(&first, 0, NULL, 0) == 3 && wathread_instance_set(&first, NULL, 0) == 3);
    WANT(call(&first, "f", &plain, 0) == 3 && answer.kind == WATHREAD_NONE && answer.bytes == 0);
    WANT(replay_over(&first, 0, sizeof text) == 3 && search_over(&first, "f", sizeof text) == 3 && answer.text == 0);
    wathread_instance_free(&first);
    wathread_module_free(&module);
}

static void try_memory(struct wathread_instance *it)
{
    uint8_t two[2] = {'x', 'x'};
    WANT(wathread_instance_pages(it) == 1);
    WANT(wathread_instance_read(it, 65535, two, 2) == 3 && two[0] == 'x' && two[1] == 'x');
    WANT(wathread_instance_read(it, UINT32_MAX, two, 2) == 3 && wathread_instance_read(it, 0, two, 0) == 0);
    WANT(wathread_instance_read(it, 65536, NULL, 0) == 0 && wathread_instance_read(it, 65537, NULL, 0) == 3);
    two[0] = 1, two[1] = 2;
    WANT(wathread_instance_write(it, 65535, two, 2) == 3 && wathread_instance_write(it, 65534, two, 2) == 0);
    two[0] = two[1] = 0;
    WANT(wathread_instance_read(it, 65534, two, 2) == 0 && two[0] == 1 && two[1] == 2);
    WANT(wathread_instance_write(it, UINT32_MAX, two, 1) == 3 && wathread_instance_write(it, 0, NULL, 0) == 0);
    WANT(wathread_instance_set(it, memory, 65535) == 3 && wathread_instance_set(it, NULL, 0) == 3);
    WANT(wathread_instance_set(it, memory, 1 << 24) == 3 && wathread_instance_pages(it) == 1);
}

static void try_instances(struct file add, struct file lock)
{
    try_closed();
    struct file cut = {add.bytes, 5};
    WANT(open_module(cut, sizeof text) == 2 && !module.is_open && says("\"stage\":\"read\""));
    WANT(open_module(add, 0) == 0 && module.is_open && answer.text > 0);
    WANT(open_module(add, sizeof text) == 0 && says("{\"status\":0,\"functions\":1}"));
    WANT(wathread_instance_open(&module, &first) == 0 && wathread_instance_open(&module, &first) == 0);
    struct wathread_module shared = WATHREAD_CLOSED;
    WANT(wathread_module_share(&module, &shared) == 0 && shared.is_open);
    wathread_module_free(&module);
    WANT(wathread_instance_open(&shared, &second) == 0);
    wathread_module_free(&shared);
    WANT(!module.is_open && !shared.is_open);

    WANT(call(&first, "f", &plain, 0) == 0 && answer.value == 0 && first_byte(&first) == 5);
    size_t len = answer.bytes;
    WANT(call(&first, "f", &plain, 1) == 0 && answer.value == 5 && answer.bytes == len && first_byte(&first) == 5);
    WANT(call(&first, "f", &plain, len - 1) == 0 && answer.value == 5 && first_byte(&first) == 5);
    WANT(wathread_instance_read(&first, 0, memory, 65536) == 0);
    WANT(call(&first, "f", &plain, len) == 0 && answer.value == 5 && first_byte(&first) == 10);

    WANT(replay_over(&second, len, sizeof text) == 4 && says("\"stage\":\"replay\"") && first_byte(&second) == 0);
    WANT(replay_over(&second, len - 1, sizeof text) == 4 && says("\"stage\":\"record\"") && first_byte(&second) == 0);
    WANT(wathread_instance_set(&second, memory, 65536) == 0 && first_byte(&second) == 5);
    WANT(replay_over(&second, len, 1) == 0 && answer.text > 1 && first_byte(&second) == 5);
    WANT(replay_over(&second, len, sizeof text) == 0 && says("{\"ok\":{\"i32\":5}}") && first_byte(&second) == 10);
    WANT(replay_over(&second, len, sizeof text) == 4 && first_byte(&second) == 10);
    WANT(wathread_instance_set(&second, memory, 65536) == 0 && replay_over(&second, len, 0) == 0);
    WANT(first_byte(&second) == 10);

    WANT(search_over(&first, "f", sizeof text) == 0 && says("\"verdict\":\"all\"") && says("{\"ok\":{\"i32\":10}}"));
    WANT(search_over(&first, "\xff", sizeof text) == 3 && says("unknown export") && first_byte(&first) == 10);
    WANT(call(&first, "g", &plain, sizeof record) == 3 && call(&first, "\xff\xfe", &plain, sizeof record) == 3);
    struct wathread_options o = plain;
    o.limit = 0;
    WANT(call(&first, "f", &o, sizeof record) == 3 && first_byte(&first) == 10);
    o = plain, o.fuel = 2;
    WANT(call(&first, "f", &o, sizeof record) == 1 && answer.kind == WATHREAD_STOP && first_byte(&first) == 10);
    try_memory(&second);
    wathread_instance_free(&first);
    wathread_instance_free(&first);
    wathread_instance_free(&second);

    WANT(open_module(lock, sizeof text) == 0 && wathread_instance_open(&module, &first) == 0);
    for (o = plain; o.run <= 40; o.run++) {
        WANT(wathread_instance_open(&module, &first) == 0);
        uint32_t status = run(lock, "main", NULL, 0, &o, sizeof record);
        struct wathread_answer alone = answer;
        memcpy(other, record, alone.bytes);
        WANT(call(&first, "main", &o, sizeof record) == status && answer.value == alone.value);
        WANT(answer.bytes == alone.bytes && !memcmp(other, record, alone.bytes));
        WANT(call(&first, "main", &o, 0) <= 1);
    }
    wathread_module_free(&module);
    wathread_instance_free(&first);
}

int main(int argc, char **argv)
{
    const char *at = argc > 1 ? argv[1] : "examples";
    struct file add = read_file(at, "atomic_add.wasm"), lock = read_file(at, "c/broken_lock.wasm");
    struct file fac = read_file(at, "fac.wasm"), peterson = read_file(at, "search/peterson.wasm");
    struct wathread_word none = {0, 0}, five = {5, 1}, narrow = {5, 0};

    WANT(check(add, sizeof text) == 0 && says("{\"status\":0,\"functions\":1}"));
    size_t wanted = answer.text;
    memset(text, 'x', 100);
    WANT(check(add, 0) == 0 && answer.text == wanted && text[0] == 'x');
    WANT(check(add, wanted - 1) == 0 && answer.text == wanted && text[0] == 'x');
    WANT(check(add, wanted) == 0 && text[0] == '{' && text[wanted] == 'x');
    struct file empty = {add.bytes, 0};
    WANT(check(empty, sizeof text) == 2 && says("\"stage\":\"read\""));
    for (size_t len = 0; len < add.len; len++) {
        struct file cut = {add.bytes, len};
        /* What stands before a section is a module too, without a function. */
        uint32_t status = check(cut, sizeof text), refused = status == 0 ? 3 : 2;
        WANT(status == 2 || says("\"functions\":0"));
        WANT(run(cut, "f", &none, 0, &plain, sizeof record) == refused);
        WANT(search(cut, "f", &plain, sizeof text) == refused && says("\"refused\""));
    }

    WANT(run(add, "f", &none, 0, &plain, sizeof record) == 0 && answer.kind == WATHREAD_I32 && answer.value == 0);
    size_t len = answer.bytes;
    WANT(len > 0 && record[len - 1] == '\n');
    memset(other, 'x', 100);
    WANT(replay(add, len, sizeof memory, sizeof text) == 0 && answer.bytes == 65536 && memory[0] == 5 && memory[1] == 0);
    WANT(says("\"threads\":[{\"thread\":0,\"outcome\":{\"ok\":{\"i32\":0}}"));
    memory[0] = 'x';
    WANT(replay(add, len, 65535, sizeof text) == 0 && answer.bytes == 65536 && memory[0] == 'x');
    WANT(replay(lock, len, 0, sizeof text) == 4 && says("\"stage\":\"replay\""));
    WANT(replay(add, len - 1, 0, sizeof text) == 4 && says("\"stage\":\"record\"") && answer.bytes == 0);
    /* Another budget or limit makes another record of a run; all else makes none. */
    int runs = 0;
    for (size_t n = 0; n < len; n++) {
        record[n] ^= 1;
        uint32_t status = replay(add, len, 0, sizeof text);
        WANT(status == 4 || status == 0);
        runs += status == 0;
        record[n] ^= 1;
    }
    WANT(runs <= 16 && replay(add, len, 0, sizeof text) == 0);
    WANT(run(add, "f", &none, 0, &plain, len - 1) == 0 && answer.bytes == len);

    WANT(run(add, "g", &none, 0, &plain, sizeof record) == 3 && answer.bytes == 0 && answer.kind == WATHREAD_NONE);
    WANT(run(add, "\xff\xfe", &none, 0, &plain, sizeof record) == 3);
    WANT(run(add, "f", &five, 1, &plain, sizeof record) == 3);
    WANT(run(fac, "fac", &narrow, 1, &plain, sizeof record) == 3 || run(fac, "fac", &five, 1, &plain, sizeof record) == 3);
    WANT(run(fac, "fac", &narrow, 1, &plain, sizeof record) == 0 || run(fac, "fac", &five, 1, &plain, sizeof record) == 0);
    WANT(answer.value == 120);
    struct wathread_options o = plain;
    o.limit = 0;
    WANT(run(add, "f", &none, 0, &o, sizeof record) == 3);
    o = plain, o.fuel = 1000000000001;
    WANT(run(add, "f", &none, 0, &o, sizeof record) == 3);
    o = plain, o.fuel = 2;
    WANT(run(add, "f", &none, 0, &o, sizeof record) == 1 && answer.kind == WATHREAD_STOP && answer.number == 1 &&
         answer.units == 2);

    int met[3] = {0, 0, 0};
    for (o = plain; o.run <= 400; o.run++) {
        WANT(run(lock, "main", &none, 0, &o, sizeof record) == 0 && answer.value <= 2);
        met[answer.value]++;
        if (o.run % 40 == 0) {
            size_t first = answer.bytes;
            memcpy(other, record, first);
            WANT(run(lock, "main", &none, 0, &o, sizeof record) == 0 && answer.bytes == first &&
                 !memcmp(other, record, first));
            WANT(replay(lock, first, 0, sizeof text) == 0);
        }
    }
    WANT(met[1] > 0 && met[2] > 0);
    o = plain, o.run = 169, o.seed = 2;
    WANT(run(lock, "main", &none, 0, &o, sizeof record) == 0);
    for (o = plain, o.strategy = 0; o.strategy < 6; o.strategy++)
        for (o.depth = 0; o.depth < 40; o.depth += 13)
            WANT(run(lock, "main", &none, 0, &o, sizeof record) == 0);

    WANT(search(peterson, "f", &plain, sizeof text) == 3 && says("wrong arguments"));
    WANT(search(peterson, "\xff\xfe", &plain, sizeof text) == 3 && says("unknown export"));
    struct wathread_word one = {1, 0};
    WANT(wathread_search(peterson.bytes, peterson.len, (const uint8_t *)"f", 1, &one, 1, &plain, text, sizeof text,
                         &answer) == 0 && says("\"verdict\":\"all\"") && says("\"states\":115"));
    o = plain, o.states = 10;
    WANT(wathread_search(peterson.bytes, peterson.len, (const uint8_t *)"f", 1, &one, 1, &o, text, sizeof text,
                         &answer) == 1 && !says("\"verdict\":\"all\""));
    WANT(wathread_check(NULL, 0, NULL, 0, &answer) == 2 && answer.text > 0);
    WANT(wathread_run(add.bytes, add.len, NULL, 0, NULL, 0, &plain, NULL, 0, &answer) == 3);
    WANT(wathread_replay(add.bytes, add.len, NULL, 0, NULL, 0, NULL, 0, &answer) == 4);
    try_instances(add, lock);
    printf("%d tried, %d wrong\n", tried, wrong);
    return wrong != 0;
}
