/* Prints what the header says of sizes, offsets and numbers. */
#include <stdio.h>

#include "wathread.h"

#define SIZE(type) printf(#type " %zu\n", sizeof(struct type))
#define FIELD(type, field) printf(#type "." #field " %zu\n", offsetof(struct type, field))
#define NUMBER(name) printf(#name " %d\n", (int)name)

int main(void)
{
    const struct wathread_options plain = WATHREAD_OPTIONS;
    SIZE(wathread_answer);
    FIELD(wathread_answer, text);
    FIELD(wathread_answer, bytes);
    FIELD(wathread_answer, units);
    FIELD(wathread_answer, value);
    FIELD(wathread_answer, kind);
    FIELD(wathread_answer, number);
    SIZE(wathread_word);
    FIELD(wathread_word, bits);
    FIELD(wathread_word, is_wide);
    SIZE(wathread_options);
    FIELD(wathread_options, seed);
    FIELD(wathread_options, run);
    FIELD(wathread_options, fuel);
    FIELD(wathread_options, limit);
    FIELD(wathread_options, strategy);
    FIELD(wathread_options, depth);
    FIELD(wathread_options, states);
    FIELD(wathread_options, dump);
    SIZE(wathread_module);
    FIELD(wathread_module, at);
    FIELD(wathread_module, is_open);
    SIZE(wathread_instance);
    FIELD(wathread_instance, at);
    FIELD(wathread_instance, is_open);
    NUMBER(WATHREAD_WELL);
    NUMBER(WATHREAD_ENDED);
    NUMBER(WATHREAD_NO_MODULE);
    NUMBER(WATHREAD_NO_CALL);
    NUMBER(WATHREAD_NO_RECORD);
    NUMBER(WATHREAD_FAILED);
    NUMBER(WATHREAD_NONE);
    NUMBER(WATHREAD_VOID);
    NUMBER(WATHREAD_I32);
    NUMBER(WATHREAD_I64);
    NUMBER(WATHREAD_TRAP);
    NUMBER(WATHREAD_STOP);
    NUMBER(WATHREAD_MIX);
    NUMBER(WATHREAD_RANDOM);
    NUMBER(WATHREAD_PRIORITIES);
    NUMBER(WATHREAD_SPIN);
    printf("plain %llu %llu %llu %u %u %u %u %u\n", (unsigned long long)plain.seed, (unsigned long long)plain.run,
           (unsigned long long)plain.fuel, (unsigned)plain.limit, (unsigned)plain.strategy, (unsigned)plain.depth,
           (unsigned)plain.states, (unsigned)plain.dump);
    return 0;
}
