/* EXPECT data_race: a number is read while another thread writes it. */
#include <pthread.h>
#include <stdlib.h>

static char text[8] = "123";

static void *write_text(void *arg) {
    text[2] = '4';
    return arg;
}

int main(void) {
    pthread_t one;
    pthread_create(&one, 0, write_text, 0);
    int found = strtol(text, 0, 10);
    pthread_join(one, 0);
    return found;
}
