/* EXPECT data_race: a string is looked through while another thread writes it. */
#include <pthread.h>
#include <string.h>

static char text[8] = "a,b";

static void *write_text(void *arg) {
    text[2] = 'c';
    return arg;
}

int main(void) {
    pthread_t one;
    pthread_create(&one, 0, write_text, 0);
    int found = strchr(text, 'x') != 0;
    pthread_join(one, 0);
    return found;
}
