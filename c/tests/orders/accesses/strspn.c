/* EXPECT data_race: the letters of a string are compared with a set while another thread writes it. */
#include <pthread.h>
#include <string.h>

static char text[8] = "a,b";

static void *write_text(void *arg) {
    text[2] = 'c';
    return arg;
}

int main(void) {
    pthread_t one;
    pthread_create(&one, 0, write_text, 0);
    int found = strspn(text, "abc,");
    pthread_join(one, 0);
    return found;
}
