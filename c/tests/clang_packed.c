/* A volatile access that no atomic one can be. */
struct __attribute__((packed)) packed { char c; volatile int i; };
static struct packed packed;
int main(void) { return packed.i; }
