#include <stdint.h>
#include <stdatomic.h>
struct node { int value; struct node *next; };
typedef struct { uint8_t state; struct node item; } slot_t;
union word { uint32_t whole; struct { uint16_t low, high; } half; uint8_t bytes[4]; };
enum color { RED, GREEN = 7 };
struct flags { unsigned ready : 1; unsigned count : 7; unsigned wide : 12; };
struct deep { struct { int x; union { int y; char c[4]; }; } inner; double d; };
struct node nodes[3];
slot_t slots[5];
static struct { struct node *head, *tail; _Atomic unsigned long long size; } queue;
int matrix[2][3];
struct node table[2][4];
union word mixed;
volatile int flag;
_Atomic int counter;
const char *const message = "hi";
enum color shade = GREEN;
struct flags bits;
struct deep deep;
void (*handler)(int);
int (*rows)[3] = matrix;
static char text[10];
struct flex { int n; int more[]; };
struct flex flexible = { 1, {2, 3} };
int bump(void) { static int counter = 4; return ++counter; }
static inline __attribute__((always_inline)) int take(struct node *n, unsigned k) { int old = n->value; n->value = old + (int)k; return old; }
static inline __attribute__((always_inline)) int twice(struct node *n) { return take(n, 3) + take(n->next, 5); }
__attribute__((noinline)) int work(struct node *n, unsigned long long big, short small) {
  int local = 5; 
  { unsigned inner = (unsigned)big; local += inner; text[inner & 7] = 1; }
  for (int i = 0; i < small; i++) { int square = i * i; local += square; nodes[i % 3].value = square; }
  return local + twice(n);
}
int main(void) {
  struct node here[2] = {{1, 0}, {2, 0}};
  here[0].next = &here[1];
  queue.head = &here[0]; queue.size++; slots[3].item.value = 4; matrix[1][2] = 3; table[1][2].next = here; mixed.half.high = 3;
  flag = 1; counter++; bits.count = 3; deep.inner.y = 4; handler = 0; flexible.more[1] = 9;
  return work(here, 7, 3) + bump() + (int)queue.size + rows[0][1] + message[0] + (int)shade;
}
