/* What threads.c tells choices.c: where the program asks for nothing, nothing. wathread-cc makes the library with NONDET where
   it finds in what it linked that the program asks (start.s). With --orders c11 the runtime chooses (choices_orders.c). */

#if defined(NONDET) && !defined(ORDERS)
static void call_begins(int main);  /* of `main`, or of another function (calls.c) */
static void asks_no_more(void);     /* the end of a thread, or of main */
static int spawn(int place);        /* in place of thread-spawn; the thread's number, or -1 */
static void forget_choices(void);   /* of a call before */
#define BEGIN_AT __wathread_begin_at
#else
#define call_begins orders_begins_call
#define asks_no_more() ((void)0)
#define forget_choices() ((void)0)
#define spawn(place) spawn_at(place)
#define BEGIN_AT __wathread_begin
#endif
