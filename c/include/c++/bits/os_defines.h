/* In place of what libstdc++ has for the machine that it was made for: threads are always there, and main's number, which is
   0, isn't that of no thread. */
#ifndef _GLIBCXX_OS_DEFINES
#define _GLIBCXX_OS_DEFINES 1

#define _GLIBCXX_NO_OBSOLETE_ISINF_ISNAN_DYNAMIC 1
#define _GLIBCXX_GTHREAD_USE_WEAK 0
#define _GLIBCXX_NATIVE_THREAD_ID (pthread_self() ? pthread_self() : 64)

#endif
