/* Of the calls of Linux's kernel the futex alone, by `syscall` of unistd.h. */
#ifndef SYS_SYSCALL_H
#define SYS_SYSCALL_H

#define SYS_futex 202
#define __NR_futex SYS_futex

#endif
