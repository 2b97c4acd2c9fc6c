/* Printing, without output: what a thread prints stays with it, as stores to a word that nobody else touches, and is gone
   at the end of the line. So it makes neither order nor states. All of it goes to the same place. There are no floats, no
   files and no input. */
#ifndef STDIO_H
#define STDIO_H
#include <stdarg.h>
#include <stddef.h>
#include <sys/types.h>
WATHREAD_BEGIN

/* What is printed: each store is up to eight letters, the first one in the lowest byte, with zeros behind the last. */
extern volatile _Thread_local uint64_t wathread_text;

typedef struct wathread_file FILE;
typedef off_t fpos_t;
#define stdout ((FILE *)1)
#define stderr ((FILE *)2)
#define EOF (-1)
#define BUFSIZ 256
#define SEEK_SET 0
#define SEEK_CUR 1
#define SEEK_END 2
#define _IOFBF 0
#define _IOLBF 1
#define _IONBF 2

/* d i u o x X c s p and %, with flags, width, precision and hh h l ll j z t; all others trap, in printf_has_no_floats, or in
   printf_has_no_such_type. */
#define WATHREAD_PRINTS(text, first) __attribute__((format(printf, text, first)))
int printf(const char *__restrict text, ...) WATHREAD_PRINTS(1, 2);
int fprintf(FILE *__restrict file, const char *__restrict text, ...) WATHREAD_PRINTS(2, 3);
int dprintf(int file, const char *__restrict text, ...) WATHREAD_PRINTS(2, 3);
int sprintf(char *__restrict to, const char *__restrict text, ...) WATHREAD_PRINTS(2, 3);
int snprintf(char *__restrict to, size_t n, const char *__restrict text, ...) WATHREAD_PRINTS(3, 4);
int vprintf(const char *__restrict text, va_list list) WATHREAD_PRINTS(1, 0);
int vfprintf(FILE *__restrict file, const char *__restrict text, va_list list) WATHREAD_PRINTS(2, 0);
int vsprintf(char *__restrict to, const char *__restrict text, va_list list) WATHREAD_PRINTS(2, 0);
int vsnprintf(char *__restrict to, size_t n, const char *__restrict text, va_list list) WATHREAD_PRINTS(3, 0);
#undef WATHREAD_PRINTS
int puts(const char *text);
int fputs(const char *__restrict text, FILE *__restrict file);
int putchar(int c);
int putc(int c, FILE *file);
int fputc(int c, FILE *file);
size_t fwrite(const void *__restrict from, size_t size, size_t count, FILE *__restrict file);
void perror(const char *text);

/* One lock for all. What prints doesn't take it, and so makes no order. */
void flockfile(FILE *file);
int ftrylockfile(FILE *file);
void funlockfile(FILE *file);
static inline int putc_unlocked(int c, FILE *file) { return putc(c, file); }
static inline int putchar_unlocked(int c) { return putchar(c); }
int fflush(FILE *file);
static inline int feof(FILE *file) { (void)file; return 0; }
static inline int ferror(FILE *file) { (void)file; return 0; }
static inline void clearerr(FILE *file) { (void)file; }
int setvbuf(FILE *__restrict file, char *__restrict to, int kind, size_t n);
void setbuf(FILE *__restrict file, char *__restrict to);

#define WATHREAD_NO __attribute__((unavailable("wathread has no files and no input: give what a program reads as constants")))
WATHREAD_NO extern FILE *stdin;
WATHREAD_NO FILE *fopen(const char *__restrict path, const char *__restrict how);
WATHREAD_NO FILE *freopen(const char *__restrict path, const char *__restrict how, FILE *__restrict file);
WATHREAD_NO FILE *tmpfile(void);
WATHREAD_NO char *tmpnam(char *path);
WATHREAD_NO int remove(const char *path);
WATHREAD_NO int rename(const char *before, const char *path);
WATHREAD_NO int fclose(FILE *file);
WATHREAD_NO size_t fread(void *__restrict to, size_t size, size_t count, FILE *__restrict file);
WATHREAD_NO char *fgets(char *__restrict to, int n, FILE *__restrict file);
WATHREAD_NO ssize_t getline(char **__restrict line, size_t *__restrict n, FILE *__restrict file);
WATHREAD_NO int fgetc(FILE *file);
WATHREAD_NO int getc(FILE *file);
WATHREAD_NO int getchar(void);
WATHREAD_NO int ungetc(int c, FILE *file);
WATHREAD_NO int scanf(const char *__restrict text, ...);
WATHREAD_NO int fscanf(FILE *__restrict file, const char *__restrict text, ...);
WATHREAD_NO int vscanf(const char *__restrict text, va_list list);
WATHREAD_NO int vfscanf(FILE *__restrict file, const char *__restrict text, va_list list);
WATHREAD_NO int fseek(FILE *file, long to, int from);
WATHREAD_NO long ftell(FILE *file);
WATHREAD_NO void rewind(FILE *file);
WATHREAD_NO int fgetpos(FILE *__restrict file, fpos_t *__restrict place);
WATHREAD_NO int fsetpos(FILE *file, const fpos_t *place);
#undef WATHREAD_NO
#define WATHREAD_NO __attribute__((unavailable("wathread has no sscanf: strtol and the like read numbers")))
WATHREAD_NO int sscanf(const char *__restrict from, const char *__restrict text, ...);
WATHREAD_NO int vsscanf(const char *__restrict from, const char *__restrict text, va_list list);
#undef WATHREAD_NO
WATHREAD_END

#endif
