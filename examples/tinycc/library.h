// What TinyCC's source asks of a C library. This one header stands under each name that it includes: stdio.h, string.h, sys/time.h and
// the others. library.c and system.c have the functions.
#ifndef LIBRARY_H
#define LIBRARY_H

#include <stdarg.h>
#include <stddef.h>

// Memory and texts.
void *memcpy(void *to, const void *from, size_t count);
void *memmove(void *to, const void *from, size_t count);
void *memset(void *to, int value, size_t count);
int memcmp(const void *one, const void *other, size_t count);
size_t strlen(const char *text);
char *strcpy(char *to, const char *from);
char *strcat(char *to, const char *from);
int strcmp(const char *one, const char *other);
int strncmp(const char *one, const char *other, size_t count);
char *strchr(const char *text, int wanted);
char *strrchr(const char *text, int wanted);
char *strstr(const char *text, const char *wanted);

// Numbers. Those of floating types end the program.
int atoi(const char *text);
long strtol(const char *text, char **end, int base);
long long strtoll(const char *text, char **end, int base);
unsigned long strtoul(const char *text, char **end, int base);
unsigned long long strtoull(const char *text, char **end, int base);
double strtod(const char *text, char **end);
float strtof(const char *text, char **end);
long double strtold(const char *text, char **end);
double ldexp(double value, int exponent);

// The heap, sorting, and the end of the program.
void *malloc(size_t size);
void *realloc(void *block, size_t size);
void free(void *block);
void qsort(void *rows, size_t count, size_t size, int (*compare)(const void *, const void *));
void exit(int status) __attribute__((noreturn));
void abort(void) __attribute__((noreturn));
#define assert(condition) ((condition) ? (void)0 : abort())

typedef long jmp_buf[14];
int setjmp(jmp_buf state);
void longjmp(jmp_buf state, int value);

// Files, by descriptors.
#define O_RDONLY 0
#define O_WRONLY 1
#define O_RDWR 2
#define O_CREAT 64
#define O_TRUNC 512
#define SEEK_SET 0
#define SEEK_CUR 1
#define SEEK_END 2
extern int errno;
#define EINTR 4
int open(const char *name, int flags, ...);
int close(int descriptor);
ssize_t read(int descriptor, void *to, size_t count);
ssize_t write(int descriptor, const void *from, size_t count);
long lseek(int descriptor, long offset, int whence);
int unlink(const char *name);
int remove(const char *name);

// Files, with a buffer for what is written.
typedef struct file FILE;
extern FILE *const stdout;
extern FILE *const stderr;
FILE *fopen(const char *name, const char *mode);
FILE *fdopen(int descriptor, const char *mode);
int fclose(FILE *file);
int fflush(FILE *file);
size_t fread(void *to, size_t size, size_t count, FILE *file);
size_t fwrite(const void *from, size_t size, size_t count, FILE *file);
int fputc(int byte, FILE *file);
int fputs(const char *text, FILE *file);
int fseek(FILE *file, long offset, int whence);
long ftell(FILE *file);
int puts(const char *text);
int putchar(int byte);

int printf(const char *format, ...);
int fprintf(FILE *file, const char *format, ...);
int sprintf(char *to, const char *format, ...);
int snprintf(char *to, size_t room, const char *format, ...);
int vsnprintf(char *to, size_t room, const char *format, va_list values);
int sscanf(const char *text, const char *format, ...);

// What a program here cannot ask for: an environment, a folder, the time, another program.
typedef long time_t;
struct tm { int tm_sec, tm_min, tm_hour, tm_mday, tm_mon, tm_year; };
struct timeval { long tv_sec, tv_usec; };
char *getenv(const char *name);
char *getcwd(char *to, size_t room);
time_t time(time_t *to);
int gettimeofday(struct timeval *to, void *zone);
int execvp(const char *name, char **words);
struct tm *localtime(const time_t *from);

// There is one thread, so a semaphore is nothing.
typedef int sem_t;
#define sem_init(semaphore, shared, value) 0
#define sem_wait(semaphore) 0
#define sem_post(semaphore) 0

#endif
