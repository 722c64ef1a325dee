// What picolibc, a C library for machines without a system, asks of one: here Linux's calls, as far as ddc has them. docs/guide.md lists what
// each function answers.
//
// It is linked with a program that has a `main`. What is no call of the table answers -1 or NULL with ENOSYS in errno, the same under ddc and
// under Linux. A weak name gives way to a function of the program's own.

#define _GNU_SOURCE

#include "call.h"

#include <elf.h>
#include <errno.h>
#include <fcntl.h>
#include <signal.h>
#include <stdarg.h>
#include <stdio-bufio.h>
#include <stdlib.h>
#include <string.h>
#include <sys/stat.h>
#include <sys/time.h>
#include <sys/times.h>
#include <unistd.h>

#define WEAK __attribute__((weak))

enum { UNLINKAT = 35, FACCESSAT = 48, FCHMODAT = 53 };

enum { DESCRIPTORS = 1024, PIECE = 4096 };

int main(int count, char **words, char **environment);
void __libc_init_array(void);

// picolibc's number of ENAMETOOLONG is not Linux's. Those of the table's other errors are.
enum { LINUX_ENAMETOOLONG = 36 };

// The answer of a call, or -1 with its error in errno.
static long told(long answer) {
    if (answer >= 0)
        return answer;
    errno = answer == -LINUX_ENAMETOOLONG ? ENAMETOOLONG : -answer;
    return -1;
}

// ---- Files ----

// picolibc's numbers of the flags and of the folder that a program stands in are not Linux's.
static long linux_flags(int flags) {
    return (flags & O_ACCMODE) | (flags & O_CREAT ? 64 : 0) | (flags & O_EXCL ? 128 : 0) | (flags & O_TRUNC ? 512 : 0) |
           (flags & O_APPEND ? 1024 : 0);
}

static long linux_folder(int folder) { return folder == AT_FDCWD ? -100 : folder; }

// A number for each name, as there is no call that tells two files apart. A file has one name, less the ./ before it.
static ino_t number_of(const char *name) {
    while (name[0] == '.' && name[1] == '/')
        name += 2;
    unsigned long number = 14695981039346656037u;
    for (; *name != 0; name += 1)
        number = (number ^ (unsigned char)*name) * 1099511628211u;
    return number;
}

// The number of the file that each descriptor was opened by.
static ino_t opened[DESCRIPTORS];

static int open_in(int folder, const char *name, int flags, int mode) {
    if (flags & O_DIRECTORY)
        return told(-ENOTDIR);
    long file = told(call(OPENAT, linux_folder(folder), (long)name, linux_flags(flags), mode));
    if (file >= 0 && file < DESCRIPTORS)
        opened[file] = number_of(name);
    return file;
}

int open(const char *name, int flags, ...) {
    va_list more;
    va_start(more, flags);
    int mode = flags & O_CREAT ? va_arg(more, int) : 0;
    va_end(more);
    return open_in(AT_FDCWD, name, flags, mode);
}

WEAK int openat(int folder, const char *name, int flags, ...) {
    va_list more;
    va_start(more, flags);
    int mode = flags & O_CREAT ? va_arg(more, int) : 0;
    va_end(more);
    return open_in(folder, name, flags, mode);
}

WEAK int creat(const char *name, mode_t mode) { return open_in(AT_FDCWD, name, O_WRONLY | O_CREAT | O_TRUNC, mode); }

int close(int file) { return told(call(CLOSE, file, 0, 0, 0)); }

off_t lseek(int file, off_t offset, int whence) { return told(call(LSEEK, file, offset, whence, 0)); }

ssize_t read(int file, void *to, size_t count) { return told(call(READ, file, (long)to, count, 0)); }

ssize_t write(int file, const void *from, size_t count) { return told(call(WRITE, file, (long)from, count, 0)); }

// A read or a write at a place, after which the cursor is where it was.
static ssize_t move_at(long which, int file, void *bytes, size_t count, off_t place) {
    off_t before = lseek(file, 0, SEEK_CUR);
    if (before < 0 || lseek(file, place, SEEK_SET) < 0)
        return -1;
    long moved = call(which, file, (long)bytes, count, 0);
    lseek(file, before, SEEK_SET);
    return told(moved);
}

WEAK ssize_t pread(int file, void *to, size_t count, off_t place) { return move_at(READ, file, to, count, place); }

WEAK ssize_t pwrite(int file, const void *from, size_t count, off_t place) { return move_at(WRITE, file, (void *)from, count, place); }

WEAK int unlinkat(int folder, const char *name, int flags) { return told(call(UNLINKAT, linux_folder(folder), (long)name, flags, 0)); }

int unlink(const char *name) { return unlinkat(AT_FDCWD, name, 0); }

WEAK int faccessat(int folder, const char *name, int mode, int flags) {
    return flags == 0 ? told(call(FACCESSAT, linux_folder(folder), (long)name, mode, 0)) : told(-ENOSYS);
}

WEAK int access(const char *name, int mode) { return faccessat(AT_FDCWD, name, mode, 0); }

WEAK int fchmodat(int folder, const char *name, mode_t mode, int flags) {
    return flags == 0 ? told(call(FCHMODAT, linux_folder(folder), (long)name, mode, 0)) : told(-ENOSYS);
}

WEAK int chmod(const char *name, mode_t mode) { return fchmodat(AT_FDCWD, name, mode, 0); }

// What is written is there at once.
WEAK int fsync(int file) {
    long place = call(LSEEK, file, 0, SEEK_CUR, 0);
    return place == -EBADF ? told(place) : 0;
}

WEAK int fdatasync(int file) { return fsync(file); }

WEAK void sync(void) {}

// A stream is a pipe. A file's length is where its end is, and everybody may read, write and run it.
int fstat(int file, struct stat *about) {
    long place = call(LSEEK, file, 0, SEEK_CUR, 0);
    if (place < 0 && place != -ESPIPE)
        return told(place);
    memset(about, 0, sizeof *about);
    about->st_nlink = 1;
    about->st_blksize = PIECE;
    if (place < 0) {
        about->st_mode = S_IFIFO | 0600;
        about->st_dev = 1;
        about->st_ino = file;
        return 0;
    }
    about->st_mode = S_IFREG | 0777;
    about->st_ino = file < DESCRIPTORS ? opened[file] : 0;
    about->st_size = call(LSEEK, file, 0, SEEK_END, 0);
    about->st_blocks = (about->st_size + 511) / 512;
    call(LSEEK, file, place, SEEK_SET, 0);
    return 0;
}

int stat(const char *name, struct stat *about) {
    int file = open(name, O_RDONLY);
    if (file < 0)
        return -1;
    int answer = fstat(file, about);
    close(file);
    return answer;
}

WEAK int lstat(const char *name, struct stat *about) { return stat(name, about); }

// No mode is kept, and so none is taken away.
WEAK mode_t umask(mode_t mask) {
    (void)mask;
    return 0;
}

// Nothing is a terminal.
WEAK int isatty(int file) {
    long place = call(LSEEK, file, 0, SEEK_CUR, 0);
    told(place == -EBADF ? place : -ENOTTY);
    return 0;
}

static int copy(int from, int to) {
    char piece[PIECE];
    for (;;) {
        ssize_t length = read(from, piece, sizeof piece);
        if (length <= 0)
            return length;
        if (write(to, piece, length) != length)
            return -1;
    }
}

// The content goes over to the new name, and the old name goes. A descriptor of the old name keeps the old bytes.
int rename(const char *old, const char *new) {
    int from = open(old, O_RDONLY);
    if (from < 0)
        return -1;
    int answer = 0;
    if (number_of(old) != number_of(new)) {
        int to = open(new, O_WRONLY | O_CREAT | O_TRUNC, 0777);
        answer = to < 0 ? -1 : copy(from, to);
        close(to);
        if (to >= 0)
            unlink(answer == 0 ? old : new);
    }
    close(from);
    return answer;
}

// ---- Memory, and the process ----

// The heap grows and shrinks at its end, where Linux's break is.
void *sbrk(ptrdiff_t more) {
    static char *end;
    if (end == NULL)
        end = (char *)call(BRK, 0, 0, 0, 0);
    char *was = end;
    if ((char *)call(BRK, (long)(end + more), 0, 0, 0) != end + more)
        return (void *)told(-ENOMEM);
    end += more;
    return was;
}

void _exit(int status) {
    for (;;)
        call(EXIT, status, 0, 0, 0);
}

pid_t getpid(void) { return 1; }

// The one process is told of a signal that it has no handler for: it ends, by the status that a shell gives to such an end.
int kill(pid_t process, int signal) {
    if (process != 0 && process != 1)
        return told(-ESRCH);
    if (signal < 0 || signal >= NSIG)
        return told(-EINVAL);
    if (signal != 0 && signal != SIGCHLD && signal != SIGCONT && signal != SIGURG && signal != SIGWINCH)
        _exit(128 + signal);
    return 0;
}

static void (*at_quick[32])(void);
static int quick_count;

int at_quick_exit(void (*act)(void)) {
    if (quick_count == 32)
        return -1;
    at_quick[quick_count++] = act;
    return 0;
}

void quick_exit(int status) {
    while (quick_count > 0)
        at_quick[--quick_count]();
    _exit(status);
}

// ---- Streams ----

// Standard output keeps a line, standard error nothing. What is standard input, and always empty, keeps what it reads.
static char input_bytes[BUFSIZ];
static char output_bytes[BUFSIZ];
static char error_bytes[1];

static struct __file_bufio input = FDEV_SETUP_BUFIO(0, input_bytes, BUFSIZ, read, write, lseek, close, __SRD, 0);
static struct __file_bufio output = FDEV_SETUP_BUFIO(1, output_bytes, BUFSIZ, read, write, lseek, close, __SWR, __BLBF);
static struct __file_bufio error = FDEV_SETUP_BUFIO(2, error_bytes, sizeof error_bytes, read, write, lseek, close, __SWR, 0);

FILE *const stdin = (FILE *)&input;
FILE *const stdout = (FILE *)&output;
FILE *const stderr = (FILE *)&error;

// A file of fopen or fdopen. All that are open stand in a list, since picolibc keeps none, and exit has to write what they still hold.
struct listed {
    struct __file_bufio file;
    struct listed *next;
    char bytes[BUFSIZ];
};

static struct listed *all_open;

static int close_listed(FILE *file) {
    struct listed **at = &all_open;
    while (*at != NULL && *at != (struct listed *)file)
        at = &(*at)->next;
    if (*at != NULL)
        *at = (*at)->next;
    return __bufio_close(file);
}

FILE *fdopen(int file, const char *mode) {
    if (mode[0] == 0 || strchr("rwa", mode[0]) == NULL) {
        told(-EINVAL);
        return NULL;
    }
    struct listed *made = calloc(1, sizeof *made);
    if (made == NULL) {
        close(file);
        return NULL;
    }
    int flags = strchr(mode, '+') ? __SRD | __SWR : mode[0] == 'r' ? __SRD : __SWR;
    made->file = (struct __file_bufio)FDEV_SETUP_BUFIO(file, made->bytes, BUFSIZ, read, write, lseek, close, flags, 0);
    made->file.xfile.cfile.close = close_listed;
    __bufio_lock_init((FILE *)made);
    made->next = all_open;
    all_open = made;
    if (mode[0] == 'a')
        fseeko((FILE *)made, 0, SEEK_END);
    return (FILE *)made;
}

int fflush(FILE *file) {
    if (file != NULL)
        return file->flush == NULL ? 0 : file->flush(file);
    int answer = __bufio_flush(stdout);
    for (struct listed *at = all_open; at != NULL; at = at->next)
        answer |= at->file.xfile.cfile.file.flags & __SWR ? __bufio_flush((FILE *)at) : 0;
    return answer ? EOF : 0;
}

__attribute__((destructor(101))) static void flush_all(void) { fflush(NULL); }

// picolibc's own loses a last line that has no end.
char *fgets(char *to, int size, FILE *file) {
    int length = 0;
    for (int byte = 0; byte != '\n' && length < size - 1; length += 1) {
        byte = getc(file);
        if (byte == EOF)
            break;
        to[length] = byte;
    }
    if (ferror(file) || (length == 0 && size != 1))
        return NULL;
    to[length] = 0;
    return to;
}

int fgetpos(FILE *file, fpos_t *place) { return (*place = ftello(file)) < 0 ? -1 : 0; }

int fsetpos(FILE *file, fpos_t *place) { return fseeko(file, *place, SEEK_SET); }

// ---- What the table has no call for ----

__attribute__((used)) static long refused(void) { return told(-ENOSYS); }

__attribute__((used)) static void *none(void) {
    told(-ENOSYS);
    return NULL;
}

int gettimeofday(struct timeval *now, void *zone) {
    (void)now;
    (void)zone;
    return refused();
}

clock_t times(struct tms *used) {
    (void)used;
    return refused();
}

__asm__(".text\n"
        ".irp name, alarm, chdir, chown, chroot, daemon, dup, dup2, execl, execle, execlp, execlpe, execv, execve, execvp, fchdir, fchmod, fchown, "
        "fchownat, fcntl, fexecve, flock, fork, fpathconf, fstatat, ftruncate, futimens, futimes, getdomainname, getegid, getentropy, geteuid, "
        "getgid, getgroups, gethostname, getitimer, getpgid, getpgrp, getppid, getrusage, getsid, getuid, killpg, lchown, link, linkat, lockf, "
        "lutimes, mkdir, mkdirat, mkfifo, mkfifoat, mknodat, nice, pathconf, pause, pipe, posix_spawn, posix_spawnp, pselect, pthread_atfork, "
        "readlink, readlinkat, rmdir, select, setegid, seteuid, setgid, sethostname, setitimer, setpgid, setpgrp, setregid, setreuid, setsid, "
        "settimeofday, setuid, sigaction, sigaltstack, sigpause, sigpending, sigprocmask, sigsuspend, sigtimedwait, sigwait, sigwaitinfo, sleep, "
        "symlink, symlinkat, sysconf, tcgetpgrp, tcsetpgrp, truncate, ualarm, usleep, utimensat, utimes, vfork, wait, waitpid\n"
        "    .weak \\name\n"
        "    .type \\name, @function\n"
        "\\name:\n"
        ".endr\n"
        "    tail refused\n"
        ".irp name, getcwd, getgrgid, getgrnam, getlogin, getpass, getpwnam, getpwuid, getwd, mkdtemp, realpath, ttyname\n"
        "    .weak \\name\n"
        "    .type \\name, @function\n"
        "\\name:\n"
        ".endr\n"
        "    tail none\n");

// ---- The start ----

// The program's own file begins in memory at __ehdr_start; its PT_TLS says what a thread has of its own.
extern const Elf64_Ehdr __ehdr_start;

static const Elf64_Phdr *thread_image(void) {
    const Elf64_Phdr *header = (const Elf64_Phdr *)((const char *)&__ehdr_start + __ehdr_start.e_phoff);
    for (int left = __ehdr_start.e_phnum; left > 0; left -= 1, header += 1)
        if (header->p_type == PT_TLS)
            return header;
    return NULL;
}

// The stack pointer holds the count of words; their addresses stand above it, then NULL, then those of the environment.
__asm__(".globl _start\n"
        "_start:\n"
        "    .option push\n"
        "    .option norelax\n"
        "    la gp, __global_pointer$\n"
        "    .option pop\n"
        "    mv a0, sp\n"
        "    jal begin\n");

// As crt0 does: the thread's block, the constructors, main, exit. The block stands on the stack, which is left by no return, at the remainder by
// its alignment that the linker counted with.
__attribute__((used, noreturn)) static void begin(long *stack) {
    const Elf64_Phdr *image = thread_image();
    if (image != NULL) {
        unsigned long mask = image->p_align > 1 ? image->p_align - 1 : 0;
        char *room = __builtin_alloca(image->p_memsz + mask);
        char *block = room + ((image->p_vaddr - (unsigned long)room) & mask);
        memcpy(block, (const void *)image->p_vaddr, image->p_filesz);
        memset(block + image->p_filesz, 0, image->p_memsz - image->p_filesz);
        __asm__ volatile("mv tp, %0" : : "r"(block) : "memory");
    }
    char **words = (char **)(stack + 1);
    environ = words + stack[0] + 1;
    __libc_init_array();
    exit(main(stack[0], words, environ));
}
