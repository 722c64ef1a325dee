// What no call of the table can do: each answers -1 or NULL with ENOSYS, and the program goes on.
#define _GNU_SOURCE
#include <errno.h>
#include <fcntl.h>
#include <stdio.h>
#include <stdlib.h>
#include <sys/stat.h>
#include <sys/time.h>
#include <sys/times.h>
#include <time.h>
#include <unistd.h>

static void tell(const char *name, long answer) {
    printf("%s %ld%s\n", name, answer, errno == ENOSYS ? "" : ", another error");
    errno = 0;
}

int main(void) {
    char text[8];
    int both[2];
    char *const none[] = {NULL};
    struct timeval now;
    struct tms used;
    tell("fork", fork());
    tell("execv", execv("program", none));
    tell("pipe", pipe(both));
    tell("dup", dup(1));
    tell("dup2", dup2(1, 2));
    tell("link", link("a", "b"));
    tell("symlink", symlink("a", "b"));
    tell("readlink", readlink("a", text, sizeof text));
    tell("mkdir", mkdir("folder", 0777));
    tell("rmdir", rmdir("folder"));
    tell("chdir", chdir("folder"));
    tell("getcwd", getcwd(text, sizeof text) != NULL);
    tell("realpath", realpath("a", NULL) != NULL);
    tell("truncate", truncate("a", 0));
    tell("ftruncate", ftruncate(1, 0));
    tell("gettimeofday", gettimeofday(&now, NULL));
    tell("time", time(NULL));
    tell("times", times(&used));
    tell("clock", clock());
    tell("getentropy", getentropy(text, sizeof text));
    tell("sysconf", sysconf(_SC_PAGESIZE));
    tell("fcntl", fcntl(1, F_GETFL));
    printf("process %d, umask %d\n", getpid(), umask(022));
    int folder = open(".", O_RDONLY | O_DIRECTORY);
    printf("folder %d %d\n", folder, errno == ENOTDIR);
    return 0;
}
