// What a program of cc0 gets from gcc: main, which calls begin with the words as the system lays them out, and system_call, which takes the numbers
// of 64-bit RISC-V Linux on every Linux. For programs that are built by gcc alone; cc0 and cc have both built in.

#define _GNU_SOURCE
#include <errno.h>
#include <sys/syscall.h>
#include <unistd.h>

long begin(long *stack);
long system_call(long number, long first, long second, long third, long fourth);

// RISC-V's numbers beside this machine's.
static const struct {
    long riscv;
    long here;
} calls[] = {
    {35, SYS_unlinkat}, {48, SYS_faccessat}, {53, SYS_fchmodat}, {56, SYS_openat}, {57, SYS_close}, {62, SYS_lseek},
    {63, SYS_read},     {64, SYS_write},     {93, SYS_exit},     {94, SYS_exit_group},
};

// brk, from an area of its own: the library may use the heap.
static char heap[1L << 30] __attribute__((aligned(4096)));
static long heap_end = 0;

static long move_break(long to) {
    if (heap_end == 0)
        heap_end = (long)heap;
    if (to >= (long)heap && to <= (long)(heap + sizeof heap))
        heap_end = to;
    return heap_end;
}

long system_call(long number, long first, long second, long third, long fourth) {
    if (number == 214)
        return move_break(first);
    for (unsigned long i = 0; i < sizeof calls / sizeof *calls; i += 1)
        if (calls[i].riscv == number) {
            // The library gives -1 for an error, and Linux the error's number below 0.
            long answer = syscall(calls[i].here, first, second, third, fourth);
            return answer == -1 ? -errno : answer;
        }
    return -38;
}

int main(int count, char **words) {
    static long stack[4096];
    stack[0] = count;
    for (long i = 0; i <= count && i < 4094; i += 1)
        stack[i + 1] = (long)words[i];
    return (int)(begin(stack) & 255);
}
