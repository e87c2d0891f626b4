/* What picolibc needs of the system below it: the start of a program, and the system calls of KeyNIX. A call has its number
   in a7 and its arguments in a0 to a2; a value from -4095 to -1 in a0 says why it was refused. */
#include <errno.h>
#include <stdio.h>
#include <stdlib.h>
#include <sys/types.h>
#include <sys/wait.h>
#include <unistd.h>

enum { EXIT = 1, FORK = 2, WAITPID = 5, BRK = 8, OPEN = 9, CLOSE = 10, READ = 11, WRITE = 12, PIPE = 16 };

/* The registers that compiled code finds set: gp in the middle of the small data, tp at the thread's own. A process starts
   with the number of its arguments in a0 and their addresses in a1. */
__asm__(".section .text.start\n"
        ".globl _start\n"
        "_start:\n"
        ".option push\n"
        ".option norelax\n"
        "la gp, __global_pointer$\n"
        ".option pop\n"
        "la tp, __thread_data\n"
        "call main\n"
        "call exit\n");

static long call(long number, long first, long second, long third)
{
    register long a0 __asm__("a0") = first;
    register long a1 __asm__("a1") = second;
    register long a2 __asm__("a2") = third;
    register long a7 __asm__("a7") = number;
    __asm__ volatile("ecall" : "+r"(a0) : "r"(a1), "r"(a2), "r"(a7) : "memory");
    if (a0 < 0 && a0 > -4096) {
        errno = -a0;
        return -1;
    }
    return a0;
}

void _exit(int code)
{
    for (;;)
        call(EXIT, code, 0, 0);
}

pid_t fork(void) { return call(FORK, 0, 0, 0); }
pid_t waitpid(pid_t pid, int *word, int options) { return call(WAITPID, pid, (long)word, options); }
int open(const char *path, int flags, ...) { return call(OPEN, (long)path, flags, 0); }
int close(int descriptor) { return call(CLOSE, descriptor, 0, 0); }
ssize_t read(int descriptor, void *into, size_t count) { return call(READ, descriptor, (long)into, count); }
ssize_t write(int descriptor, const void *from, size_t count) { return call(WRITE, descriptor, (long)from, count); }
int pipe(int ends[2]) { return call(PIPE, (long)ends, 0, 0); }

/* The heap grows to the end that is asked for. */
void *sbrk(ptrdiff_t more)
{
    long end = call(BRK, 0, 0, 0);
    return call(BRK, end + more, 0, 0) < 0 ? (void *)-1 : (void *)end;
}
