/* Loaded before a program, it runs the program's main on a painted stack and says on standard error
 * how many bytes of it were used. PAINT in the environment is the byte to paint with; one that the
 * program itself writes where it goes deepest would hide that. */
#define _GNU_SOURCE
#include <dlfcn.h>
#include <stdio.h>
#include <stdlib.h>
#include <string.h>

enum { BYTES = 1 << 20 };

typedef int main_function(int, char **, char **);
typedef int start_function(main_function *, int, char **, void (*)(void), void (*)(void), void (*)(void), void *);

static unsigned char stack[BYTES] __attribute__((aligned(16)));
static main_function *program;

/* Calls the program's main on the stack that ends at top. */
static __attribute__((noinline)) int call_on(void *top, int argc, char **argv, char **envp)
{
    int result;
    __asm__ volatile("xchg %[top], %%rsp\n\t"
                     "call *%[program]\n\t"
                     "mov %[top], %%rsp"
                     : "=a"(result), [top] "+b"(top), "+D"(argc), "+S"(argv), "+d"(envp)
                     : [program] "r"(program)
                     : "rcx", "r8", "r9", "r10", "r11", "memory", "cc");
    return result;
}

static int painted(int argc, char **argv, char **envp)
{
    const char *asked = getenv("PAINT");
    unsigned char paint = (unsigned char)atoi(asked ? asked : "165");
    memset(stack, paint, BYTES);
    int result = call_on(stack + BYTES, argc, argv, envp);
    size_t lowest = 0;
    while (lowest < BYTES && stack[lowest] == paint)
        lowest++;
    fprintf(stderr, "%zu\n", BYTES - lowest);
    return result;
}

/* The C library's own, but for main. */
int __libc_start_main(main_function *main, int argc, char **argv, void (*init)(void), void (*fini)(void),
                      void (*loader_fini)(void), void *end)
{
    start_function *start = (start_function *)dlsym(RTLD_NEXT, "__libc_start_main");
    program = main;
    return start(painted, argc, argv, init, fini, loader_fini, end);
}
