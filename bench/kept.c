/* For bench/kept: at SIGUSR1 a program writes to standard error how many bytes it has of the C library's heap. It is preloaded. */
#include <malloc.h>
#include <signal.h>
#include <stdio.h>
#include <unistd.h>

static void tell(int number)
{
    char line[32];
    (void)number;
    int size = snprintf(line, sizeof line, "%zu\n", mallinfo2().uordblks + mallinfo2().hblkhd);
    if (write(2, line, (size_t)size) < 0)
        _exit(1);
}

__attribute__((constructor)) static void begin(void)
{
    signal(SIGUSR1, tell);
}
