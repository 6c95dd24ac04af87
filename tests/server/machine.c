/* Preloaded into the program by tests/server/settings: a machine that has as many pages of memory as MACHINE_PAGES says. */
#include <stdlib.h>
#include <unistd.h>

/* the C library's own */
extern long __sysconf(int name);

long sysconf(int name)
{
    const char *pages = getenv("MACHINE_PAGES");
    return name == _SC_PHYS_PAGES && pages ? atol(pages) : __sysconf(name);
}
