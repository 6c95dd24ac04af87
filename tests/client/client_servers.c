/* Of the guest of tests/client/linux: two servers that were started in one second, of which one has the file of-one and the other the file of-two. */
#define _GNU_SOURCE
#include <fcntl.h>
#include <stdio.h>
#include <stdlib.h>
#include <string.h>
#include <sys/stat.h>
#include <unistd.h>
#include "client.h"

#define TWO "/two/"

/* The options of the mount with the port of the other server. */
static void with_port(const char *options, const char *port, char *given, size_t size) {
    const char *at = strstr(options, "port=") + strlen("port=");
    snprintf(given, size, "%.*s%s%s", (int)(at - options), options, port, at + strspn(at, "0123456789"));
}

static int mounts(const char *name, char *options, char *place) {
    char *const words[] = {"/bin/mount", "-t", "nfs", "-o", options, "10.0.2.2:/", place, NULL};
    char said[400];
    int status = told_by(words, said, sizeof said);
    step(name, !status, "status %d: %s", status, said);
    return !status;
}

static void unmounts(const char *name, char *place) {
    char *const words[] = {"/bin/umount", place, NULL};
    char said[400];
    int status = told_by(words, said, sizeof said);
    step(name, !status, "status %d: %s", status, said);
}

/* A place shows the file of its own server, and not that of the other. */
static void shows(const char *name, const char *own, const char *others) {
    int has = !access(own, F_OK), has_other = !access(others, F_OK);
    step(name, has && !has_other, "its own %d, the other's %d", has, has_other);
}

void two_servers(const char *options) {
    char one[300], two[300];
    snprintf(one, sizeof one, "%s", options);
    with_port(options, getenv("second"), two, sizeof two);
    mkdir("/two", 0755);
    shows("the first server shows its own file", AT "of-one", AT "of-two");
    if (!mounts("the second is mounted beside it", two, "/two")) return;
    shows("the second shows its own file", TWO "of-two", TWO "of-one");
    shows("and the first still does", AT "of-one", AT "of-two");
    step("what is written on the second", put(TWO "of-two", O_TRUNC, "written", 7) == 7, "not 7 bytes");
    holds_bytes("is read there", TWO "of-two", "written", 7);
    holds_bytes("and the first has its own bytes", AT "of-one", "of-one", 6);
    unmounts("the second is unmounted", "/two");
    unmounts("and the first", "/mnt");
    if (!mounts("the second is mounted alone", two, "/mnt")) return;
    shows("it shows its own file", AT "of-two", AT "of-one");
    unmounts("it is unmounted", "/mnt");
    if (mounts("the first is mounted behind it", one, "/mnt")) shows("it shows its own file too", AT "of-one", AT "of-two");
}
