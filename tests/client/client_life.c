/* Of the guest of tests/client/linux: work over the mount with the commands of the host, whose root it has over virtio, to read alone. */
#define _GNU_SOURCE
#include <errno.h>
#include <fcntl.h>
#include <stdio.h>
#include <stdlib.h>
#include <string.h>
#include <sys/mount.h>
#include <sys/stat.h>
#include <sys/wait.h>
#include <unistd.h>
#include "client.h"

#define HOST "/host"

/* The host's root, with what a process wants to write beside it: its own folder for files that pass, /proc and /dev, and the server's mount at /mnt. */
static int host_is_here(void) {
    char text[65536];
    mkdir(HOST, 0755);
    if (mount("host", HOST, "9p", MS_RDONLY, "trans=virtio,version=9p2000.L,msize=262144,cache=loose")) return 0;
    if (mount("tmpfs", HOST P_tmpdir, "tmpfs", 0, "nr_inodes=400000") || mount("proc", HOST "/proc", "proc", 0, "")) return 0;
    if (mount("devtmpfs", HOST "/dev", "devtmpfs", 0, "") || mount("/mnt", HOST "/mnt", NULL, MS_BIND, NULL)) return 0;
    mkdir(HOST "/dev/shm", 01777);
    if (mount("tmpfs", HOST "/dev/shm", "tmpfs", 0, "")) return 0;
    int from = open("/life.sh", O_RDONLY);
    ssize_t size = read(from, text, sizeof text);
    close(from);
    return size > 0 && put(HOST P_tmpdir "/life.sh", O_CREAT, text, size) == size;
}

/* One part of tests/client/life.sh: its lines are told on, and its steps are counted as this program's are. */
void life(char *what) {
    char *const words[] = {"/bin/bash", P_tmpdir "/life.sh", what, NULL};
    char line[1024];
    int from[2];
    if (!host_is_here() || pipe(from)) {
        step("the host's root is here", 0, "errno %d (%s)", errno, strerror(errno));
        return;
    }
    fflush(stdout);
    pid_t child = fork();
    if (!child) {
        dup2(from[1], 1);
        close(from[0]);
        if (chroot(HOST) || mkdir(AT "work", 0777) || chdir(AT "work")) _exit(126);
        execv(words[0], words);
        _exit(127);
    }
    close(from[1]);
    FILE *told = fdopen(from[0], "r");
    while (fgets(line, sizeof line, told)) {
        if (!strncmp(line, "step ", 5)) took_step();
        printf("%s", line);
        fflush(stdout);
    }
    fclose(told);
    int status = ended(child);
    step("its script comes to its end", !status, "status %d", status);
    if (umount2(HOST "/mnt", 0)) printf("note: the second place of the mount stays: %s\n", strerror(errno));
}

/* The same server mounted a second time, as another file system: what is done by the one is seen by the other. */
void two_mounts(char *options) {
    char given[300];
    struct stat a, b;
    snprintf(given, sizeof given, "%s,nosharecache,noac", options);
    char *const words[] = {"/bin/mount", "-t", "nfs", "-o", given, "10.0.2.2:/", "/second", NULL}, *const leave[] = {"/bin/umount", "/second", NULL};
    char said[400];
    mkdir("/second", 0755);
    int status = told_by(words, said, sizeof said);
    step("the server is mounted a second time", !status, "status %d: %s", status, said);
    if (status) return;
    step("as another file system", !stat("/mnt", &a) && !stat("/second", &b) && a.st_dev != b.st_dev && a.st_ino == b.st_ino, "%lx %lx", (long)a.st_dev, (long)b.st_dev);
    for (int i = 0; i < 20; i++) {
        char here[64], there[64], text[16];
        snprintf(here, sizeof here, i % 2 ? "/second/f%d" : AT "f%d", i);
        snprintf(there, sizeof there, i % 2 ? AT "f%d" : "/second/f%d", i);
        snprintf(text, sizeof text, "text %02d", i);
        step("a file is made by one", put(here, O_CREAT | O_EXCL, text, 7) == 7, "%d: errno %d", i, errno);
        holds_bytes("and read by the other", there, text, 7);
        ends("and removed there", unlink(there), 0);
    }
    int one = open(AT "locked", O_CREAT | O_RDWR, 0600), other = open("/second/locked", O_RDWR);
    ends("a file is locked by one", locked(one, F_SETLK, F_WRLCK, 0, 10), 0);
    step("and the other may have what is beside it", other >= 0 && !locked(other, F_SETLK, F_WRLCK, 10, 10), "errno %d", errno);
    close(one);
    close(other);
    status = told_by(leave, said, sizeof said);
    step("the second is unmounted", !status, "status %d: %s", status, said);
}
