/* The guest of tests/client/linux: the first process of a machine that has a kernel, its modules, the commands that mount and nothing else. It
 * mounts the server and takes steps whose ends are known beforehand, a line each on the console:
 *
 *     step NAME: ok
 *     step NAME: FAILED what came and what was wanted
 *
 * and at the end `done N`, of N steps. Before them it prints `kernel RELEASE`, or `unfit: WHY` where the machine lacks something; and
 * `beat` each second all the while, so that the host sees when the machine stands still. The kernel's command line, whose words come as
 * environment, has `part=`, `host=` (the name of this machine) and `options=` (those of the mount). Where a step wants something of the
 * host, the guest prints `ask WORD` and reads a line. */
#define _GNU_SOURCE
#include <arpa/inet.h>
#include <dirent.h>
#include <errno.h>
#include <fcntl.h>
#include <grp.h>
#include <net/if.h>
#include <poll.h>
#include <stdarg.h>
#include <stdio.h>
#include <stdlib.h>
#include <string.h>
#include <sys/file.h>
#include <sys/ioctl.h>
#include <sys/mount.h>
#include <sys/reboot.h>
#include <sys/socket.h>
#include <sys/stat.h>
#include <sys/syscall.h>
#include <sys/utsname.h>
#include <sys/wait.h>
#include <time.h>
#include <unistd.h>
#include "client.h"

/* BADTYPE is the kernel's own number for NFS4ERR_BADTYPE, which it hands to the caller as it is. */
enum { PIECE = 4096, LONG = 300000, MANY = 200, PROCESSES = 6, EACH = 20, BADTYPE = 527 };

static unsigned char wanted[LONG], got[LONG + 1];
static char names[MANY][16];
static int steps;

double now(void) {
    struct timespec t;
    clock_gettime(CLOCK_MONOTONIC, &t);
    return t.tv_sec + t.tv_nsec / 1e9;
}

void step(const char *name, int holds, const char *shown, ...) {
    va_list rest;
    steps++;
    printf("step %s: %s", name, holds ? "ok" : "FAILED ");
    if (!holds) {
        va_start(rest, shown);
        vprintf(shown, rest);
        va_end(rest);
    }
    printf("\n");
    fflush(stdout);
}

void took_step(void) {
    steps++;
}

void ends(const char *name, long value, int error) {
    int came = value < 0 ? errno : 0;
    step(name, came == error, "errno %d (%s), wanted %d", came, strerror(came), error);
}

int ask(const char *word) {
    char line[64] = {0};
    printf("ask %s\n", word);
    fflush(stdout);
    if (!fgets(line, sizeof line, stdin)) printf("note: the host said nothing\n");
    return !strncmp(line, "again", 5);
}

/* A moment to which both machines come before either goes on. */
static void meet(void) {
    ask("meet");
}

int ended(pid_t child) {
    int status = -1;
    waitpid(child, &status, 0);
    return WIFEXITED(status) ? WEXITSTATUS(status) : 256 + status;
}

int told_by(char *const words[], char *said, size_t size) {
    size_t at = 0;
    ssize_t more;
    int from[2];
    if (pipe(from)) _exit(1);
    fflush(stdout);
    pid_t child = fork();
    if (!child) {
        dup2(from[1], 1);
        dup2(from[1], 2);
        close(from[0]);
        execv(words[0], words);
        _exit(127);
    }
    close(from[1]);
    while (at < size - 1 && (more = read(from[0], said + at, size - 1 - at)) > 0) at += more;
    said[at] = 0;
    close(from[0]);
    for (size_t i = 0; i < at; i++) said[i] = said[i] == '\n' ? ';' : said[i];
    return ended(child);
}

/* A command that is to end with status 0; where it does not, what it said is shown. */
static int command(const char *name, char *const words[]) {
    char said[400];
    int status = told_by(words, said, sizeof said);
    step(name, status == 0, "status %d, and it said: %s", status, said);
    return status == 0;
}

/* The mount as it is documented for people, and its end. */
static int mounted(char *options) {
    char *const words[] = {"/bin/mount", "-t", "nfs", "-o", options, "10.0.2.2:/", "/mnt", NULL};
    return command("the server is mounted", words);
}

static void unmounted(void) {
    char *const words[] = {"/bin/umount", "/mnt", NULL};
    command("it is unmounted", words);
}

/* Each of the options is one of those that the kernel shows. */
static void kernel_shows(const char *options) {
    char line[1024] = {0}, shown[1026] = {0}, each[256], one[258];
    FILE *mounts = fopen("/proc/mounts", "r");
    while (mounts && fgets(line, sizeof line, mounts))
        if (sscanf(line, "10.0.2.2:/ /mnt nfs4 %1023s", shown + 1) == 1) break;
    if (mounts) fclose(mounts);
    shown[0] = ',';
    strcat(shown, ",");
    snprintf(each, sizeof each, "%s", options);
    int wrong = 0;
    for (char *word = strtok(each, ","); word; word = strtok(NULL, ",")) {
        snprintf(one, sizeof one, ",%s,", word);
        wrong += !strstr(shown, one);
    }
    step("the kernel shows the options", !wrong, "%d of %s are not in %s", wrong, options, shown);
}

long put(const char *path, int flags, const void *bytes, size_t size) {
    int file = open(path, O_WRONLY | flags, 0644);
    if (file < 0) return -1;
    long wrote = write(file, bytes, size);
    if (close(file) < 0) return -1;
    return wrote;
}

static long taken(const char *path) {
    int file = open(path, O_RDONLY);
    if (file < 0) return -1;
    long all = 0, more;
    while ((more = read(file, got + all, sizeof got - all)) > 0) all += more;
    close(file);
    return more < 0 ? -1 : all;
}

void holds_bytes(const char *name, const char *path, const void *bytes, long size) {
    long came = taken(path);
    step(name, came == size && !memcmp(got, bytes, size), "%ld bytes, wanted %ld", came, size);
}

int locked(int file, int how, short kind, long start, long length) {
    struct flock lock = {.l_type = kind, .l_whence = SEEK_SET, .l_start = start, .l_len = length};
    return fcntl(file, how, &lock);
}

void forget(void) {
    int file = open("/proc/sys/vm/drop_caches", O_WRONLY);
    if (file >= 0) {
        if (write(file, "3", 1) < 0) printf("note: caches were not dropped\n");
        close(file);
    }
}

/* How many of the first of `names` a directory has; less than nothing where it has another, or one of them twice. */
static int listed(const char *path, int count) {
    char found[MANY] = {0};
    int seen = 0;
    DIR *list = opendir(path);
    for (struct dirent *e; list && (e = readdir(list));) {
        int i = 0;
        while (i < count && strcmp(names[i], e->d_name)) i++;
        if (i < count && !found[i]) found[i] = 1, seen++;
        else if (strcmp(e->d_name, ".") && strcmp(e->d_name, "..")) seen -= 2 * MANY;
    }
    if (list) closedir(list);
    return seen;
}

static void files_and_names(void) {
    struct stat a, b;
    char name[64], text[64];

    ends("a directory is made", mkdir(AT "d", 0755), 0);
    ends("a directory that is there is not made", mkdir(AT "d", 0755), EEXIST);
    step("12 bytes are written", put(AT "d/f", O_CREAT | O_TRUNC, "twelve bytes", 12) == 12, "errno %d", errno);
    forget();
    holds_bytes("they are read back", AT "d/f", "twelve bytes", 12);
    step("bytes are appended", put(AT "d/f", O_APPEND, " and more", 9) == 9, "errno %d", errno);
    forget();
    holds_bytes("both are read back", AT "d/f", "twelve bytes and more", 21);
    ends("it is cut to 6 bytes", truncate(AT "d/f", 6), 0);
    forget();
    holds_bytes("what is left is read back", AT "d/f", "twelve", 6);
    ends("it is made longer", truncate(AT "d/f", 9), 0);
    forget();
    holds_bytes("with zeros", AT "d/f", "twelve\0\0\0", 9);
    step("300,000 bytes are written", put(AT "long", O_CREAT, wanted, LONG) == LONG, "errno %d", errno);
    forget();
    holds_bytes("300,000 bytes are read back", AT "long", wanted, LONG);

    ends("another file is made", put(AT "d/g", O_CREAT, "g", 1), 0);
    ends("it is renamed over the first", rename(AT "d/g", AT "d/f"), 0);
    forget();
    holds_bytes("the name is the other file's", AT "d/f", "g", 1);
    ends("its old name is gone", stat(AT "d/g", &a), ENOENT);
    ends("a hard link is made", link(AT "d/f", AT "d/h"), 0);
    step("both names are of one file", !stat(AT "d/f", &a) && !stat(AT "d/h", &b) && a.st_ino == b.st_ino && b.st_nlink == 2,
         "numbers %ld %ld, links %ld", (long)a.st_ino, (long)b.st_ino, (long)b.st_nlink);
    ends("a symbolic link is made", symlink("d/f", AT "s"), 0);
    memset(text, 0, sizeof text);
    step("its text is read", readlink(AT "s", text, sizeof text) == 3 && !strcmp(text, "d/f"), "'%s'", text);
    forget();
    holds_bytes("it leads to the file", AT "s", "g", 1);
    ends("a directory with names in it stays", rmdir(AT "d"), ENOTEMPTY);
    ends("a fifo is not of this server", mkfifo(AT "fifo", 0644), BADTYPE);

    ends("a directory for many names is made", mkdir(AT "many", 0755), 0);
    int made = 0;
    for (int i = 0; i < MANY; i++) {
        snprintf(names[i], sizeof names[i], "name%03d", i);
        snprintf(name, sizeof name, AT "many/name%03d", i);
        int file = open(name, O_CREAT | O_EXCL | O_WRONLY, 0600);
        made += file >= 0 && !close(file);
    }
    step("200 files are made", made == MANY, "%d", made);
    forget();
    int seen = listed(AT "many", MANY);
    step("each is listed once", seen == MANY, "%d", seen);
    int gone = 0;
    for (int i = 0; i < MANY; i++) {
        snprintf(name, sizeof name, AT "many/name%03d", i);
        gone += !unlink(name);
    }
    step("200 files are removed", gone == MANY, "%d", gone);
    ends("the empty directory goes", rmdir(AT "many"), 0);

    int file = open(AT "only", O_CREAT | O_EXCL | O_WRONLY, 0640);
    step("O_EXCL makes a file", file >= 0, "errno %d", errno);
    if (file >= 0) close(file);
    step("with its mode", !stat(AT "only", &a) && (a.st_mode & 07777) == 0640, "%o", a.st_mode & 07777);
    ends("O_EXCL refuses one that is there", open(AT "only", O_CREAT | O_EXCL | O_WRONLY, 0640), EEXIST);
}

/* What a user other than 0 may do, by the permission bits: the number of the first that went wrong, or 0. */
static int as_other_user(void) {
    struct stat a;
    gid_t none[1] = {2000};
    if (setgroups(1, none) || setgid(2000) || setuid(1000)) return 1;
    if (open(AT "secret", O_RDONLY) >= 0 || errno != EACCES) return 2;
    if (put(AT "readable", O_APPEND, "x", 1) >= 0 || errno != EACCES) return 3;
    if (taken(AT "readable") != 4) return 4;
    if (taken(AT "groups") != 6) return 5;
    if (mkdir(AT "closed/in", 0755) >= 0 || errno != EACCES) return 6;
    if (chmod(AT "readable", 0777) >= 0 || errno != EPERM) return 7;
    if (put(AT "open/mine", O_CREAT, "mine", 4) != 4) return 8;
    if (stat(AT "open/mine", &a) || a.st_uid != 1000 || a.st_gid != 2000) return 9;
    if (chmod(AT "open/mine", 0600)) return 10;
    if (chown(AT "open/mine", 0, -1) >= 0 || errno != EPERM) return 11;
    return 0;
}

static void users(void) {
    ends("a file for its owner alone", put(AT "secret", O_CREAT, "secret", 6), 0);
    ends("its mode", chmod(AT "secret", 0600), 0);
    ends("a file that all may read", put(AT "readable", O_CREAT, "read", 4), 0);
    ends("a file for a group", put(AT "groups", O_CREAT, "groups", 6), 0);
    ends("its group", chown(AT "groups", 0, 2000), 0);
    ends("and mode", chmod(AT "groups", 0640), 0);
    ends("a directory for its owner", mkdir(AT "closed", 0755), 0);
    ends("a directory for all", mkdir(AT "open", 0777), 0);
    ends("and its mode", chmod(AT "open", 0777), 0);
    fflush(stdout);
    pid_t child = fork();
    if (!child) _exit(as_other_user());
    int status = ended(child);
    step("user 1000 of group 2000 may do what the bits say", status == 0, "case %d", status);
}

static void unlinked_while_open(void) {
    struct stat a;
    char bytes[8] = {0};
    int file = open(AT "gone", O_CREAT | O_RDWR, 0600);
    step("a file is made", file >= 0 && write(file, "here", 4) == 4 && !fsync(file), "errno %d", errno);
    ends("its name is removed while it is open", unlink(AT "gone"), 0);
    ends("the name is gone", stat(AT "gone", &a), ENOENT);
    forget();
    step("its bytes are still there", pread(file, bytes, 8, 0) == 4 && !memcmp(bytes, "here", 4), "errno %d, '%.4s'", errno, bytes);
    ends("it is closed", close(file), 0);
    /* the kernel removes the name that it gave the file meanwhile behind the close, in its own time */
    int left = 1;
    for (int tries = 0; left && tries < 60; tries++) {
        if (tries) sleep(1);
        forget();
        DIR *list = opendir(AT);
        left = list ? 0 : -1;
        for (struct dirent *e; list && (e = readdir(list));) left += !strncmp(e->d_name, ".nfs", 4) || !strcmp(e->d_name, "gone");
        if (list) closedir(list);
    }
    step("and no name is left of it", !left, "%d", left);
}

/* Locks between processes of this machine, which its kernel judges before it asks the server. */
static void locks(void) {
    int file = open(AT "locks", O_CREAT | O_RDWR, 0600), to[2], back[2];
    char c = 0;
    struct flock lock = {.l_type = F_WRLCK, .l_whence = SEEK_SET, .l_start = 0, .l_len = 10};
    if (file < 0 || pipe(to) || pipe(back)) {
        step("a file for locks", 0, "errno %d", errno);
        return;
    }
    ends("bytes 0 to 9 are locked", locked(file, F_SETLK, F_WRLCK, 0, 10), 0);
    fflush(stdout);
    pid_t child = fork();
    if (!child) {
        int other = open(AT "locks", O_RDWR), code = 0;
        if (locked(other, F_SETLK, F_WRLCK, 5, 10) >= 0 || (errno != EAGAIN && errno != EACCES)) code |= 1;
        if (locked(other, F_SETLK, F_RDLCK, 9, 1) >= 0) code |= 2;
        if (locked(other, F_SETLK, F_WRLCK, 10, 10)) code |= 4;
        if (fcntl(other, F_GETLK, &lock) || lock.l_type != F_WRLCK || lock.l_start != 0 || lock.l_len != 10) code |= 8;
        double begun = now();
        if (write(back[1], "r", 1) != 1) code |= 16;
        if (locked(other, F_SETLKW, F_WRLCK, 0, 5)) code |= 32;
        if (now() - begun < 1) code |= 64;
        _exit(code);
    }
    if (read(back[0], &c, 1) != 1) printf("note: the other process said nothing\n");
    sleep(2);
    ends("and unlocked two seconds later", locked(file, F_SETLK, F_UNLCK, 0, 10), 0);
    int status = ended(child);
    step("another process is refused them, told of them, granted others, and waits for them", status == 0, "%#x", status);
    ends("what a process held went with it", locked(file, F_SETLK, F_WRLCK, 0, 20), 0);
    close(file);
}

/* A lock of another client, which is not heard any more, and whose lock goes with its lease. */
static void anothers_lock(void) {
    struct flock lock = {.l_type = F_WRLCK, .l_whence = SEEK_SET, .l_start = 0, .l_len = 100};
    int file = open(AT "held", O_RDWR);
    ends("a file that another client has open", file, 0);
    ends("a lock over another client's is refused", locked(file, F_SETLK, F_WRLCK, 0, 5), EAGAIN);
    int told = fcntl(file, F_GETLK, &lock);
    step("the other client's lock is told", !told && lock.l_type == F_WRLCK && lock.l_start == 3 && lock.l_len == 7,
         "errno %d, type %d, %ld and %ld", errno, lock.l_type, (long)lock.l_start, (long)lock.l_len);
    ends("bytes beside it are granted", locked(file, F_SETLK, F_WRLCK, 10, 5), 0);
    double begun = now();
    ends("the lock is waited for, and granted when the other client's lease has run out", locked(file, F_SETLKW, F_WRLCK, 0, 5), 0);
    printf("note: waited %.0f s\n", now() - begun);
    close(file);
}

int added(const char *path, int times) {
    int file = open(path, O_CREAT | O_RDWR, 0666);
    for (int i = 0; i < times; i++) {
        char text[16] = {0};
        if (locked(file, F_SETLKW, F_WRLCK, 0, 0)) return 1;
        if (pread(file, text, sizeof text - 1, 0) < 0) return 2;
        snprintf(text, sizeof text, "%06d\n", atoi(text) + 1);
        if (pwrite(file, text, 7, 0) != 7) return 3;
        if (locked(file, F_SETLK, F_UNLCK, 0, 0)) return 4;
    }
    return close(file) ? 5 : 0;
}

/* One of several processes at once: the number of what went wrong, or 0. */
static int one_of_many(int who) {
    char path[64], to[64];
    for (int i = 0; i < LONG; i++) wanted[i] += who * 37;
    snprintf(path, sizeof path, AT "crowd/long%d", who);
    if (put(path, O_CREAT | O_EXCL, wanted, LONG) != LONG) return 10;
    snprintf(to, sizeof to, AT "crowd/slow%d", who);
    for (long at = 0; at < EACH * PIECE; at += PIECE)
        if (put(to, O_CREAT | O_APPEND, wanted + at, PIECE) != PIECE) return 11;
    forget();
    if (taken(path) != LONG || memcmp(got, wanted, LONG)) return 12;
    if (taken(to) != EACH * PIECE || memcmp(got, wanted, EACH * PIECE)) return 13;
    for (int i = 0; i < EACH; i++) {
        snprintf(path, sizeof path, AT "names/%d-%02d", who, i);
        snprintf(to, sizeof to, AT "names/moved%d-%02d", who, i);
        if (mkdir(path, 0700)) return 14;
        if (i % 2 && rename(path, to)) return 15;
    }
    return added(AT "crowd/number", 3);
}

/* The mount's connections, and the fewest replies that came over one of them. */
static int connections(long *fewest) {
    char line[1024];
    long came;
    int count = 0;
    FILE *told = fopen("/proc/self/mountstats", "r");
    while (told && fgets(line, sizeof line, told)) {
        if (sscanf(line, " xprt: tcp %*u %*u %*u %*u %*d %*u %ld", &came) != 1) continue;
        *fewest = count && *fewest < came ? *fewest : came;
        count++;
    }
    if (told) fclose(told);
    return count;
}

static void many_at_once(void) {
    pid_t children[PROCESSES];
    long fewest = 0;
    int case_of[PROCESSES], wrong = -1;
    ends("a directory for the files of many processes is made", mkdir(AT "crowd", 0777), 0);
    ends("and one for their names", mkdir(AT "names", 0777), 0);
    fflush(stdout);
    for (int i = 0; i < PROCESSES; i++)
        if (!(children[i] = fork())) _exit(one_of_many(i));
    for (int i = 0; i < PROCESSES; i++)
        if ((case_of[i] = ended(children[i]))) wrong = i;
    step("six processes at once write, read back, make, rename and lock", wrong < 0, "process %d, case %d", wrong, wrong < 0 ? 0 : case_of[wrong]);
    forget();
    holds_bytes("what they counted under a lock is right", AT "crowd/number", "000018\n", 7);
    for (int i = 0; i < PROCESSES * EACH; i++) snprintf(names[i], sizeof names[i], i % 2 ? "moved%d-%02d" : "%d-%02d", i / EACH, i % EACH);
    int seen = listed(AT "names", PROCESSES * EACH);
    step("each of their names is listed once", seen == PROCESSES * EACH, "%d", seen);
    int count = connections(&fewest);
    step("the mount has four connections", count == 4, "%d", count);
    step("over each of which many replies came", fewest >= 100, "%ld", fewest);
    printf("note: at least %ld replies over each of %d connections\n", fewest, count);
    ask("count");
}

/* How many replies to this operation the kernel has had. */
static long replies(const char *operation) {
    char line[1024], name[32];
    long count = 0;
    FILE *told = fopen("/proc/self/mountstats", "r");
    snprintf(name, sizeof name, " %s: ", operation);
    while (told && fgets(line, sizeof line, told)) {
        char *at = strstr(line, name);
        if (at) count = atol(at + strlen(name));
    }
    if (told) fclose(told);
    return count;
}

/* Waits for a lock, looks at what its holder wrote before it gave it up, says so, and keeps it until it is told to end. */
static int waits(int file, int granted, int go) {
    char bytes[8], c;
    if (locked(file, F_SETLKW, F_WRLCK, 0, 10)) return 1;
    if (pread(file, bytes, 8, 0) != 8 || memcmp(bytes, "released", 8)) return 2;
    return write(granted, "g", 1) == 1 && read(go, &c, 1) == 1 ? 0 : 3;
}

/* The other machine has bytes 0 to 9 for writing and 20 to 29 for reading. */
static void refused_and_granted(int file) {
    struct flock lock = {.l_type = F_WRLCK, .l_whence = SEEK_SET, .l_start = 0, .l_len = 15};
    ends("a lock over the other machine's is refused", locked(file, F_SETLK, F_WRLCK, 5, 10), EAGAIN);
    ends("and one for reading", locked(file, F_SETLK, F_RDLCK, 9, 1), EAGAIN);
    ends("and one for writing where the other machine reads", locked(file, F_SETLK, F_WRLCK, 29, 1), EAGAIN);
    ends("one for reading is granted there", locked(file, F_SETLK, F_RDLCK, 20, 10), 0);
    ends("and bytes between them", locked(file, F_SETLK, F_WRLCK, 10, 5), 0);
    int told = fcntl(file, F_GETLK, &lock);
    step("the other machine's lock is told", !told && lock.l_type == F_WRLCK && lock.l_start == 0 && lock.l_len == 10,
         "errno %d, type %d, %ld and %ld", errno, lock.l_type, (long)lock.l_start, (long)lock.l_len);
}

/* Locks of two machines. What stands between two meetings is done by both at the same time, or by one of them. */
static void two_lock(int first) {
    int granted[2], go[2], file = -1;
    char c = 0;
    pid_t child = -1;
    if (pipe(granted) || pipe(go)) _exit(1);
    if (first) {
        file = open(AT "shared", O_CREAT | O_RDWR, 0666);
        ends("a file is made", file, 0);
        ends("bytes 0 to 9 are locked", locked(file, F_SETLK, F_WRLCK, 0, 10), 0);
        ends("and 20 to 29 for reading", locked(file, F_SETLK, F_RDLCK, 20, 10), 0);
    }
    meet();
    if (!first) {
        file = open(AT "shared", O_RDWR);
        ends("the other machine's file is opened", file, 0);
        refused_and_granted(file);
        struct pollfd its = {.fd = granted[0], .events = POLLIN};
        long asked = replies("LOCK");
        fflush(stdout);
        child = fork();
        if (!child) _exit(waits(file, granted[1], go[0]));
        close(granted[1]);
        while (replies("LOCK") < asked + 2 && !poll(&its, 1, 200)) continue;
        step("a lock is waited for: it was refused, asked for again, and is not granted", !poll(&its, 1, 0), "its process ended or has it");
    }
    meet();
    if (first) {
        step("bytes are written while they are locked", pwrite(file, "released", 8, 0) == 8 && !fsync(file), "errno %d", errno);
        ends("they are released", locked(file, F_SETLK, F_UNLCK, 0, 10), 0);
    } else {
        step("it is granted when it is released", read(granted[0], &c, 1) == 1 && c == 'g', "its process ended");
    }
    meet();
    if (first) {
        ends("what the other machine waited for is refused now", locked(file, F_SETLK, F_RDLCK, 9, 1), EAGAIN);
        ends("and what it has beside it", locked(file, F_SETLK, F_WRLCK, 14, 1), EAGAIN);
    }
    meet();
    if (!first) {
        int status = write(go[1], "e", 1) == 1 ? ended(child) : -1;
        step("what was written before the release was read under the lock", status == 0, "case %d", status);
        close(file);
    }
    meet();
    if (first) {
        ends("all is granted when the other machine has released it", locked(file, F_SETLK, F_WRLCK, 0, 100), 0);
        close(file);
    }
    for (int i = 0; i < 2; i++) close(granted[i]), close(go[i]);
}

static void two_flock(int first) {
    int file = open(AT "whole", O_CREAT | O_RDWR, 0666);
    if (first) ends("a file is locked by flock", flock(file, LOCK_EX | LOCK_NB), 0);
    meet();
    if (!first) ends("which the other machine is refused", flock(file, LOCK_EX | LOCK_NB), EAGAIN);
    if (!first) ends("for sharing too", flock(file, LOCK_SH | LOCK_NB), EAGAIN);
    meet();
    if (first) ends("it is unlocked", flock(file, LOCK_UN), 0);
    meet();
    if (!first) ends("it is granted when it is unlocked", flock(file, LOCK_EX | LOCK_NB), 0);
    close(file);
}

/* What one machine has open keeps its bytes when the other removes its name and gives it to another file. */
static void two_open(int first) {
    char bytes[8] = {0};
    int file = first ? open(AT "name", O_CREAT | O_EXCL | O_RDWR, 0666) : -1;
    if (first) step("a file is opened and written", write(file, "mine", 4) == 4 && !fsync(file), "errno %d", errno);
    meet();
    if (!first) {
        ends("the other machine's name is removed", unlink(AT "name"), 0);
        step("and given to another file", put(AT "name", O_CREAT | O_EXCL, "another", 7) == 7, "errno %d", errno);
    }
    meet();
    if (!first) return;
    forget();
    long came = pread(file, bytes, 8, 0);
    step("a file that the other machine removed has its bytes", came == 4 && !memcmp(bytes, "mine", 4), "%ld bytes, errno %d", came, errno);
    step("and is written", pwrite(file, "more", 4, 4) == 4 && !fsync(file), "errno %d", errno);
    holds_bytes("its name is another file's", AT "name", "another", 7);
    ends("it is closed", close(file), 0);
}

/* What one has closed the other opens: in turns, and as many bytes each time, with nothing said of caches. */
static void two_write(int first) {
    char text[16];
    for (int round = 0; round < 6; round++) {
        snprintf(text, sizeof text, "letter %d", round);
        if (round % 2 == !first) step("a file is written and closed", put(AT "letter", O_CREAT, text, 8) == 8, "errno %d", errno);
        meet();
        if (round % 2 == first) holds_bytes("what the other machine closed is read", AT "letter", text, 8);
    }
}

/* Both make names in one directory, rename their own and the other's, and see it all. */
static void two_make(int first) {
    char path[64], to[64], mine = first ? 'a' : 'b', others = first ? 'b' : 'a';
    struct stat a;
    int made = 0, moved = 0;
    if (first) ends("a directory for both is made", mkdir(AT "both", 0777), 0);
    meet();
    for (int i = 0; i < EACH; i++) {
        snprintf(path, sizeof path, AT "both/%c%02d", mine, i);
        snprintf(to, sizeof to, AT "both/moved-%c%02d", mine, i);
        made += put(path, O_CREAT | O_EXCL, &mine, 1) == 1;
        moved += i % 2 && !rename(path, to);
    }
    step("files are made beside the other machine's, and half of them renamed", made == EACH && moved == EACH / 2, "%d and %d", made, moved);
    meet();
    for (int i = 0; i < 2 * EACH; i++) snprintf(names[i], sizeof names[i], i % 2 ? "moved-%c%02d" : "%c%02d", "ab"[i / EACH], i % EACH);
    int seen = listed(AT "both", 2 * EACH);
    step("both machines' names are listed, each once", seen == 2 * EACH, "%d", seen);
    meet();
    moved = 0;
    for (int i = 0; i < EACH; i += 2) {
        snprintf(path, sizeof path, AT "both/%c%02d", others, i);
        snprintf(to, sizeof to, AT "both/taken-%c%02d", others, i);
        moved += !rename(path, to);
    }
    step("the other machine's are renamed", moved == EACH / 2, "%d", moved);
    meet();
    for (int i = 0; i < 2 * EACH; i += 2) snprintf(names[i], sizeof names[i], "taken-%c%02d", "ab"[i / EACH], i % EACH);
    seen = listed(AT "both", 2 * EACH);
    step("and both are listed so", seen == 2 * EACH, "%d", seen);
    snprintf(path, sizeof path, AT "both/%c00", mine);
    ends("an own name that the other machine took is gone", stat(path, &a), ENOENT);
    snprintf(path, sizeof path, AT "both/taken-%c00", mine);
    holds_bytes("and its file has the other name", path, &mine, 1);
    meet();
}

/* Both make the same names and rename the same files at the same time: each is one machine's alone. */
static void two_race(int first) {
    char path[64], to[64], mine = first ? 'a' : 'b';
    int made = 0, moved = 0, wrong = 0;
    for (int i = 0; i < EACH && first; i++) {
        snprintf(path, sizeof path, AT "both/prize%02d", i);
        wrong += put(path, O_CREAT | O_EXCL, "p", 1) != 1;
    }
    meet();
    for (int i = 0; i < EACH; i++) {
        snprintf(path, sizeof path, AT "both/race%02d", i);
        long size = put(path, O_CREAT | O_EXCL, &mine, 1);
        made += size == 1;
        wrong += size != 1 && errno != EEXIST;
        snprintf(path, sizeof path, AT "both/prize%02d", i);
        snprintf(to, sizeof to, AT "both/%c-has%02d", mine, i);
        int came = rename(path, to);
        moved += !came;
        wrong += came && errno != ENOENT;
    }
    step("each name that both make, and each file that both rename, is this machine's or the other's", !wrong, "%d were neither, errno %d", wrong, errno);
    printf("note: made %d and renamed %d of %d\n", made, moved, EACH);
    meet();
    for (int i = 0; i < EACH; i++) {
        snprintf(path, sizeof path, AT "both/race%02d", i);
        wrong += taken(path) != 1 || (got[0] != 'a' && got[0] != 'b');
        made -= got[0] == mine;
        snprintf(path, sizeof path, AT "both/a-has%02d", i);
        snprintf(to, sizeof to, AT "both/b-has%02d", i);
        int is_a = taken(path) == 1, is_b = taken(to) == 1;
        wrong += is_a + is_b != 1;
        moved -= first ? is_a : is_b;
    }
    step("each has the byte of one machine, and one new name", !wrong, "%d have not", wrong);
    step("as many are this machine's as it was told", !made && !moved, "%d more were told to be made, %d to be renamed", made, moved);
    int went = added(AT "both/number", EACH);
    step("a number is counted up under a lock", !went, "case %d, errno %d", went, errno);
    meet();
    holds_bytes("and has what both counted", AT "both/number", "000040\n", 7);
}

/* The first machine ends without a word, with a lock that it has just used. */
static void first_is_killed(int first) {
    if (!first) {
        meet();
        ask("kill");
        anothers_lock();
        holds_bytes("what was written under the lock is read", AT "held", "\0\0\0left", 7);
        return;
    }
    int file = open(AT "held", O_CREAT | O_RDWR, 0666);
    ends("bytes 3 to 9 of a file are locked", locked(file, F_SETLK, F_WRLCK, 3, 7), 0);
    ask("renew");
    step("and written", pwrite(file, "left", 4, 3) == 4 && !fsync(file), "errno %d", errno);
    printf("done %d\n", steps);
    meet();
    ask("stay");
}

static void two_machines(int first) {
    meet();
    two_lock(first);
    two_flock(first);
    two_open(first);
    two_write(first);
    two_make(first);
    two_race(first);
    first_is_killed(first);
}

static void lease_runs_out(void) {
    char bytes[8] = {0};
    struct stat a;
    int kept = open(AT "kept", O_CREAT | O_RDWR, 0600), held = open(AT "held", O_CREAT | O_RDWR, 0600);
    step("two files are opened", kept >= 0 && held >= 0, "errno %d", errno);
    ends("one is written", write(kept, "before", 6) == 6 ? fsync(kept) : -1, 0);
    ends("the other is locked", locked(held, F_SETLK, F_WRLCK, 0, 10), 0);
    step("and written under its lock", write(held, "locked", 6) == 6 && !fsync(held), "errno %d", errno);
    ask("stall");
    ends("names are looked up again", stat(AT "kept", &a), 0);
    ends("a directory is made", mkdir(AT "after", 0755), 0);
    forget();
    step("the open file is read", pread(kept, bytes, 6, 0) == 6 && !memcmp(bytes, "before", 6), "errno %d, '%.6s'", errno, bytes);
    ends("and written", pwrite(kept, "after!", 6, 0) == 6 ? fsync(kept) : -1, 0);
    long wrote = pwrite(held, "LOCKED", 6, 0);
    int error = wrote == 6 && !fsync(held) ? 0 : errno;
    step("a write under the lost lock is refused", error == EIO, "errno %d (%s)", error, strerror(error));
    close(held);
    ends("the open file is closed", close(kept), 0);
    forget();
    holds_bytes("it has what was written", AT "kept", "after!", 6);
    holds_bytes("the other what was written while its lock stood", AT "held", "locked", 6);
    int again = open(AT "held", O_RDWR);
    ends("it can be locked anew", locked(again, F_SETLK, F_WRLCK, 0, 10), 0);
    step("and written", write(again, "anew!!", 6) == 6 && !fsync(again), "errno %d", errno);
    ends("and closed", close(again), 0);
}

/* The server ends and starts anew, under another instance and with an empty tree. */
static void server_restarts(char *options) {
    char bytes[8];
    struct stat a;
    int kept = open(AT "kept", O_CREAT | O_RDWR | O_DIRECT, 0600);
    step("a file is opened and written", kept >= 0 && write(kept, "before", 6) == 6 && !fsync(kept), "errno %d", errno);
    ask("restart");
    forget();
    ends("a name is of a filehandle that is stale", stat(AT "kept", &a), ESTALE);
    ends("and so is the root", mkdir(AT "new", 0755), ESTALE);
    long came = pread(kept, bytes, 6, 0);
    step("the open file is not read", came < 0, "%ld bytes", came);
    printf("note: the open file answers %s\n", strerror(errno));
    close(kept);
    unmounted();
    mounted(options);
    ends("and is empty", stat(AT "kept", &a), ENOENT);
    ends("a directory is made", mkdir(AT "new", 0755), 0);
}

/* What the machine lacks is told, and then there is nothing to judge. */
static int unfit(const char *what) {
    printf("unfit: %s: %s\n", what, strerror(errno));
    return 0;
}

static int modules_loaded(void) {
    char path[128];
    FILE *list = fopen("/modules", "r");
    if (!list) return unfit("/modules");
    while (fscanf(list, "%127s", path) == 1) {
        int file = open(path, O_RDONLY);
        if (file < 0 || (syscall(SYS_finit_module, file, "", 0) && errno != EEXIST)) return unfit(path);
        close(file);
    }
    fclose(list);
    return 1;
}

/* 10.0.2.15 of QEMU's user-mode network, whose 10.0.2.2 is the host's loopback. */
static int network_up(void) {
    struct ifreq r;
    struct sockaddr_in *addr = (struct sockaddr_in *)&r.ifr_addr;
    int s = socket(AF_INET, SOCK_DGRAM, 0);
    const char *names[] = {"lo", "eth0"}, *addrs[] = {"127.0.0.1", "10.0.2.15"}, *masks[] = {"255.0.0.0", "255.255.255.0"};
    for (int i = 0; i < 2; i++) {
        memset(&r, 0, sizeof r);
        strcpy(r.ifr_name, names[i]);
        addr->sin_family = AF_INET;
        inet_pton(AF_INET, addrs[i], &addr->sin_addr);
        if (ioctl(s, SIOCSIFADDR, &r)) return unfit(names[i]);
        inet_pton(AF_INET, masks[i], &addr->sin_addr);
        ioctl(s, SIOCSIFNETMASK, &r);
        r.ifr_flags = IFF_UP | IFF_RUNNING;
        if (ioctl(s, SIOCSIFFLAGS, &r)) return unfit(names[i]);
    }
    close(s);
    return 1;
}

static void beat(void) {
    if (fork()) return;
    while (write(1, "beat\n", 5) == 5) sleep(1);
    _exit(0);
}

/* Mounts, takes the steps of a part, and unmounts. */
static void play(const char *part, int first, char *options) {
    if (!strcmp(part, "plain")) ask("lock");
    if (!strcmp(part, "machines")) meet();
    double begun = now();
    if (!mounted(options)) return;
    printf("note: mounted in %.1f s\n", now() - begun);
    kernel_shows(options);
    if (!strcmp(part, "plain")) anothers_lock();
    if (!strcmp(part, "plain") || !strcmp(part, "command") || !strcmp(part, "several") || !strcmp(part, "cut")) files_and_names();
    if (!strcmp(part, "plain") || !strcmp(part, "several")) users();
    if (!strcmp(part, "plain") || !strcmp(part, "several") || !strcmp(part, "cut")) {
        unlinked_while_open();
        locks();
    }
    if (!strcmp(part, "several")) many_at_once();
    if (!strcmp(part, "two")) two_machines(first);
    if (!strcmp(part, "machines")) among_machines(getenv("host"), atoi(getenv("machines")));
    if (!strcmp(part, "cut")) over_cuts();
    if (!strcmp(part, "database")) database();
    if (!strcmp(part, "mounts")) two_mounts(options);
    if (!strcmp(part, "servers")) two_servers(options);
    if (getenv("life")) life(getenv("life"));
    if (!strcmp(part, "killed")) killed();
    if (!strcmp(part, "expired")) lease_runs_out();
    if (!strcmp(part, "unix") || !strcmp(part, "exact")) by_profile(!strcmp(part, "unix"));
    if (!strcmp(part, "random")) random_calls(88);
    if (!strcmp(part, "fsx")) fsx();
    if (!strcmp(part, "restart")) server_restarts(options);
    unmounted();
}

int main(void) {
    const char *part = getenv("part"), *host = getenv("host"), *options = getenv("options");
    char given[256];
    struct utsname kernel;
    umask(022);
    mkdir("/proc", 0755);
    mkdir("/mnt", 0755);
    mount("proc", "/proc", "proc", 0, "");
    beat();
    if (part && host && options && !sethostname(host, strlen(host)) && modules_loaded() && network_up()) {
        uname(&kernel);
        printf("kernel %s\n", kernel.release);
        for (int i = 0; i < LONG; i++) wanted[i] = (unsigned char)(i % 253 ^ i >> 8);
        snprintf(given, sizeof given, "%s", options);
        play(part, !strcmp(host, "first"), given);
        printf("done %d\n", steps);
    }
    fflush(stdout);
    sync();
    reboot(RB_POWER_OFF);
    return 0;
}
