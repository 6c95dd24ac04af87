/* Of the guest of tests/client/linux: what RFC 8881 leaves to the server, and POSIX does not. It goes by the server's profile. */
#define _GNU_SOURCE
#include <dirent.h>
#include <errno.h>
#include <fcntl.h>
#include <ftw.h>
#include <grp.h>
#include <stdio.h>
#include <stdlib.h>
#include <string.h>
#include <sys/mount.h>
#include <sys/stat.h>
#include <sys/statvfs.h>
#include <sys/wait.h>
#include <time.h>
#include <unistd.h>
#include "client.h"

enum { CALLS = 2000, ROUNDS = 50, RAN = 42, MORE = 10, KINDS = 64, PAGE = 4096, BLOCK = 65536, FAR = 1000000, MEMORY = 64 << 20 };

static int is_unix;

/* A program of the machine's own, which ends with status 42. */
static const unsigned char PROGRAM[] = {
    0x7f, 'E', 'L', 'F', 2, 1, 1, 0, 0, 0, 0, 0, 0, 0, 0, 0, 2, 0, 62, 0, 1, 0, 0, 0, 0x78, 0, 0x40, 0, 0, 0, 0, 0, 64, 0, 0, 0, 0, 0, 0, 0,
    0, 0, 0, 0, 0, 0, 0, 0, 0, 0, 0, 0, 64, 0, 56, 0, 1, 0, 0, 0, 0, 0, 0, 0, 1, 0, 0, 0, 5, 0, 0, 0, 0, 0, 0, 0, 0, 0, 0, 0,
    0, 0, 0x40, 0, 0, 0, 0, 0, 0, 0, 0x40, 0, 0, 0, 0, 0, 0x84, 0, 0, 0, 0, 0, 0, 0, 0x84, 0, 0, 0, 0, 0, 0, 0, 0, 0x10, 0, 0, 0, 0, 0, 0,
    0xbf, RAN, 0, 0, 0, 0xb8, 60, 0, 0, 0, 0x0f, 0x05};

/* What a user of one further group does, in a process of its own: the errno, or 0. */
static int by(uid_t user, gid_t group, gid_t further, long (*act)(const char *, long), const char *path, long value) {
    fflush(stdout);
    pid_t child = fork();
    if (!child) {
        if (setgroups(1, &further) || setgid(group) || setuid(user)) _exit(255);
        _exit(act(path, value) < 0 ? errno : 0);
    }
    return ended(child);
}

static long writes(const char *path, long value) {
    int file = open(path, O_WRONLY);
    return file < 0 || write(file, "x", value) != value || fsync(file) ? -1 : close(file);
}

static long reads(const char *path, long value) {
    (void)value;
    int file = open(path, O_RDONLY);
    return file < 0 ? -1 : close(file);
}

static long cuts(const char *path, long value) {
    return truncate(path, value);
}

static long regroups(const char *path, long value) {
    return chown(path, -1, value);
}

static long changes_mode(const char *path, long value) {
    return chmod(path, value);
}

static long makes_file(const char *path, long value) {
    int file = open(path, O_CREAT | O_EXCL | O_WRONLY, value);
    return file < 0 ? -1 : close(file);
}

static long makes_directory(const char *path, long value) {
    return mkdir(path, value);
}

static long runs(const char *path, long value) {
    (void)value;
    return execl(path, path, (char *)NULL);
}

/* A file of an owner, a group and a mode, as user 0 makes it. */
static const char *made(const char *path, uid_t owner, gid_t group, mode_t mode) {
    if (put(path, O_CREAT, PROGRAM, sizeof PROGRAM) != sizeof PROGRAM || chown(path, owner, group) || chmod(path, mode))
        printf("note: %s is not made: errno %d (%s)\n", path, errno, strerror(errno));
    return path;
}

static void has_mode(const char *name, const char *path, mode_t in_unix, mode_t in_exact) {
    struct stat a = {0};
    mode_t mode = is_unix ? in_unix : in_exact;
    forget();
    step(name, !stat(path, &a) && (a.st_mode & 07777) == mode, "%o, wanted %o", a.st_mode & 07777, mode);
}

static void comes_to(const char *name, int came, int in_unix, int in_exact) {
    int wants = is_unix ? in_unix : in_exact;
    step(name, came == wants, "%d (%s), wanted %d", came, strerror(came), wants);
}

static void bits_of_modes(void) {
    comes_to("another user writes a file with set-user-ID", by(1000, 1000, 1000, writes, made(AT "bits1", 0, 0, 04777), 1), 0, 0);
    has_mode("its bit goes by the profile", AT "bits1", 0777, 04777);
    comes_to("and one with set-group-ID", by(1000, 1000, 1000, writes, made(AT "bits2", 0, 0, 02777), 1), 0, 0);
    has_mode("its bit goes by the profile", AT "bits2", 0777, 02777);
    comes_to("and cuts one with both", by(1000, 1000, 1000, cuts, made(AT "bits3", 0, 0, 06777), 1), 0, 0);
    has_mode("its bits go by the profile", AT "bits3", 0777, 06777);
    comes_to("user 0 writes one with both", by(0, 0, 0, writes, made(AT "bits4", 0, 0, 06777), 1), 0, 0);
    has_mode("which stay", AT "bits4", 06777, 06777);
    comes_to("an owner changes the group", by(1000, 1000, 2000, regroups, made(AT "bits5", 1000, 1000, 04755), 2000), 0, 0);
    has_mode("set-user-ID goes by the profile", AT "bits5", 0755, 04755);
    ends("user 0 changes an owner", chown(made(AT "bits6", 0, 0, 06755), 1001, -1), 0);
    has_mode("both bits go by the profile", AT "bits6", 0755, 06755);
    made(AT "bits7", 1000, 3000, 0755);
    comes_to("an owner who is not in the group sets set-group-ID", by(1000, 1000, 1000, changes_mode, AT "bits7", 02755), 0, 0);
    has_mode("which is dropped by the profile", AT "bits7", 0755, 02755);
    comes_to("one who is in it sets it", by(1000, 1000, 3000, changes_mode, made(AT "bits8", 1000, 3000, 0755), 02755), 0, 0);
    has_mode("and has it", AT "bits8", 02755, 02755);
}

static void programs(void) {
    comes_to("whether a program runs that may not be read goes by the profile", by(1000, 1000, 1000, runs, made(AT "run1", 0, 0, 0111), 0), RAN, EACCES);
    comes_to("and whether one of mode 0711 does", by(1000, 1000, 1000, runs, made(AT "run2", 0, 0, 0711), 0), RAN, EACCES);
    comes_to("none opens it for reading", by(1000, 1000, 1000, reads, AT "run2", 0), EACCES, EACCES);
    comes_to("and none runs that may not be run", by(1000, 1000, 1000, runs, made(AT "run3", 0, 0, 0644), 0), EACCES, EACCES);
}

static void groups_of_directories(void) {
    struct stat a = {0}, b = {0};
    umask(022);
    step("a directory has set-group-ID", !mkdir(AT "shared", 0777) && !chown(AT "shared", 0, 2000) && !chmod(AT "shared", 02777), "errno %d", errno);
    comes_to("a file is made in it", by(1000, 1000, 1000, makes_file, AT "shared/file", 0644), 0, 0);
    comes_to("and a directory", by(1000, 1000, 1000, makes_directory, AT "shared/directory", 0755), 0, 0);
    forget();
    step("they are there", !stat(AT "shared/file", &a) && !stat(AT "shared/directory", &b), "errno %d", errno);
    comes_to("the file's group goes by the profile", a.st_gid, 2000, 1000);
    comes_to("and the directory's", b.st_gid, 2000, 1000);
    has_mode("and its set-group-ID", AT "shared/directory", 02755, 0755);
}

static int is_later(const struct timespec *a, const struct timespec *b) {
    return b->tv_sec > a->tv_sec || (b->tv_sec == a->tv_sec && b->tv_nsec > a->tv_nsec);
}

static void times(void) {
    struct stat a, b;
    int later = 0, whole = 0, wrong = 0;
    for (int i = 0; i < ROUNDS; i++) {
        wrong += put(AT "source", O_CREAT | O_TRUNC, "s", 1) != 1 || put(AT "target", O_CREAT | O_TRUNC, "t", 1) != 1;
        forget();
        wrong += stat(AT "source", &a) || stat(AT "target", &b);
        later += is_later(&a.st_mtim, &b.st_mtim) && is_later(&a.st_ctim, &b.st_ctim);
        whole += !a.st_mtim.tv_nsec && !b.st_mtim.tv_nsec;
    }
    step("files are written one after the other", !wrong, "%d", wrong);
    if (is_unix) step("what was written later has the later time", later == ROUNDS, "%d of %d", later, ROUNDS);
    else step("times are whole seconds", whole == ROUNDS, "%d of %d", whole, ROUNDS);
}

static void renames(void) {
    struct stat a, b;
    step("two directories are made", !mkdir(AT "one", 0755) && !mkdir(AT "other", 0755), "errno %d", errno);
    ends("and an entry in the second", mkdir(AT "other/in", 0755), 0);
    ends("the first is not moved over the second", rename(AT "one", AT "other"), is_unix ? ENOTEMPTY : EEXIST);
    put(AT "moves", O_CREAT, "m", 1);
    forget();
    stat(AT "moves", &a);
    ends("a file is moved", rename(AT "moves", AT "moved"), 0);
    forget();
    stat(AT "moved", &b);
    comes_to("whether its time of metadata is then later goes by the profile", is_later(&a.st_ctim, &b.st_ctim), 1, 0);
}

static void room(void) {
    static char part[BLOCK];
    struct statvfs a, b;
    struct stat hole;
    char path[64];
    forget();
    step("the file system tells its room", !statvfs(AT, &a), "errno %d", errno);
    for (int i = 0; i < MORE; i++) {
        snprintf(path, sizeof path, AT "room%d", i);
        put(path, O_CREAT, part, sizeof part);
    }
    sleep(4);
    step("and once more", !statvfs(AT, &b), "errno %d", errno);
    comes_to("there are as many bytes as the setting memory says, by the profile", a.f_blocks * a.f_frsize, MEMORY, 0);
    comes_to("of which fewer are left by those that were written", (a.f_bavail - b.f_bavail) * a.f_frsize, MORE * BLOCK, 0);
    comes_to("and objects", a.f_files > 0 && a.f_ffree < a.f_files, 1, 0);
    comes_to("of which fewer are left when some were made", a.f_ffree - b.f_ffree, MORE, 0);
    int file = open(AT "hole", O_CREAT | O_WRONLY, 0644);
    step("a byte is written far out", file >= 0 && pwrite(file, "h", 1, FAR) == 1 && !fsync(file) && !close(file), "errno %d", errno);
    forget();
    step("and its file looked at", !stat(AT "hole", &hole) && hole.st_size == FAR + 1, "%ld bytes", (long)hole.st_size);
    comes_to("whether the hole takes room goes by the profile", hole.st_blocks, PAGE / 512, FAR / 512 + 1);
}

/* A file takes all pages that files may have: its writer hears of it, and what is removed makes room. */
static void fills(void) {
    static char part[1 << 20];
    int file = open(AT "full", O_CREAT | O_WRONLY, 0644), came = file < 0 ? errno : 0;
    for (int n = 0; n < 100 && !came; n++) came = write(file, part, sizeof part) != sizeof part || fsync(file) ? errno : 0;
    comes_to("a file that outgrows the setting memory is told so", came, ENOSPC, 0);
    close(file);
    step("it is removed", !unlink(AT "full"), "errno %d", errno);
    step("and there is room", put(AT "small", O_CREAT, part, sizeof part) == sizeof part, "errno %d", errno);
}

/* An open file that lost its name, while its client's lease runs out. */
static void open_without_a_name(void) {
    char bytes[8] = {0};
    int hidden = 0, file = open(AT "nameless", O_CREAT | O_RDWR, 0600);
    step("a file is opened and written", file >= 0 && write(file, "before", 6) == 6 && !fsync(file), "errno %d", errno);
    ends("its name is removed", unlink(AT "nameless"), 0);
    DIR *all = opendir(AT);
    for (struct dirent *e; all && (e = readdir(all));) hidden += !strncmp(e->d_name, ".nfs", 4);
    if (all) closedir(all);
    comes_to("whether the client keeps a name of its own goes by the profile", hidden, 1, 0);
    ask("stall");
    forget();
    long came = pread(file, bytes, 6, 0);
    comes_to("so does whether it is read behind a lease", came == 6 && !memcmp(bytes, "before", 6) ? 0 : errno, 0, ESTALE);
    close(file);
}

void by_profile(int profile_is_unix) {
    is_unix = profile_is_unix;
    bits_of_modes();
    programs();
    groups_of_directories();
    times();
    renames();
    room();
    fills();
    open_without_a_name();
}

/* Random calls of three users, each made over the mount and in the machine's own memory: what each came to, and what is there behind it. */

struct user { uid_t uid; gid_t gid; gid_t groups[2]; };
static const struct user USERS[] = {{0, 0, {0, 0}}, {1000, 1000, {1000, 2000}}, {1001, 1001, {1001, 2000}}};
static const char *const NAMES[] = {"a", "b", "c", "d", "a/x", "a/y", "b/x", "b/y", "a/x/u", "b/x/u"};
static const mode_t MODES[] = {0644, 0600, 0666, 0755, 0711, 0111, 0, 0700, 0777, 04755, 02755, 06777, 01777, 02777};
static const gid_t GROUPS[] = {0, 1000, 1001, 2000};
static const char *const OPS[] = {"make", "read", "write", "cut", "chmod", "chgrp", "chown", "mkdir", "rmdir", "unlink", "rename", "link", "symlink",
                                  "readlink", "list", "touch", "date"};
enum { MAKE, READ, WRITE, CUT, CHMOD, CHGRP, CHOWN, MKDIR, RMDIR, UNLINK, RENAME, LINK, SYMLINK, READLINK, LIST, TOUCH, DATE, ALL };
#define OF(list) (sizeof(list) / sizeof *(list))

struct call { int op; const struct user *who; const char *path, *other; mode_t mode; long number; };

static long opens(const char *path, int flags, mode_t mode, int puts) {
    char bytes[16];
    int file = open(path, flags, mode);
    if (file < 0) return -1;
    long came = puts < 0 ? read(file, bytes, sizeof bytes) : puts ? write(file, "sixteen bytes...", puts) : 0;
    int error = errno;
    if (close(file) && came >= 0) return -1;
    errno = error;
    return came;
}

static long called(const struct call *c, const char *path, const char *other) {
    char text[64];
    const struct timespec given[2] = {{1000, 0}, {c->number, 0}};
    switch (c->op) {
    case MAKE: return opens(path, O_CREAT | O_WRONLY, c->mode, c->number % 16);
    case READ: return opens(path, O_RDONLY, 0, -1);
    case WRITE: return opens(path, O_WRONLY, 0, 1 + c->number % 16);
    case CUT: return truncate(path, c->number % 16);
    case CHMOD: return chmod(path, c->mode);
    case CHGRP: return chown(path, -1, GROUPS[c->number % OF(GROUPS)]);
    case CHOWN: return chown(path, USERS[c->number % OF(USERS)].uid, -1);
    case MKDIR: return mkdir(path, c->mode);
    case RMDIR: return rmdir(path);
    case UNLINK: return unlink(path);
    case RENAME: return rename(path, other);
    case LINK: return link(path, other);
    case SYMLINK: return symlink("b/x", path);
    case READLINK: return readlink(path, text, sizeof text);
    case LIST: return opens(path, O_RDONLY | O_DIRECTORY, 0, 0);
    case TOUCH: return utimensat(AT_FDCWD, path, NULL, AT_SYMLINK_NOFOLLOW);
    default: return utimensat(AT_FDCWD, path, given, AT_SYMLINK_NOFOLLOW);
    }
}

static int result_of(const struct call *c, const char *at) {
    char path[96], other[96];
    snprintf(path, sizeof path, "%s/%s", at, c->path);
    snprintf(other, sizeof other, "%s/%s", at, c->other);
    if (setgroups(2, c->who->groups) || setegid(c->who->gid) || seteuid(c->who->uid)) return 255;
    int came = called(c, path, other) < 0 ? errno : 0;
    if (seteuid(0) || setegid(0) || setgroups(0, NULL)) return 255;
    return came;
}

/* What is there: type and mode, owner, group, size and names, where these are no directory's. */
static void shown(const char *at, const char *name, char *text, size_t size) {
    char path[96];
    struct stat a;
    snprintf(path, sizeof path, "%s/%s", at, name);
    if (lstat(path, &a)) snprintf(text, size, "none");
    else if (S_ISDIR(a.st_mode)) snprintf(text, size, "%o %d %d", a.st_mode, a.st_uid, a.st_gid);
    else snprintf(text, size, "%o %d %d %ld %ld", S_ISLNK(a.st_mode) ? S_IFLNK : a.st_mode, a.st_uid, a.st_gid, (long)a.st_size, (long)a.st_nlink);
}

static int drops(const char *path, const struct stat *a, int kind, struct FTW *at) {
    (void)a, (void)kind, (void)at;
    return remove(path);
}

static void removed(const char *at, const char *name) {
    char path[96];
    snprintf(path, sizeof path, "%s/%s", at, name);
    nftw(path, drops, 8, FTW_DEPTH | FTW_PHYS);
}

/* The kinds of what differs that docs/OPERATING.md has: the operation, and what it came to there and here. Linux's client leaves it to the server to ask
   for write permission of a directory, and looks at what is removed before. */
static const char *const KNOWN[] = {"rmdir 20 for 13", NULL};

static int is_known(const char *kind) {
    for (int i = 0; KNOWN[i]; i++)
        if (!strcmp(KNOWN[i], kind)) return 1;
    return 0;
}

static char kinds[KINDS][64];
static int counts[KINDS], many;

static void counted(const char *kind) {
    int i = 0;
    while (i < many && strcmp(kinds[i], kind)) i++;
    if (i == KINDS) return;
    if (i == many) snprintf(kinds[many++], sizeof kinds[0], "%s", kind);
    counts[i]++;
}

void random_calls(unsigned seed) {
    const char *const there = AT "random", *const here = "/beside";
    int differ = 0, unknown = 0;
    char one[96], two[96], kind[64];
    srandom(seed);
    mkdir(here, 0777);
    ends("the machine has a file system of its own", mount("tmpfs", here, "tmpfs", 0, "mode=1777"), 0);
    step("and a folder on the server's", !mkdir(there, 0777) && !chmod(there, 01777), "errno %d", errno);
    umask(0);
    for (int i = 0; i < CALLS; i++) {
        struct call c = {.op = random() % ALL, .who = &USERS[random() % OF(USERS)], .path = NAMES[random() % OF(NAMES)]};
        c.other = NAMES[random() % OF(NAMES)], c.mode = MODES[random() % OF(MODES)], c.number = random() % 100000;
        int far = result_of(&c, there), near = result_of(&c, here);
        shown(there, c.path, one, sizeof one);
        shown(here, c.path, two, sizeof two);
        if (far == near && !strcmp(one, two)) continue;
        differ++;
        if (far != near) snprintf(kind, sizeof kind, "%s %d for %d", OPS[c.op], far, near);
        else snprintf(kind, sizeof kind, "%s behind", OPS[c.op]);
        counted(kind);
        if (!is_known(kind)) {
            unknown++;
            printf("note: call %d: %s of %s (%s, %o, %ld) by %d: %d for %d; '%s' for '%s'\n", i, OPS[c.op], c.path, c.other, c.mode, c.number,
                   c.who->uid, far, near, one, two);
        }
        removed(there, c.path), removed(here, c.path), removed(there, c.other), removed(here, c.other);
    }
    for (int i = 0; i < many; i++) printf("note: %s: %d\n", kinds[i], counts[i]);
    umask(022);
    step("calls differ from a local file system's in known ways alone", !unknown, "%d of %d, %d differ", unknown, CALLS, differ);
}
