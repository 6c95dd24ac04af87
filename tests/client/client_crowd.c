/* Of the guest of tests/client/linux: several processes at work while connections are cut, and one of many machines at once. */
#define _GNU_SOURCE
#include <errno.h>
#include <fcntl.h>
#include <signal.h>
#include <stdio.h>
#include <stdlib.h>
#include <string.h>
#include <sys/mman.h>
#include <sys/stat.h>
#include <sys/wait.h>
#include <unistd.h>
#include "client.h"

/* (of many machines: the seconds that a lock is kept, which is longer than their lease, and how often each counts) */
enum { WORKERS = 6, WRITERS = 3, TRANSACTIONS = 30, PATIENCE = 120, KEPT = 40, COUNTED = 3 };

/* How the calls of each process ended, in memory that all share: of the first that went wrong what it was, and its errno. */
struct worker {
    volatile long calls, wrong, added;
    const char *volatile what;
    volatile int error;
};
struct crowd {
    volatile int is_over;
    struct worker workers[WORKERS];
};

static void did(struct worker *w, const char *what, int holds) {
    int error = errno;
    w->calls++;
    if (holds) return;
    if (!w->wrong++) w->what = what, w->error = error;
}

/* Names and files of one process alone: each call has one end, whatever becomes of its reply. What ran twice ends in EEXIST or ENOENT. */
static void one_round(struct worker *w, int who, long round) {
    char made[64], moved[64], link_[64], file[64], other[64];
    snprintf(made, sizeof made, AT "cuts/made%d-%ld", who, round);
    snprintf(moved, sizeof moved, AT "cuts/moved%d-%ld", who, round);
    snprintf(link_, sizeof link_, AT "cuts/moved%d-%ld/link", who, round);
    snprintf(file, sizeof file, AT "cuts/moved%d-%ld/file", who, round);
    snprintf(other, sizeof other, AT "cuts/moved%d-%ld/other", who, round);
    did(w, "mkdir", !mkdir(made, 0700));
    did(w, "rename of a directory", !rename(made, moved));
    did(w, "symlink", !symlink("file", link_));
    int f = open(file, O_CREAT | O_EXCL | O_RDWR, 0600);
    did(w, "open of a new file", f >= 0);
    did(w, "write", write(f, made, sizeof made) == sizeof made);
    did(w, "close", !close(f));
    did(w, "link", !link(file, other));
    did(w, "unlink of a link", !unlink(link_));
    did(w, "rename of a file", !rename(file, link_));
    did(w, "unlink of a file", !unlink(link_));
    did(w, "unlink of its other name", !unlink(other));
    did(w, "rmdir", !rmdir(moved));
}

static void locks_of_a_round(struct worker *w, int file) {
    did(w, "lock", !locked(file, F_SETLK, F_WRLCK, 0, 10));
    did(w, "lock of more", !locked(file, F_SETLK, F_WRLCK, 20, 10));
    did(w, "unlock", !locked(file, F_SETLK, F_UNLCK, 0, 0));
    int went = added(AT "cuts/number", 1);
    did(w, "a number counted up under a lock", !went);
    w->added += !went;
}

static void work(struct crowd *all, int who) {
    char path[64];
    struct worker *w = &all->workers[who];
    snprintf(path, sizeof path, AT "cuts/locked%d", who);
    int file = open(path, O_CREAT | O_RDWR, 0600);
    did(w, "open of a file for locks", file >= 0);
    for (long round = 0; !all->is_over; round++) {
        one_round(w, who, round);
        if (round % 4 == who % 4) locks_of_a_round(w, file);
    }
    did(w, "close of a file for locks", !close(file));
}

/* Waits for a child, which is killed behind so many seconds: whether it ended well. A call that the server never lets succeed keeps its process. */
static int ended_well(pid_t child, int seconds) {
    int status;
    for (double until = now() + seconds; now() < until; usleep(100000))
        if (waitpid(child, &status, WNOHANG) == child) return WIFEXITED(status) && !WEXITSTATUS(status);
    kill(child, SIGKILL);
    waitpid(child, &status, 0);
    return 0;
}

/* Every call of all processes is counted, until the host has seen enough connections cut. */
void over_cuts(void) {
    char number[16];
    long calls = 0, fewest = 0, wrong = 0, stuck = 0, counted = 0;
    pid_t children[WORKERS];
    struct crowd *all = mmap(NULL, sizeof *all, PROT_READ | PROT_WRITE, MAP_SHARED | MAP_ANONYMOUS, -1, 0);
    if (all == MAP_FAILED) exit(1);
    ends("a directory for many processes is made", mkdir(AT "cuts", 0777), 0);
    fflush(stdout);
    for (int i = 0; i < WORKERS; i++) {
        children[i] = fork();
        if (!children[i]) {
            work(all, i);
            _exit(0);
        }
    }
    do sleep(5);
    while (ask("enough"));
    all->is_over = 1;
    for (int i = 0; i < WORKERS; i++) {
        struct worker *w = &all->workers[i];
        stuck += !ended_well(children[i], stuck ? 1 : PATIENCE);
        if (w->wrong) printf("note: process %d: %ld of %ld calls ended wrong, the first of them %s: %s\n", i, w->wrong, w->calls, w->what, strerror(w->error));
        calls += w->calls;
        wrong += w->wrong;
        counted += w->added;
        fewest = i && fewest < w->calls ? fewest : w->calls;
    }
    printf("note: %ld calls of %d processes\n", calls, WORKERS);
    step("every call of many processes over cut connections ended as over whole ones: none ran twice", !wrong, "%ld of %ld", wrong, calls);
    step("each process comes to its end", !stuck, "%ld did not", stuck);
    step("each process made calls", fewest >= 50, "%ld", fewest);
    snprintf(number, sizeof number, "%06ld\n", counted);
    forget();
    holds_bytes("a number counted up under a lock has what all counted", AT "cuts/number", number, 7);
    munmap(all, sizeof *all);
}

/* Runs sqlite3 over a file of the mount, with a text of SQL: its status, and what it said. */
static int asked(char *sql, char *said, size_t size) {
    char *const words[] = {"/usr/bin/sqlite3", "-bail", "-cmd", ".timeout 300000", AT "base", sql, NULL};
    return told_by(words, said, size);
}

static void base_says(const char *name, char *sql, const char *wanted) {
    char said[400];
    int status = asked(sql, said, sizeof said);
    step(name, !status && !strcmp(said, wanted), "status %d, and it said: %s", status, said);
}

/* A database into which several processes write at once: each transaction takes effect once, and the file is whole. */
void database(void) {
    static char sql[TRANSACTIONS * 200];
    char said[400], rows[32];
    pid_t children[WRITERS];
    int wrong = 0;
    base_says("a database is made", "CREATE TABLE rows (who, number, PRIMARY KEY (who, number)); CREATE TABLE counter (n); INSERT INTO counter VALUES (0);", "");
    for (int i = 0; i < WRITERS; i++) {
        fflush(stdout);
        children[i] = fork();
        if (!children[i]) {
            for (int n = 0, at = 0; n < TRANSACTIONS; n++)
                at += snprintf(sql + at, sizeof sql - at, "BEGIN IMMEDIATE; INSERT INTO rows VALUES (%d, %d); UPDATE counter SET n = n + 1; COMMIT;", i, n);
            int status = asked(sql, said, sizeof said);
            if (status) printf("note: process %d: sqlite3 ended with status %d, and it said: %s\n", i, status, said);
            fflush(stdout);
            _exit(status);
        }
    }
    for (int i = 0; i < WRITERS; i++) wrong += ended(children[i]) != 0;
    step("three processes write into it", !wrong, "%d ended wrong", wrong);
    forget();
    snprintf(rows, sizeof rows, "%d|%d;", WRITERS * TRANSACTIONS, WRITERS * TRANSACTIONS);
    base_says("each row is there once, and was counted once", "SELECT (SELECT count(*) FROM rows), n FROM counter;", rows);
    base_says("its integrity check", "PRAGMA integrity_check;", "ok;");
}

/* One of so many machines that have mounted at once: it keeps a lock for longer than a lease, and counts under one that all share. */
void among_machines(const char *host, int machines) {
    char path[64], all[16];
    ssize_t long_ = strlen(host);
    snprintf(path, sizeof path, AT "of-%s", host);
    int file = open(path, O_CREAT | O_EXCL | O_RDWR, 0600);
    ends("it locks a file of its own", file < 0 ? -1 : locked(file, F_SETLK, F_WRLCK, 0, 10), 0);
    int wrong = added(AT "number", COUNTED);
    step("it counts under a lock that all share", !wrong, "case %d", wrong);
    ask("meet");
    ask("count");
    sleep(KEPT);
    step("it writes what it has locked still", pwrite(file, host, long_, 0) == long_ && !fsync(file), "errno %d", errno);
    ends("and closes it", close(file), 0);
    ask("meet");
    forget();
    snprintf(all, sizeof all, "%06d\n", machines * COUNTED);
    holds_bytes("each has counted", AT "number", all, 7);
}
