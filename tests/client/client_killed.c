/* Of the guest of tests/client/linux: processes that are killed while their calls wait for replies, and what others do behind them. */
#define _GNU_SOURCE
#include <errno.h>
#include <signal.h>
#include <stdio.h>
#include <stdlib.h>
#include <sys/stat.h>
#include <sys/wait.h>
#include <unistd.h>
#include "client.h"

enum { KILLED = 4, ROUNDS = 12 };

static void makes_names(int round, int who) {
    char name[64];
    for (long n = 0;; n++) {
        snprintf(name, sizeof name, AT "killed/%d-%d-%ld", round, who, n);
        mkdir(name, 0700);
        rmdir(name);
    }
}

/* Kills processes whose calls wait, and then makes, renames and removes six directories: how many of the six went wrong, with the first errno. */
static long one_round(int round, long *error) {
    char name[64], moved[64];
    pid_t children[KILLED];
    long wrong = 0;
    fflush(stdout);
    for (int i = 0; i < KILLED; i++)
        if (!(children[i] = fork())) makes_names(round, i);
    usleep(300000);
    ask("silence");
    usleep(700000);
    for (int i = 0; i < KILLED; i++) kill(children[i], SIGKILL), waitpid(children[i], NULL, 0);
    for (int i = 0; i < 6; i++) {
        snprintf(name, sizeof name, AT "killed/own%d-%d", round, i);
        snprintf(moved, sizeof moved, AT "killed/moved%d-%d", round, i);
        int holds = !mkdir(name, 0700) && !rename(name, moved) && !rmdir(moved);
        if (!holds && !wrong++ && !*error) *error = errno;
    }
    return wrong;
}

/* What the others make has one end each, though the slots of their calls were given up. It goes on until the host has seen that they were. */
void killed(void) {
    long wrong = 0, error = 0;
    int round = 0;
    ends("a directory for processes that are killed is made", mkdir(AT "killed", 0777), 0);
    do
        for (int end = round + ROUNDS; round < end; round++) wrong += one_round(round, &error);
    while (ask("enough"));
    step("what others do behind processes that were killed ends as ever", !wrong, "%ld of them, errno %ld", wrong, error);
}
