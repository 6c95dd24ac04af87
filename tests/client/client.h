/* What the files of the guest of tests/client/linux share. */
#include <sys/types.h>

#define AT "/mnt/"

double now(void);
void step(const char *name, int holds, const char *shown, ...);
/* A call that is to succeed, or to fail with this errno. */
void ends(const char *name, long value, int error);
/* Asks the host for something and returns whether it says `again`. */
int ask(const char *word);
/* Waits for a child and returns the status that it ended with. */
int ended(pid_t child);
/* Runs a command: the status that it ended with, and what it said, its lines joined by semicolons, as far as there is room. */
int told_by(char *const words[], char *said, size_t size);
long put(const char *path, int flags, const void *bytes, size_t size);
void holds_bytes(const char *name, const char *path, const void *bytes, long size);
int locked(int file, int how, short kind, long start, long length);
/* Adds one to the number in a file, so many times, each under a lock over all of it: the number of what went wrong, or 0. */
int added(const char *path, int times);
void forget(void);

/* A step that another program took. */
void took_step(void);

/* client_crowd.c */
void over_cuts(void);
void database(void);
void among_machines(const char *host, int machines);

/* client_life.c */
void life(char *what);
void two_mounts(char *options);

/* client_servers.c */
void two_servers(const char *options);

/* client_fsx.c */
void fsx(void);

/* client_killed.c */
void killed(void);

/* client_unix.c */
void by_profile(int profile_is_unix);
void random_calls(unsigned seed);
