/* unistd.h, with standard input and output, and without files and other processes. */
#ifndef DELOREAN_UNISTD_H
#define DELOREAN_UNISTD_H

#include <delorean/missing.h>
#include_next <unistd.h>

#define DELOREAN_ONE_PROCESS DELOREAN_MISSING("there is one process: take threads")
#define DELOREAN_NO_FILE DELOREAN_MISSING("there are no files: 0 reads the plan's input, and 1 is the console")
pid_t fork(void) DELOREAN_ONE_PROCESS;
pid_t vfork(void) DELOREAN_ONE_PROCESS;
int execv(const char *, char *const *) DELOREAN_ONE_PROCESS;
int execve(const char *, char *const *, char *const *) DELOREAN_ONE_PROCESS;
int execvp(const char *, char *const *) DELOREAN_ONE_PROCESS;
int execl(const char *, const char *, ...) DELOREAN_ONE_PROCESS;
int execlp(const char *, const char *, ...) DELOREAN_ONE_PROCESS;
int pipe(int[2]) DELOREAN_MISSING("there is one process: let threads share memory");
int dup(int) DELOREAN_NO_FILE;
int dup2(int, int) DELOREAN_NO_FILE;
int unlink(const char *) DELOREAN_NO_FILE;
int access(const char *, int) DELOREAN_NO_FILE;
off_t lseek(int, off_t, int) DELOREAN_NO_FILE;
unsigned alarm(unsigned) DELOREAN_MISSING("there are no signals: let a thread look at the clock");
int pause(void) DELOREAN_MISSING("there are no signals: let a thread look at a word");
#ifdef _GNU_SOURCE
pid_t gettid(void) DELOREAN_MISSING("threads have no numbers of a system: take pthread_self");
#endif

#endif
