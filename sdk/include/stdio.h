/* Streams: stdin reads the plan's input, stdout and stderr are the console. There are no others. */
#ifndef DELOREAN_STDIO_H
#define DELOREAN_STDIO_H

#include <delorean/missing.h>
#include <stdarg.h>
#include <sys/types.h>
#include_next <stdio.h>

#define DELOREAN_NO_FILES DELOREAN_MISSING("there are no files: stdin reads the plan's input, and stdout is the console")
FILE *fopen(const char *, const char *) DELOREAN_NO_FILES;
FILE *freopen(const char *, const char *, FILE *) DELOREAN_NO_FILES;
FILE *fdopen(int, const char *) DELOREAN_NO_FILES;
FILE *tmpfile(void) DELOREAN_NO_FILES;
char *tmpnam(char *) DELOREAN_NO_FILES;
int remove(const char *) DELOREAN_NO_FILES;
int rename(const char *, const char *) DELOREAN_NO_FILES;
FILE *popen(const char *, const char *) DELOREAN_MISSING("there is one process: take threads");
FILE *open_memstream(char **, size_t *) DELOREAN_MISSING("there are no streams beside stdin, stdout and stderr: take snprintf");
FILE *fmemopen(void *, size_t, const char *) DELOREAN_MISSING("there are no streams beside stdin, stdout and stderr: take sscanf");
void flockfile(FILE *) DELOREAN_MISSING("each call prints as a whole by itself: take a mutex around several");
void funlockfile(FILE *) DELOREAN_MISSING("each call prints as a whole by itself: take a mutex around several");
ssize_t getline(char **, size_t *, FILE *);
ssize_t getdelim(char **, size_t *, int, FILE *);
int dprintf(int, const char *, ...) __attribute__((format(printf, 2, 3)));
int vdprintf(int, const char *, va_list);

#endif
