/* The constants of fcntl.h; there are no files. */
#ifndef DELOREAN_FCNTL_H
#define DELOREAN_FCNTL_H

#include <delorean/missing.h>
#include_next <fcntl.h>

int open(const char *, int, ...) DELOREAN_MISSING("there are no files: 0 reads the plan's input, and 1 is the console");
int creat(const char *, mode_t) DELOREAN_MISSING("there are no files: 0 reads the plan's input, and 1 is the console");
int fcntl(int, int, ...) DELOREAN_MISSING("there are no files: 0 reads the plan's input, and 1 is the console");

#endif
