/* stdlib.h, without other processes. */
#ifndef DELOREAN_STDLIB_H
#define DELOREAN_STDLIB_H

#include <delorean/missing.h>
#include_next <stdlib.h>

int system(const char *) DELOREAN_MISSING("there is one process: take threads");
int mkstemp(char *) DELOREAN_MISSING("there are no files");

#endif
