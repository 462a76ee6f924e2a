/* Runs in which threads change at random, only to find words that are shared or places' before the search begins. */
#ifndef SCOUTS_H
#define SCOUTS_H

#include "run.h"

/* Until many one after another have no news, or so many seconds are over. For tests: how many. */
void set_scouts(int idle_runs);
void send_scouts(struct run *r, double seconds);
double now_seconds(void);

#endif
