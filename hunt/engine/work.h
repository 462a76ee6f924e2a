/* What the crew has yet to try with the present bound. Each takes some of it, until nothing is left and nobody is at work who might
   give more, or until all are to stop. Whatever isn't tried by then is here again when all have come back. */
#ifndef WORK_H
#define WORK_H

#include "items.h"

/* One who comes to take work. False: this one is to come back. If it waits, `meanwhile` is called now and then. */
bool take_work(struct list *some, void (*meanwhile)(void));
void give_back(const struct list *untried); /* the work that was taken is done, except for these */
void give_work(const uint32_t *items, size_t count);
bool others_want_work(void);
/* All are to stop after their present runs, or may go on. */
void stop_work(void);
void allow_work(void);
bool is_stopped(void);
size_t work_count(void);

/* For whoever is alone, since all have come back. */
struct list *work_left(void);

#endif
