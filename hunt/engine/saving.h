/* A search is saved in a file each so many seconds, and if it meets a limit; or it goes on from what was saved there. */
#ifndef SAVING_H
#define SAVING_H

#include <stdbool.h>

void save_in(const char *name, double every);
void resume_from(const char *name);
bool is_to_be_saved(void);
bool is_to_be_resumed(void);
void begin_saving(double now);
bool save_is_due(void);
void save(void);
/* To a whole that has been started over. */
void go_on_from_file(void);

#endif
