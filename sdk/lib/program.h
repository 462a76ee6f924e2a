/* How a program ends, and the console. */
#ifndef DELOREAN_PROGRAM_H
#define DELOREAN_PROGRAM_H

struct thread;
enum { FAILED = 134 }; /* the code of abort and of a failed check, as a shell shows it */

_Noreturn void _exit(int status);
_Noreturn void __fail(const char *what, const char *rest);
void __put(const char *text, unsigned length);
void __mark_stack(struct thread *);
void __check_stack(struct thread *);

#endif
