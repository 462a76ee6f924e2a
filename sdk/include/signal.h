/* The types of signal.h; there are no signals. */
#ifndef DELOREAN_SIGNAL_H
#define DELOREAN_SIGNAL_H

#include <delorean/missing.h>
#include_next <signal.h>

#define DELOREAN_NO_SIGNALS DELOREAN_MISSING("there are no signals: let a thread look at a word")
_sig_func_ptr signal(int, _sig_func_ptr) DELOREAN_NO_SIGNALS;
int raise(int) DELOREAN_NO_SIGNALS;
int kill(pid_t, int) DELOREAN_NO_SIGNALS;
int sigaction(int, const struct sigaction *, struct sigaction *) DELOREAN_NO_SIGNALS;
int sigprocmask(int, const sigset_t *, sigset_t *) DELOREAN_NO_SIGNALS;
int sigsuspend(const sigset_t *) DELOREAN_NO_SIGNALS;
int sigwait(const sigset_t *, int *) DELOREAN_NO_SIGNALS;
int pthread_sigmask(int, const sigset_t *, sigset_t *) DELOREAN_NO_SIGNALS;
int pthread_kill(unsigned long, int) DELOREAN_NO_SIGNALS;

#endif
