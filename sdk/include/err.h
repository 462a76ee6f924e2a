/* err.h. A program has no name that these messages could begin with. */
#ifndef DELOREAN_ERR_H
#define DELOREAN_ERR_H

#include <delorean/missing.h>
#include <stdarg.h>

#define DELOREAN_NO_NAME DELOREAN_MISSING("a program has no name here: take fprintf to stderr, and exit")
void err(int, const char *, ...) DELOREAN_NO_NAME;
void errx(int, const char *, ...) DELOREAN_NO_NAME;
void warn(const char *, ...) DELOREAN_NO_NAME;
void warnx(const char *, ...) DELOREAN_NO_NAME;
void verr(int, const char *, va_list) DELOREAN_NO_NAME;
void verrx(int, const char *, va_list) DELOREAN_NO_NAME;
void vwarn(const char *, va_list) DELOREAN_NO_NAME;
void vwarnx(const char *, va_list) DELOREAN_NO_NAME;

#endif
