/* DELOREAN_MISSING(WHY) after a declaration: whoever calls it is told why it can't be, with the line of the call. */
#ifndef DELOREAN_MISSING_H
#define DELOREAN_MISSING_H

#ifdef __clang__
#define DELOREAN_MISSING(why) __attribute__((unavailable(why)))
#else
#define DELOREAN_MISSING(why) __attribute__((error(why)))
#endif

#endif
