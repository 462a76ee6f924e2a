/* reorder3.c with four setters: each may be anywhere when the checker looks. The bug is in line 37 of reorder3.c. */
#define SETTERS 4
#include "reorder3.c"
