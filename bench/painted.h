/* The stack that a call needs, measured on a painted stack of its own. */
#ifndef PAINTED_H
#define PAINTED_H

#include <stddef.h>

/* The deepest byte that lost its paint, counted from the top of a stack of so many bytes; the most of
 * two runs on two paints, as a call may leave a byte like one. Below the stack lies a page without
 * access, so a call that needs more ends the program with a fault. */
size_t painted_depth(void (*call)(void), size_t stack_size);

#endif
