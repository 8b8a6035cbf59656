#ifndef BOARD_H
#define BOARD_H
#include <stddef.h>
#include <stdint.h>

/* Writes bytes where the debugger or the emulator shows them. */
void board_write(const char *bytes, size_t count);
/* Calls a function on the stack that ends below `top`, a multiple of 16. */
void board_call(void (*call)(void), void *top);

#endif
