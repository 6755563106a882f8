/* What the tests on other processors have of theirs in common. */
#ifndef TARGETS_H
#define TARGETS_H

#include <stdint.h>

void say(const char *text);
void say_hex(uint32_t number);

void lives(void);

#endif
