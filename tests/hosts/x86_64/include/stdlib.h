/* See stddef.h. */
#pragma once
#include <stddef.h>
void *malloc(size_t size);
unsigned long strtoul(const char *text, char **end, int base);
void exit(int status);
