/* See stddef.h. */
#pragma once
#include <stddef.h>
typedef struct file FILE;
extern FILE *stderr;
int printf(const char *format, ...);
int fprintf(FILE *file, const char *format, ...);
