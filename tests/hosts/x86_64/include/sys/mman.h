/* See stddef.h. The numbers are those of Linux on x86-64. */
#pragma once
#include <stddef.h>
#define PROT_NONE 0
#define PROT_READ 1
#define PROT_WRITE 2
#define MAP_PRIVATE 2
#define MAP_ANONYMOUS 32
#define MAP_FAILED ((void *)-1)
void *mmap(void *at, size_t size, int access, int kind, int file, long offset);
int mprotect(void *at, size_t size, int access);
