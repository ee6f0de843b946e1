/* What the programs of tests/hosts need of the C library, for the kit's compiler, which has no headers: see
 * tests/hosts.sh. The types are those that the compiler itself says. */
#pragma once
typedef __SIZE_TYPE__ size_t;
#define NULL ((void *)0)
#define offsetof(type, field) __builtin_offsetof(type, field)
