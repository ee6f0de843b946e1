/* See stddef.h. */
#pragma once
#include <stdint.h>
#define PRId64 __INT64_FMTd__
#define PRIu32 __UINT32_FMTu__
