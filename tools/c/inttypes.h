#ifndef INTTYPES_H
#define INTTYPES_H
#include <stdint.h>
#define PRId32 "d"
#define PRIu32 "u"
#define PRIx32 "x"
#define PRIX32 "X"
#define PRId64 "ld"
#define PRIu64 "lu"
#define PRIx64 "lx"
#define PRIX64 "lX"
#define SCNu32 "u"
#define SCNx32 "x"
#define SCNu64 "lu"
#define SCNx64 "lx"
#endif
