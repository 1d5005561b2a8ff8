/* As stdint.h beside it. */
#ifndef PLAIN_STDDEF_H
#define PLAIN_STDDEF_H

typedef __SIZE_TYPE__ size_t;
#define NULL ((void *)0)

#endif
