/* For a compiler that comes without its own headers, as the toolchain's clang does: the types that boltclover.h wants. Not to be used
   where the compiler has a stdint.h. */
#ifndef PLAIN_STDINT_H
#define PLAIN_STDINT_H

typedef __UINT8_TYPE__ uint8_t;
typedef __UINT16_TYPE__ uint16_t;
typedef __UINT32_TYPE__ uint32_t;
typedef __UINT64_TYPE__ uint64_t;
typedef __UINTPTR_TYPE__ uintptr_t;

#endif
