/* What linkbox.h needs of <stdint.h>, for a compiler that comes without headers. */
#ifndef LINKBOX_TEST_STDINT_H
#define LINKBOX_TEST_STDINT_H
typedef __UINT8_TYPE__ uint8_t;
typedef __UINT32_TYPE__ uint32_t;
typedef __INT64_TYPE__ int64_t;
typedef __UINT64_TYPE__ uint64_t;
#define INT64_MAX __INT64_MAX__
#endif
