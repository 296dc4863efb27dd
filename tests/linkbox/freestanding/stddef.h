/* What linkbox.h needs of <stddef.h>, for a compiler that comes without headers. */
#ifndef LINKBOX_TEST_STDDEF_H
#define LINKBOX_TEST_STDDEF_H
typedef __SIZE_TYPE__ size_t;
#define offsetof(type, member) __builtin_offsetof(type, member)
#ifdef __cplusplus
#define NULL 0
#else
#define NULL ((void *)0)
#endif
#endif
