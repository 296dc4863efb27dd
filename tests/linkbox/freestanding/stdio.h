/* What first.c needs of <stdio.h>, for a compiler that comes without headers. */
#ifndef LINKBOX_TEST_STDIO_H
#define LINKBOX_TEST_STDIO_H
int printf(const char *format, ...);
int puts(const char *text);
#endif
