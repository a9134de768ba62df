/* For compilers that come without their headers: x86-64 only. */
#ifndef DRIVER_STDDEF_H
#define DRIVER_STDDEF_H
typedef __SIZE_TYPE__ size_t;
#define NULL ((void *)0)
#endif
