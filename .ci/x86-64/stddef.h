/* These few headers stand in for a C library's: with them .ci/link compiles the example by the Rattle toolchain's own compiler, which
 * brings none. They declare what examples/monitor.c uses, as the C library of x86-64 Linux has it, and nothing more. */
#pragma once
typedef __SIZE_TYPE__ size_t;
#define NULL ((void *)0)
