#pragma once
#include <stddef.h>
int strcmp(const char *a, const char *b);
void *memset(void *to, int byte, size_t count);
