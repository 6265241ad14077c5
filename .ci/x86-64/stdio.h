#pragma once
#include <stddef.h>
typedef struct stream FILE;
extern FILE *stdin;
char *fgets(char *line, int size, FILE *from);
int printf(const char *format, ...) __attribute__((format(printf, 1, 2)));
int sscanf(const char *text, const char *format, ...) __attribute__((format(scanf, 2, 3)));
