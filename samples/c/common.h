/* What both programs need: a file's bytes. */
#ifndef COMMON_H
#define COMMON_H

#include "thorin.h"
#include <stdio.h>
#include <stdlib.h>

/* Reads a whole file; ends the program where it can't. */
static thorin_bytes read_file(const char *path) {
  FILE *file = fopen(path, "rb");
  if (!file || fseek(file, 0, SEEK_END) != 0) {
    perror(path);
    exit(1);
  }
  long size = ftell(file);
  rewind(file);
  uint8_t *bytes = malloc(size > 0 ? (size_t)size : 1);
  if (size < 0 || !bytes || fread(bytes, 1, (size_t)size, file) != (size_t)size) {
    perror(path);
    exit(1);
  }
  fclose(file);
  thorin_bytes whole = {bytes, (size_t)size};
  return whole;
}

/* Prints what a status means, and a line's end. */
static void print_status(FILE *to, int32_t status) {
  uint8_t text[64];
  size_t size = thorin_status_text(status, text, sizeof text);
  fprintf(to, "%.*s\n", (int)(size < sizeof text ? size : sizeof text), (const char *)text);
}

#endif
