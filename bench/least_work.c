/* What any packer does at least, to measure beside packers: reads each input into one buffer that is used again, appends
   a part of it to memory that grows, and writes that in one go.

       cc -O2 -o least_work least_work.c
       least_work PERCENT -o OUT INPUT..

   PERCENT is how much of the inputs' bytes their package has. */
#include <fcntl.h>
#include <stdio.h>
#include <stdlib.h>
#include <string.h>
#include <sys/stat.h>
#include <unistd.h>

static void *made(void *memory) {
  if (!memory) exit(1);
  return memory;
}

int main(int argc, char **argv) {
  if (argc < 5) {
    fprintf(stderr, "usage: least_work PERCENT -o OUT INPUT..\n");
    return 2;
  }
  double part = atof(argv[1]) / 100;
  char *room = NULL, *out = NULL;
  size_t size = 0, length = 0, capacity = 0;
  for (int i = 4; i < argc; i++) {
    struct stat found;
    int file = open(argv[i], O_RDONLY);
    if (file < 0 || fstat(file, &found)) return 1;
    if ((size_t)found.st_size > size) {
      free(room);
      size = found.st_size;
      room = made(malloc(size));
    }
    size_t at = 0;
    for (ssize_t got; at < (size_t)found.st_size && (got = read(file, room + at, found.st_size - at)) > 0;) at += got;
    close(file);
    size_t kept = at * part;
    if (capacity < length + kept) {
      capacity = 2 * capacity > length + kept ? 2 * capacity : length + kept;
      out = made(realloc(out, capacity));
    }
    memcpy(out + length, room, kept);
    length += kept;
  }
  int file = open(argv[3], O_WRONLY | O_CREAT | O_TRUNC, 0644);
  for (size_t at = 0; at < length;) {
    ssize_t wrote = write(file, out + at, length - at);
    if (wrote <= 0) return 1;
    at += wrote;
  }
  return 0;
}
