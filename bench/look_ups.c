/* look_ups PACKAGE COUNT [CALL]: looks COUNT identifiers of a package up, by their rows alone and as units in one call, and
 * one by one, in a package that is open and in one that is read anew; prints nanoseconds for each, the least of seven rounds,
 * and a sum of what was found. Where a call is named, it is made alone, in one round. */
#include "thorin.h"
#include <fcntl.h>
#include <inttypes.h>
#include <stdio.h>
#include <stdlib.h>
#include <string.h>
#include <sys/stat.h>
#include <time.h>
#include <unistd.h>

static double now(void) {
  struct timespec t;
  clock_gettime(CLOCK_MONOTONIC, &t);
  return (double)t.tv_sec * 1e9 + (double)t.tv_nsec;
}

typedef int32_t look_up_t(const uint8_t *bytes, size_t size, thorin_lookup *lookups, size_t count);

/* Nanoseconds for one call that looks many units up, and the sum. */
static double many(look_up_t *call, const uint8_t *bytes, size_t size, const thorin_name *names, uint64_t units,
                   thorin_lookup *lookups, size_t count, uint64_t *sum) {
  for (size_t i = 0; i < count; i++) {
    lookups[i].id = names[i * 7919 % units].id;
    lookups[i].kind = names[i * 7919 % units].kind;
  }
  double start = now();
  if (call(bytes, size, lookups, count) != THORIN_DONE) exit(1);
  double took = now() - start;
  *sum = 0;
  for (size_t i = 0; i < count; i++)
    if (lookups[i].status == THORIN_DONE) *sum += lookups[i].unit.info.size + lookups[i].unit.str_offsets.size;
  return took;
}

typedef int32_t look_up_in_t(const thorin_package *package, const uint8_t *bytes, size_t size, uint8_t kind, uint64_t id,
                             thorin_unit *found);

/* Nanoseconds for look-ups of compilation units one by one in an open package, and the sum. */
static double one_by_one(look_up_in_t *call, const thorin_package *package, const uint8_t *bytes, size_t size,
                         const uint64_t *ids, uint64_t units, size_t count, uint64_t *sum) {
  double start = now();
  *sum = 0;
  for (size_t i = 0; i < count; i++) {
    thorin_unit unit;
    if (call(package, bytes, size, THORIN_COMPILATION, ids[i * 7919 % units], &unit) == THORIN_DONE)
      *sum += unit.info.size + unit.str_offsets.size;
  }
  return now() - start;
}

/* thorin_find, as the calls over an open package are called. */
static int32_t find_anew(const thorin_package *package, const uint8_t *bytes, size_t size, uint8_t kind, uint64_t id,
                         thorin_unit *found) {
  (void)package;
  return thorin_find(bytes, size, kind, id, found);
}

/* Each call, by many look-ups or one by one. */
static const struct {
  const char *name;
  look_up_t *many;
  look_up_in_t *one;
} calls[] = {{"thorin_find_rows", thorin_find_rows, NULL},
             {"thorin_find_each", thorin_find_each, NULL},
             {"thorin_find_row_in", NULL, thorin_find_row_in},
             {"thorin_find_in", NULL, thorin_find_in},
             {"thorin_find", NULL, find_anew}};

int main(int argc, char **argv) {
  if (argc != 3 && argc != 4) return 2;
  int file = open(argv[1], O_RDONLY);
  struct stat about;
  if (file < 0 || fstat(file, &about) != 0) return 1;
  size_t size = (size_t)about.st_size, count = strtoull(argv[2], NULL, 10);
  /* The file stands in memory, and the identifiers in an array of their own, as in the program for gimli. */
  uint8_t *bytes = malloc(size);
  for (size_t got = 0; bytes && got < size;) {
    ssize_t more = read(file, bytes + got, size - got);
    if (more <= 0) return 1;
    got += (size_t)more;
  }
  uint64_t units = 0;
  if (!bytes || thorin_unit_count(bytes, size, &units) != THORIN_DONE || units == 0) return 1;
  thorin_name *names = calloc(units, sizeof *names);
  thorin_lookup *lookups = calloc(count, sizeof *lookups);
  uint64_t *ids = calloc(units, sizeof *ids);
  if (!names || !lookups || !ids || thorin_list(bytes, size, names, units, &units) != THORIN_DONE) return 1;
  for (uint64_t i = 0; i < units; i++) ids[i] = names[i].id;
  thorin_package package;
  if (thorin_open(bytes, size, &package) != THORIN_DONE) return 1;

  for (size_t i = 0; i < sizeof calls / sizeof *calls; i++) {
    if (argc == 4 && strcmp(argv[3], calls[i].name) != 0) continue;
    double least = 1e18;
    uint64_t sum = 0;
    for (int round = 0; round < (argc == 4 ? 1 : 7); round++) {
      double took = calls[i].many ? many(calls[i].many, bytes, size, names, units, lookups, count, &sum)
                                  : one_by_one(calls[i].one, &package, bytes, size, ids, units, count, &sum);
      if (took < least) least = took;
    }
    printf("%s %.0f ns, sum %" PRIu64 "\n", calls[i].name, least / (double)count, sum);
  }
  return 0;
}
