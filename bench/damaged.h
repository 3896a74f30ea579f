/* What damaged_calls.c damages, and memory for it: drawn numbers, rooms for inputs, boxes for answers. */
#ifndef DAMAGED_H
#define DAMAGED_H

#define _DEFAULT_SOURCE
#include "thorin.h"
#include <inttypes.h>
#include <stdio.h>
#include <stdlib.h>
#include <string.h>
#include <sys/mman.h>
#include <unistd.h>

#define STATUSES (THORIN_DAMAGED_ZSTD + 1)
static uint64_t state, started, calls[STATUSES];
static int is_heap;

static void fail(const char *what, int32_t status) {
  fprintf(stderr, "damaged_calls: %s, status %" PRId32 ", state %" PRIu64 "\n", what, status, started);
  exit(1);
}

/* xorshift64 */
static uint64_t drawn(uint64_t below) {
  state ^= state << 13;
  state ^= state >> 7;
  state ^= state << 17;
  return state % below;
}

static void count(int32_t status, const char *call) {
  if (status < 0 || status >= STATUSES) fail(call, status);
  calls[status]++;
}

/* A file with some bytes changed, and sometimes cut. */
static size_t damage(uint8_t *to, const thorin_bytes *from) {
  size_t size = drawn(8) == 0 ? (size_t)drawn(from->size + 1) : from->size;
  uint64_t times = drawn(4) == 0 ? 0 : 1 + drawn(6);
  memcpy(to, from->at, size);
  for (uint64_t i = 0; size > 0 && i < times; i++) {
    size_t at = (size_t)drawn(size);
    switch (drawn(3)) {
      case 0: to[at] ^= (uint8_t)(1u << drawn(8)); break;
      case 1: to[at] = drawn(2) ? 0xff : 0; break;
      default: to[at] = (uint8_t)drawn(256);
    }
  }
  return size;
}

static thorin_bytes read_file(const char *path) {
  FILE *file = fopen(path, "rb");
  uint8_t *bytes = malloc(1 << 20);
  if (!file || !bytes) exit(2);
  thorin_bytes whole = {bytes, fread(bytes, 1, 1 << 20, file)};
  fclose(file);
  return whole;
}

/* ---- memory: for inputs, and for answers */

/* A place for inputs: pages on both sides of which memory ends, or a block of the heap. */
typedef struct {
  uint8_t *begin, *end, *block, *at;
  size_t size;
} room_t;

static void make_room(room_t *room, size_t most) {
  size_t page = (size_t)sysconf(_SC_PAGESIZE), size = (most + page - 1) / page * page;
  uint8_t *at = mmap(NULL, size + 2 * page, PROT_NONE, MAP_PRIVATE | MAP_ANONYMOUS, -1, 0);
  if (at == MAP_FAILED || mprotect(at + page, size, PROT_READ | PROT_WRITE) != 0) exit(2);
  room->begin = at + page;
  room->end = room->begin + size;
  room->block = NULL;
}

/* Puts bytes into a room, mostly at its end; nothing may be null. */
static void put(room_t *room, const uint8_t *from, size_t size) {
  size_t skew = drawn(2) ? (size_t)drawn(8) : 0;
  if (is_heap) {
    free(room->block);
    room->block = malloc(size + skew);
    if (!room->block) exit(2);
  }
  room->at = is_heap ? room->block + skew : drawn(4) ? room->end - size : room->begin;
  room->size = size;
  if (size > 0) memcpy(room->at, from, size);
  if (size == 0 && drawn(2)) room->at = NULL;
}

static void overwrite(room_t *room) {
  if (room->size > 0) memset(room->at, 0xee, room->size);
}

/* Memory for answers: 0x5a before a call, and on both sides. */
enum { MARGIN = 16, BOXES = 64 };
static struct {
  uint8_t *at;
  size_t size;
} boxes[BOXES];
static size_t boxed;

static int is_untouched(const void *at, size_t size) {
  const uint8_t *byte = at;
  for (size_t i = 0; i < size; i++)
    if (byte[i] != 0x5a) return 0;
  return 1;
}

static void *box(size_t size) {
  size_t margin = is_heap ? 0 : MARGIN;
  uint8_t *at = malloc(size + 2 * margin);
  if (!at || boxed == BOXES) exit(2);
  memset(at, 0x5a, size + 2 * margin);
  boxes[boxed].at = at;
  boxes[boxed++].size = size;
  return at + margin;
}

/* Frees the boxes from a number on. */
static void unbox(size_t from) {
  while (boxed > from) {
    boxed--;
    uint8_t *at = boxes[boxed].at;
    if (!is_heap && !(is_untouched(at, MARGIN) && is_untouched(at + MARGIN + boxes[boxed].size, MARGIN)))
      fail("written outside", 0);
    free(at);
  }
}

#endif
