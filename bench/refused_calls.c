/* refused_calls FILE..: the calls for C that allocate, over these files: packing them all, the type units that differ, and of
 * each file its plain copy and the objects that it names. Each call is made with its first allocation refused, then with its
 * second, and so on until none is refused; each time it must answer as with memory at hand, or say that memory ran out and
 * write what include/thorin.h says and no more; and free what it allocated. Link with -Wl,--wrap=malloc,--wrap=realloc,--wrap=free. */
#include "thorin.h"
#include <inttypes.h>
#include <stdio.h>
#include <stdlib.h>
#include <string.h>

enum { ROOM = 1 << 20, NAMES = 64, MOST = 64 };
static int is_counting, refused;
static int64_t left, live;

void *__real_malloc(size_t size);
void *__real_realloc(void *at, size_t size);
void __real_free(void *at);

static int is_refused(void) {
  if (!is_counting || left-- != 0) return 0;
  refused = 1;
  return 1;
}

void *__wrap_malloc(size_t size) {
  void *at = is_refused() ? NULL : __real_malloc(size);
  live += is_counting && at;
  return at;
}

void *__wrap_realloc(void *at, size_t size) {
  if (is_refused()) return NULL;
  void *moved = __real_realloc(at, size);
  live += is_counting && !at && moved;
  return moved;
}

void __wrap_free(void *at) {
  live -= is_counting && at;
  __real_free(at);
}

/* All that the calls write to: 0x5a before each. */
typedef struct {
  uint8_t out[ROOM];
  uint64_t types[NAMES], number;
  thorin_skeleton names[NAMES];
  thorin_report report;
} answers_t;

static answers_t answers, before, wanted;
static thorin_bytes files[MOST + 1];
static size_t count;

static int32_t call(int which, size_t file) {
  thorin_bytes one = files[file];
  switch (which) {
    case 0: return thorin_pack(files, count, answers.out, ROOM, &answers.report);
    case 1: return thorin_pack(files, count + 1, answers.out, ROOM, &answers.report);
    case 2: return thorin_differing_types(files, count, answers.types, NAMES, &answers.report);
    case 3: return thorin_pack(&one, 1, answers.out, ROOM, &answers.report);
    case 4: return thorin_decompress(one.at, one.size, answers.out, ROOM, &answers.number);
    default:
      return thorin_skeletons(one.at, one.size, answers.names, NAMES, answers.out, ROOM, &answers.number, &answers.report);
  }
}

static int32_t made(int which, size_t file) {
  answers = before;
  live = refused = 0;
  is_counting = 1;
  int32_t status = call(which, file);
  is_counting = 0;
  return status;
}

/* What is wrong with an answer: without memory nothing is written, but in packing the number of an input. */
static const char *fault_of(int which, int32_t status, int32_t want) {
  size_t inputs = which < 3 ? count + 1 : 1;
  if (live != 0) return "memory isn't freed";
  if (status == want) return memcmp(&answers, &wanted, sizeof answers) != 0 ? "another answer" : NULL;
  if (status != THORIN_NO_MEMORY) return "another status";
  if (which < 4) {
    if (answers.report.input > inputs) return "no such input";
    answers.report.input = before.report.input;
  }
  return memcmp(&answers, &before, sizeof answers) != 0 ? "something is written" : NULL;
}

int main(int argc, char **argv) {
  uint64_t calls = 0, said = 0, without = 0;
  if (argc < 2 || argc > MOST + 1) return 2;
  memset(&before, 0x5a, sizeof before);
  for (count = 0; count + 1 < (size_t)argc; count++) {
    FILE *file = fopen(argv[count + 1], "rb");
    uint8_t *bytes = malloc(ROOM);
    if (!file || !bytes) return 2;
    files[count].at = bytes;
    files[count].size = fread(bytes, 1, ROOM, file);
    fclose(file);
  }
  /* Behind them an input that isn't there, for which include/null_places.c makes a copy of the list. */
  for (int which = 0; which < 6; which++)
    for (size_t file = 0; file < (which < 3 ? 1 : count); file++, calls++) {
      left = INT64_MAX;
      int32_t want = made(which, file), status = want;
      wanted = answers;
      const char *fault = want == THORIN_NO_MEMORY ? "memory was there" : live != 0 ? "memory isn't freed" : NULL;
      for (int64_t n = 0; !fault; n++) {
        left = n;
        status = made(which, file);
        fault = fault_of(which, status, want);
        if (!refused) break;
        if (status == THORIN_NO_MEMORY)
          said++;
        else
          without++;
      }
      if (!fault) continue;
      fprintf(stderr, "refused_calls: call %d, file %zu, status %" PRId32 ": %s\n", which, file, status, fault);
      return 1;
    }
  printf("%" PRIu64 " calls: memory ran out at %" PRIu64 " allocations, %" PRIu64 " were done without\n", calls, said, without);
  for (size_t i = 0; i < count; i++) free((void *)files[i].at);
  return 0;
}
