/* mistakes: calls that the header forbids, each in a process of its own, which an assertion of thorin_check.h must end. */
#define _DEFAULT_SOURCE
#undef NDEBUG
#ifndef THORIN_CHECK
#define THORIN_CHECK
#endif
#include "thorin.h"
#include <signal.h>
#include <stdio.h>
#include <sys/wait.h>
#include <unistd.h>

static union {
  uint8_t bytes[512];
  uint64_t words[64];
  thorin_unit unit;
  thorin_bytes lent;
  thorin_lookup lookup;
  thorin_name names[4];
  thorin_skeleton skeletons[4];
  thorin_package package;
  thorin_report report;
} one, other;

static uint64_t number;

/* A pointer that is as many bytes behind another as no type's alignment allows. */
#define ASKEW(at) ((void *)((uint8_t *)(at) + 1))

static void call(int mistake) {
  thorin_bytes inside = {one.bytes, 8}, null = {NULL, 8};
  switch (mistake) {
    case 0: thorin_status_text(0, NULL, 1); break;
    case 1: thorin_find(NULL, 1, 1, 5, &other.unit); break;
    case 2: thorin_find(one.bytes, 8, 1, 5, NULL); break;
    case 3: thorin_find(one.bytes, 512, 1, 5, &one.unit); break;
    case 4: thorin_find(one.bytes, 8, 1, 5, ASKEW(other.bytes)); break;
    case 5: thorin_find(one.bytes, SIZE_MAX, 1, 5, &other.unit); break;
    case 6: thorin_find_each(one.bytes, 8, NULL, 1); break;
    case 7: thorin_find_rows(one.bytes, 512, &one.lookup, 1); break;
    case 8: thorin_content(one.bytes, 512, 1, 5, 0, &one.lent); break;
    case 9: thorin_string(one.bytes, 8, 1, 5, 0, NULL); break;
    case 10: thorin_unit_count(one.bytes, 512, &one.words[3]); break;
    case 11: thorin_list(one.bytes, 8, other.names, 4, &other.words[7]); break;
    case 12: thorin_open(one.bytes, 512, &one.package); break;
    case 13: thorin_find_in(NULL, one.bytes, 8, 1, 5, &other.unit); break;
    case 14: thorin_find_in(&other.package, one.bytes, 8, 1, 5, &other.unit); break;
    case 15: thorin_find_row_in(ASKEW(&other.package), one.bytes, 8, 1, 5, &one.unit); break;
    case 16: thorin_content_in(&other.package, one.bytes, 8, 1, 5, 0, &other.lent); break;
    case 17: thorin_string_in(&other.package, one.bytes, 512, 1, 5, 0, &one.lent); break;
    case 18: thorin_list_in(&other.package, one.bytes, 8, other.names, 1, &number); break;
    case 19: thorin_skeletons(one.bytes, 8, other.skeletons, 4, other.bytes + 95, 1, &number, &other.report); break;
    case 20: thorin_skeletons(one.bytes, 8, NULL, 0, NULL, 0, &other.words[1], &other.report); break;
    case 21: thorin_decompress(one.bytes, 512, one.bytes, 512, &number); break;
    case 22: thorin_decompress(one.bytes, 8, other.bytes, 512, &other.words[9]); break;
    case 23: thorin_pack(NULL, 1, other.bytes, 512, &one.report); break;
    case 24: thorin_pack(&null, 1, other.bytes, 512, &one.report); break;
    case 25: thorin_pack(&inside, 1, one.bytes, 512, &other.report); break;
    case 26: thorin_pack(&inside, 1, other.bytes, 512, &other.report); break;
    case 27: thorin_differing_types(&inside, 1, NULL, 1, &other.report); break;
    default: thorin_differing_types(&inside, 1, other.words, 1, &one.report);
  }
}

int main(void) {
  int passed = 0;
  for (int mistake = 0; mistake < 29; mistake++) {
    pid_t child = fork();
    if (child == 0) {
      if (!freopen("/dev/null", "w", stderr)) _exit(2);
      call(mistake);
      _exit(0);
    }
    int status = 0;
    if (child < 0 || waitpid(child, &status, 0) != child) return 2;
    if (WIFSIGNALED(status) && WTERMSIG(status) == SIGABRT) continue;
    fprintf(stderr, "mistakes: %d isn't seen\n", mistake);
    passed++;
  }
  if (passed) return 1;
  printf("mistakes: 29, each seen\n");
  return 0;
}
