/* pack OUT INPUT..: packs objects and packages into one package. */
#include "common.h"
#include <inttypes.h>

static int write_file(const char *path, const uint8_t *bytes, size_t size) {
  FILE *file = fopen(path, "wb");
  if (!file) return 0;
  int is_whole = fwrite(bytes, 1, size, file) == size;
  return fclose(file) == 0 && is_whole;
}

/* Names the type units that were passed over and that differ from those kept. */
static void print_differing(const thorin_bytes *inputs, size_t count, thorin_report *report) {
  size_t room = (size_t)report->differing;
  uint64_t *types = malloc(room * sizeof *types);
  if (types && thorin_differing_types(inputs, count, types, room, report) == THORIN_DONE)
    for (size_t i = 0; i < room; i++) fprintf(stderr, "warning: type unit 0x%016" PRIx64 " differs\n", types[i]);
  free(types);
}

int main(int argc, char **argv) {
  if (argc < 3) {
    fprintf(stderr, "usage: pack OUT INPUT..\n");
    return 2;
  }
  size_t count = (size_t)argc - 2, room = 4096;
  thorin_bytes *inputs = malloc(count * sizeof *inputs);
  if (!inputs) return 1;
  for (size_t i = 0; i < count; i++) {
    inputs[i] = read_file(argv[i + 2]);
    room += inputs[i].size;
  }

  thorin_report report;
  uint8_t *out = malloc(room);
  if (!out) return 1;
  int32_t status = thorin_pack(inputs, count, out, room, &report);
  if (status == THORIN_TOO_SMALL) {
    free(out);
    room = (size_t)report.size;
    out = malloc(room);
    if (!out) return 1;
    status = thorin_pack(inputs, count, out, room, &report);
  }

  int is_done = status == THORIN_DONE && write_file(argv[1], out, (size_t)report.size);
  if (is_done) {
    printf("%" PRIu64 " bytes%s\n", report.size, report.packs_again ? ", may be packed again" : "");
    if (report.differing > 0) print_differing(inputs, count, &report);
  }
  if (status == THORIN_REFUSED)
    fprintf(stderr, "error: %s: %s (%" PRIu32 ")\n", argv[report.input + 2], report.text, report.fault);
  else if (status == THORIN_UNFINISHED)
    fprintf(stderr, "error: %s (%" PRIu32 ")\n", report.text, report.fault);
  else if (!is_done) {
    fprintf(stderr, "error: ");
    print_status(stderr, status);
  }

  free(out);
  for (size_t i = 0; i < count; i++) free((void *)inputs[i].at);
  free(inputs);
  return is_done ? 0 : 1;
}
