/* objects EXECUTABLE: prints the units that an executable names, and the paths of their objects: what pack takes. The
 * executable's sections may be compressed. */
#include "common.h"
#include <inttypes.h>

static void *room_of(size_t count, size_t size) {
  void *room = calloc(count + 1, size);
  if (!room) exit(1);
  return room;
}

/* The file with plain sections. */
static thorin_bytes decompressed(thorin_bytes file) {
  uint64_t size = 0;
  int32_t status = thorin_decompress(file.at, file.size, NULL, 0, &size);
  if (status != THORIN_TOO_SMALL) return file;
  uint8_t *plain = room_of((size_t)size, 1);
  if (thorin_decompress(file.at, file.size, plain, (size_t)size, &size) != THORIN_DONE) return file;
  free((void *)file.at);
  thorin_bytes whole = {plain, (size_t)size};
  return whole;
}

int main(int argc, char **argv) {
  if (argc != 2) {
    fprintf(stderr, "usage: objects EXECUTABLE\n");
    return 2;
  }
  thorin_bytes file = decompressed(read_file(argv[1]));
  thorin_report report = {0};
  uint64_t count = 0;
  /* How many units there are, and how long their paths; then the units. */
  int32_t status = thorin_skeletons(file.at, file.size, NULL, 0, NULL, 0, &count, &report);
  size_t units = (size_t)count, size = (size_t)report.size;
  thorin_skeleton *names = room_of(units, sizeof *names);
  char *paths = room_of(size, 1);
  if (status != THORIN_NO_MEMORY)
    status = thorin_skeletons(file.at, file.size, names, units, (uint8_t *)paths, size, &count, &report);
  const char *path = paths;
  for (size_t i = 0; i < units; i++) {
    printf("%s 0x%016" PRIx64 " %s\n", names[i].kind == THORIN_TYPE_UNIT ? "tu" : "cu", names[i].id, path);
    path += names[i].path_size + 1;
  }
  if (status == THORIN_REFUSED)
    fprintf(stderr, "error: %s (%" PRIu32 ")\n", report.text, report.fault);
  else if (status != THORIN_DONE) {
    fprintf(stderr, "error: ");
    print_status(stderr, status);
  }
  free(names);
  free(paths);
  free((void *)file.at);
  return status == THORIN_DONE ? 0 : 1;
}
