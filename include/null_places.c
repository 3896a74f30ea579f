/* The exports as C calls them. The proofs take it for granted that bytes begin at a place that isn't null, also where there
 * are none, while C passes a null pointer with size 0. So each call that takes a pointer with a size stands here, gives size 0
 * a place, and calls the proved export, before whose name build-library has put `proved_`. Nothing else is done here: of all
 * that is in the library, this file alone isn't proved (and what the toolchain's C library adds for memory). */
#include "thorin.h"
#include <stdlib.h>

/* Aligned as any structure of the header; never read or written, since only size 0 is said to be here. */
static uint64_t place[2];

#define AT(pointer, count) ((count) == 0 ? (void *)place : (void *)(pointer))
#define LENT(call) \
  thorin_bytes lent = {(const uint8_t *)place, 0}; \
  int32_t status = call; \
  if (status == THORIN_DONE) *found = lent; \
  return status

size_t proved_thorin_status_text(int32_t, uint8_t *, size_t);
int32_t proved_thorin_find(const uint8_t *, size_t, uint8_t, uint64_t, thorin_unit *);
int32_t proved_thorin_find_each(const uint8_t *, size_t, thorin_lookup *, size_t);
int32_t proved_thorin_find_rows(const uint8_t *, size_t, thorin_lookup *, size_t);
int32_t proved_thorin_content(const uint8_t *, size_t, uint8_t, uint64_t, uint8_t, thorin_bytes *);
int32_t proved_thorin_string(const uint8_t *, size_t, uint8_t, uint64_t, uint64_t, thorin_bytes *);
int32_t proved_thorin_unit_count(const uint8_t *, size_t, uint64_t *);
int32_t proved_thorin_list(const uint8_t *, size_t, thorin_name *, size_t, uint64_t *);
int32_t proved_thorin_open(const uint8_t *, size_t, thorin_package *);
int32_t proved_thorin_find_in(const thorin_package *, const uint8_t *, size_t, uint8_t, uint64_t, thorin_unit *);
int32_t proved_thorin_find_row_in(const thorin_package *, const uint8_t *, size_t, uint8_t, uint64_t, thorin_unit *);
int32_t proved_thorin_content_in(const thorin_package *, const uint8_t *, size_t, uint8_t, uint64_t, uint8_t, thorin_bytes *);
int32_t proved_thorin_string_in(const thorin_package *, const uint8_t *, size_t, uint8_t, uint64_t, uint64_t, thorin_bytes *);
int32_t proved_thorin_list_in(const thorin_package *, const uint8_t *, size_t, thorin_name *, size_t, uint64_t *);
int32_t proved_thorin_pack(const thorin_bytes *, size_t, uint8_t *, size_t, thorin_report *);
int32_t proved_thorin_differing_types(const thorin_bytes *, size_t, uint64_t *, size_t, thorin_report *);
int32_t proved_thorin_decompress(const uint8_t *, size_t, uint8_t *, size_t, uint64_t *);
int32_t proved_thorin_skeletons(const uint8_t *, size_t, thorin_skeleton *, size_t, uint8_t *, size_t, uint64_t *, thorin_report *);

size_t thorin_status_text(int32_t status, uint8_t *text, size_t room) {
  return proved_thorin_status_text(status, AT(text, room), room);
}

int32_t thorin_find(const uint8_t *bytes, size_t size, uint8_t kind, uint64_t id, thorin_unit *found) {
  return proved_thorin_find(AT(bytes, size), size, kind, id, found);
}

int32_t thorin_find_each(const uint8_t *bytes, size_t size, thorin_lookup *lookups, size_t count) {
  return proved_thorin_find_each(AT(bytes, size), size, AT(lookups, count), count);
}

int32_t thorin_find_rows(const uint8_t *bytes, size_t size, thorin_lookup *lookups, size_t count) {
  return proved_thorin_find_rows(AT(bytes, size), size, AT(lookups, count), count);
}

int32_t thorin_content(const uint8_t *bytes, size_t size, uint8_t kind, uint64_t id, uint8_t section, thorin_bytes *found) {
  LENT(proved_thorin_content(AT(bytes, size), size, kind, id, section, &lent));
}

int32_t thorin_string(const uint8_t *bytes, size_t size, uint8_t kind, uint64_t id, uint64_t index, thorin_bytes *found) {
  LENT(proved_thorin_string(AT(bytes, size), size, kind, id, index, &lent));
}

int32_t thorin_unit_count(const uint8_t *bytes, size_t size, uint64_t *count) {
  return proved_thorin_unit_count(AT(bytes, size), size, count);
}

int32_t thorin_list(const uint8_t *bytes, size_t size, thorin_name *names, size_t room, uint64_t *count) {
  return proved_thorin_list(AT(bytes, size), size, AT(names, room), room, count);
}

int32_t thorin_open(const uint8_t *bytes, size_t size, thorin_package *package) {
  return proved_thorin_open(AT(bytes, size), size, package);
}

int32_t thorin_find_in(const thorin_package *package, const uint8_t *bytes, size_t size, uint8_t kind, uint64_t id,
                       thorin_unit *found) {
  return proved_thorin_find_in(package, AT(bytes, size), size, kind, id, found);
}

int32_t thorin_find_row_in(const thorin_package *package, const uint8_t *bytes, size_t size, uint8_t kind, uint64_t id,
                           thorin_unit *found) {
  return proved_thorin_find_row_in(package, AT(bytes, size), size, kind, id, found);
}

int32_t thorin_content_in(const thorin_package *package, const uint8_t *bytes, size_t size, uint8_t kind, uint64_t id,
                          uint8_t section, thorin_bytes *found) {
  LENT(proved_thorin_content_in(package, AT(bytes, size), size, kind, id, section, &lent));
}

int32_t thorin_string_in(const thorin_package *package, const uint8_t *bytes, size_t size, uint8_t kind, uint64_t id,
                         uint64_t index, thorin_bytes *found) {
  LENT(proved_thorin_string_in(package, AT(bytes, size), size, kind, id, index, &lent));
}

int32_t thorin_list_in(const thorin_package *package, const uint8_t *bytes, size_t size, thorin_name *names, size_t room,
                       uint64_t *count) {
  return proved_thorin_list_in(package, AT(bytes, size), size, AT(names, room), room, count);
}

int32_t thorin_decompress(const uint8_t *bytes, size_t size, uint8_t *out, size_t room, uint64_t *length) {
  return proved_thorin_decompress(AT(bytes, size), size, AT(out, room), room, length);
}

int32_t thorin_skeletons(const uint8_t *bytes, size_t size, thorin_skeleton *names, size_t room, uint8_t *paths,
                         size_t paths_room, uint64_t *count, thorin_report *report) {
  return proved_thorin_skeletons(AT(bytes, size), size, AT(names, room), room, AT(paths, paths_room), paths_room, count,
                                 report);
}

/* The inputs, each at a place: a copy where one is null, to be freed; null where memory ran out at *at. */
static thorin_bytes *placed(const thorin_bytes *inputs, size_t count, size_t *at) {
  size_t first = 0;
  while (first < count && (inputs[first].at || inputs[first].size > 0)) first++;
  *at = first;
  if (first == count) return AT(inputs, count);
  thorin_bytes *copy = count <= SIZE_MAX / sizeof *copy ? malloc(count * sizeof *copy) : NULL;
  for (size_t i = 0; copy && i < count; i++) {
    copy[i].at = AT(inputs[i].at, inputs[i].size);
    copy[i].size = inputs[i].size;
  }
  return copy;
}

#define PLACED(call) \
  size_t at; \
  thorin_bytes *all = placed(inputs, count, &at); \
  if (!all) { \
    report->input = at; \
    return THORIN_NO_MEMORY; \
  } \
  int32_t status = call; \
  if (at < count) free(all); \
  return status

int32_t thorin_pack(const thorin_bytes *inputs, size_t count, uint8_t *out, size_t room, thorin_report *report) {
  PLACED(proved_thorin_pack(all, count, AT(out, room), room, report));
}

int32_t thorin_differing_types(const thorin_bytes *inputs, size_t count, uint64_t *types, size_t room,
                               thorin_report *report) {
  PLACED(proved_thorin_differing_types(all, count, AT(types, room), room, report));
}
