/**
 * @file thorin_check.h
 * @brief What thorin.h asks of its callers, asserted in each call; included by it under
 * -DTHORIN_CHECK. Under -DNDEBUG nothing is asserted.
 *
 * A name of a call then stands for a function of this file, which asserts and calls it. Not seen by
 * a program: whether memory is as large as is said, and whether it changes meanwhile.
 */
#ifndef THORIN_CHECK_H
#define THORIN_CHECK_H

#include "thorin.h"
#include <assert.h>

/* A pointer as a number. */
#ifdef __cplusplus
#define THORIN_CHECK_PLACE(at) reinterpret_cast<uintptr_t>(at)
#else
#define THORIN_CHECK_PLACE(at) ((uintptr_t)(at))
#endif

/* There are elements of that size, or none; aligned; and the sizes don't wrap. */
static inline void thorin_check_some(const void *at, size_t count, size_t size, size_t alignment) {
  uintptr_t place = THORIN_CHECK_PLACE(at);
  assert(at || count == 0);
  assert(place % alignment == 0);
  assert(count <= (SIZE_MAX / 2) / size);
  assert(place <= UINTPTR_MAX - count * size);
  (void)place;
  (void)count;
  (void)size;
  (void)alignment;
}

/* No byte of one is a byte of the other. */
static inline void thorin_check_apart(const void *one, size_t size, const void *other, size_t length) {
  uintptr_t a = THORIN_CHECK_PLACE(one), b = THORIN_CHECK_PLACE(other);
  assert(size == 0 || length == 0 || a + size <= b || b + length <= a);
  (void)a;
  (void)b;
  (void)size;
  (void)length;
}

static inline void thorin_check_inputs(const thorin_bytes *inputs, size_t count, void *to, size_t size,
                                       thorin_report *report) {
  thorin_check_some(inputs, count, sizeof *inputs, 8);
  thorin_check_some(report, 1, sizeof *report, 8);
  assert(report);
  thorin_check_apart(inputs, count * sizeof *inputs, report, sizeof *report);
  thorin_check_apart(inputs, count * sizeof *inputs, to, size);
  thorin_check_apart(to, size, report, sizeof *report);
  for (size_t i = 0; i < count; i++) {
    thorin_check_some(inputs[i].at, inputs[i].size, 1, 1);
    thorin_check_apart(inputs[i].at, inputs[i].size, report, sizeof *report);
    thorin_check_apart(inputs[i].at, inputs[i].size, to, size);
  }
}

#define THORIN_CHECK_BYTES thorin_check_some(bytes, size, 1, 1)
#define THORIN_CHECK_ARRAY(to, count) \
  thorin_check_some(to, count, sizeof *(to), 8); \
  thorin_check_apart(to, (count) * sizeof *(to), bytes, size)
#define THORIN_CHECK_ONE(to) \
  assert(to); \
  THORIN_CHECK_ARRAY(to, 1)
#define THORIN_CHECK_PACKAGE(to, count) \
  assert(package); \
  thorin_check_some(package, 1, sizeof *package, 8); \
  thorin_check_apart(package, sizeof *package, to, (count) * sizeof *(to))

static inline size_t thorin_checked_status_text(int32_t status, uint8_t *text, size_t room) {
  thorin_check_some(text, room, 1, 1);
  return thorin_status_text(status, text, room);
}

static inline int32_t thorin_checked_find(const uint8_t *bytes, size_t size, uint8_t kind, uint64_t id,
                                          thorin_unit *found) {
  THORIN_CHECK_BYTES;
  THORIN_CHECK_ONE(found);
  return thorin_find(bytes, size, kind, id, found);
}

static inline int32_t thorin_checked_find_each(const uint8_t *bytes, size_t size, thorin_lookup *lookups,
                                               size_t count) {
  THORIN_CHECK_BYTES;
  THORIN_CHECK_ARRAY(lookups, count);
  return thorin_find_each(bytes, size, lookups, count);
}

static inline int32_t thorin_checked_find_rows(const uint8_t *bytes, size_t size, thorin_lookup *lookups,
                                               size_t count) {
  THORIN_CHECK_BYTES;
  THORIN_CHECK_ARRAY(lookups, count);
  return thorin_find_rows(bytes, size, lookups, count);
}

static inline int32_t thorin_checked_content(const uint8_t *bytes, size_t size, uint8_t kind, uint64_t id,
                                             uint8_t section, thorin_bytes *found) {
  THORIN_CHECK_BYTES;
  THORIN_CHECK_ONE(found);
  return thorin_content(bytes, size, kind, id, section, found);
}

static inline int32_t thorin_checked_string(const uint8_t *bytes, size_t size, uint8_t kind, uint64_t id,
                                            uint64_t index, thorin_bytes *found) {
  THORIN_CHECK_BYTES;
  THORIN_CHECK_ONE(found);
  return thorin_string(bytes, size, kind, id, index, found);
}

static inline int32_t thorin_checked_unit_count(const uint8_t *bytes, size_t size, uint64_t *count) {
  THORIN_CHECK_BYTES;
  THORIN_CHECK_ONE(count);
  return thorin_unit_count(bytes, size, count);
}

static inline int32_t thorin_checked_list(const uint8_t *bytes, size_t size, thorin_name *names, size_t room,
                                          uint64_t *count) {
  THORIN_CHECK_BYTES;
  THORIN_CHECK_ARRAY(names, room);
  THORIN_CHECK_ONE(count);
  thorin_check_apart(names, room * sizeof *names, count, sizeof *count);
  return thorin_list(bytes, size, names, room, count);
}

static inline int32_t thorin_checked_open(const uint8_t *bytes, size_t size, thorin_package *package) {
  THORIN_CHECK_BYTES;
  THORIN_CHECK_ONE(package);
  return thorin_open(bytes, size, package);
}

static inline int32_t thorin_checked_find_in(const thorin_package *package, const uint8_t *bytes, size_t size,
                                             uint8_t kind, uint64_t id, thorin_unit *found) {
  THORIN_CHECK_BYTES;
  THORIN_CHECK_ONE(found);
  THORIN_CHECK_PACKAGE(found, 1);
  return thorin_find_in(package, bytes, size, kind, id, found);
}

static inline int32_t thorin_checked_find_row_in(const thorin_package *package, const uint8_t *bytes, size_t size,
                                                 uint8_t kind, uint64_t id, thorin_unit *found) {
  THORIN_CHECK_BYTES;
  THORIN_CHECK_ONE(found);
  THORIN_CHECK_PACKAGE(found, 1);
  return thorin_find_row_in(package, bytes, size, kind, id, found);
}

static inline int32_t thorin_checked_content_in(const thorin_package *package, const uint8_t *bytes, size_t size,
                                                uint8_t kind, uint64_t id, uint8_t section, thorin_bytes *found) {
  THORIN_CHECK_BYTES;
  THORIN_CHECK_ONE(found);
  THORIN_CHECK_PACKAGE(found, 1);
  return thorin_content_in(package, bytes, size, kind, id, section, found);
}

static inline int32_t thorin_checked_string_in(const thorin_package *package, const uint8_t *bytes, size_t size,
                                               uint8_t kind, uint64_t id, uint64_t index, thorin_bytes *found) {
  THORIN_CHECK_BYTES;
  THORIN_CHECK_ONE(found);
  THORIN_CHECK_PACKAGE(found, 1);
  return thorin_string_in(package, bytes, size, kind, id, index, found);
}

static inline int32_t thorin_checked_list_in(const thorin_package *package, const uint8_t *bytes, size_t size,
                                             thorin_name *names, size_t room, uint64_t *count) {
  THORIN_CHECK_BYTES;
  THORIN_CHECK_ARRAY(names, room);
  THORIN_CHECK_ONE(count);
  THORIN_CHECK_PACKAGE(names, room);
  THORIN_CHECK_PACKAGE(count, 1);
  thorin_check_apart(names, room * sizeof *names, count, sizeof *count);
  return thorin_list_in(package, bytes, size, names, room, count);
}

static inline int32_t thorin_checked_skeletons(const uint8_t *bytes, size_t size, thorin_skeleton *names, size_t room,
                                               uint8_t *paths, size_t paths_room, uint64_t *count,
                                               thorin_report *report) {
  THORIN_CHECK_BYTES;
  THORIN_CHECK_ARRAY(names, room);
  THORIN_CHECK_ONE(count);
  THORIN_CHECK_ONE(report);
  thorin_check_some(paths, paths_room, 1, 1);
  thorin_check_apart(paths, paths_room, bytes, size);
  thorin_check_apart(paths, paths_room, names, room * sizeof *names);
  thorin_check_apart(paths, paths_room, count, sizeof *count);
  thorin_check_apart(paths, paths_room, report, sizeof *report);
  thorin_check_apart(names, room * sizeof *names, count, sizeof *count);
  thorin_check_apart(names, room * sizeof *names, report, sizeof *report);
  thorin_check_apart(count, sizeof *count, report, sizeof *report);
  return thorin_skeletons(bytes, size, names, room, paths, paths_room, count, report);
}

static inline int32_t thorin_checked_decompress(const uint8_t *bytes, size_t size, uint8_t *out, size_t room,
                                                uint64_t *length) {
  THORIN_CHECK_BYTES;
  THORIN_CHECK_ONE(length);
  thorin_check_some(out, room, 1, 1);
  thorin_check_apart(out, room, bytes, size);
  thorin_check_apart(out, room, length, sizeof *length);
  return thorin_decompress(bytes, size, out, room, length);
}

static inline int32_t thorin_checked_pack(const thorin_bytes *inputs, size_t count, uint8_t *out, size_t room,
                                          thorin_report *report) {
  thorin_check_some(out, room, 1, 1);
  thorin_check_inputs(inputs, count, out, room, report);
  return thorin_pack(inputs, count, out, room, report);
}

static inline int32_t thorin_checked_differing_types(const thorin_bytes *inputs, size_t count, uint64_t *types,
                                                     size_t room, thorin_report *report) {
  thorin_check_some(types, room, sizeof *types, 8);
  thorin_check_inputs(inputs, count, types, room * sizeof *types, report);
  return thorin_differing_types(inputs, count, types, room, report);
}

#define thorin_status_text thorin_checked_status_text
#define thorin_find thorin_checked_find
#define thorin_find_each thorin_checked_find_each
#define thorin_find_rows thorin_checked_find_rows
#define thorin_content thorin_checked_content
#define thorin_string thorin_checked_string
#define thorin_unit_count thorin_checked_unit_count
#define thorin_list thorin_checked_list
#define thorin_open thorin_checked_open
#define thorin_find_in thorin_checked_find_in
#define thorin_find_row_in thorin_checked_find_row_in
#define thorin_content_in thorin_checked_content_in
#define thorin_string_in thorin_checked_string_in
#define thorin_list_in thorin_checked_list_in
#define thorin_skeletons thorin_checked_skeletons
#define thorin_decompress thorin_checked_decompress
#define thorin_pack thorin_checked_pack
#define thorin_differing_types thorin_checked_differing_types

#endif
