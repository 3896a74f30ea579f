/* damaged_calls SEED COUNT pages|heap FILE..: damages objects, packages and executables COUNT times, calls each export over
 * what came of it, the calls over an open package also with values of thorin_package that are damaged, random or of another
 * file, and tests what include/thorin.h says of the answers. Under `pages` each input ends, or begins, where memory ends
 * that can be read; under `heap` each input and each answer is a block of the heap of just its size, as AddressSanitizer and
 * valgrind want it. An input is overwritten once it is packed. Prints how many calls answered which status; ends with 1 at the
 * first answer that isn't one. */
#include "damaged.h"

static int is_inside(thorin_bytes lent, const uint8_t *bytes, size_t size) {
  return lent.at >= bytes && lent.at <= bytes + size && lent.size <= (size_t)(bytes + size - lent.at);
}

/* Bytes that a call lends: untouched without an answer; else inside the package, and of a string with its end. */
static void test_lent(const thorin_bytes *lent, int32_t status, int is_string, const uint8_t *bytes, size_t size) {
  if (status != THORIN_DONE) {
    if (!is_untouched(lent, sizeof *lent)) fail("bytes are lent without an answer", status);
    return;
  }
  if (!lent->at || (lent->size > 0 && !is_inside(*lent, bytes, size))) fail("bytes outside", status);
  if (!is_string) return;
  if (!is_inside(*lent, bytes, size) || lent->at + lent->size == bytes + size) fail("a string outside", status);
  if (lent->at[lent->size] != 0 || memchr(lent->at, 0, lent->size)) fail("a string without an end", status);
}

static void test_report(const thorin_report *report, int32_t status, size_t inputs) {
  if (status == THORIN_REFUSED && report->input >= inputs) fail("no such input", status);
  if (status == THORIN_NO_MEMORY && report->input > inputs) fail("no such input", status);
  if (status == THORIN_REFUSED || status == THORIN_UNFINISHED) {
    if (report->fault < 1 || report->fault > THORIN_FAULT_OVERLAPPING_STRING_OFFSETS) fail("no such fault", status);
    if (report->text_size > 255 || report->text[report->text_size] != 0) fail("text without an end", status);
    if (strlen(report->text) != report->text_size) fail("text of another length", status);
  }
}

/* ---- looking up */

/* The fields of a unit. */
#define FIELDS (offsetof(thorin_unit, address_size) + 1)

static int same_unit(const thorin_unit *one, const thorin_unit *other) { return memcmp(one, other, FIELDS) == 0; }

/* One name, by each call that reads the package anew. */
static void look_up(const uint8_t *bytes, size_t size, const thorin_lookup *asked) {
  thorin_unit *found = box(sizeof *found);
  int32_t status = thorin_find(bytes, size, asked->kind, asked->id, found);
  count(status, "find");
  if (status != asked->status) fail("one look-up and many differ", status);
  if (status == THORIN_DONE ? !same_unit(found, &asked->unit) : !is_untouched(found, sizeof *found))
    fail("another unit", status);
  for (unsigned section = 0; section < 11; section++) {
    thorin_bytes *lent = box(sizeof *lent);
    int32_t answer = thorin_content(bytes, size, asked->kind, asked->id, (uint8_t)section, lent);
    count(answer, "content");
    int32_t expected = status == THORIN_DONE && section == 10 ? THORIN_NO_SUCH_SECTION : status;
    if (answer != expected) fail("content and look-up differ", answer);
    test_lent(lent, answer, 0, bytes, size);
    if (answer == THORIN_DONE && lent->size != (&found->info)[section].size) fail("content of another size", answer);
  }
  for (uint64_t i = 0; i < 5; i++) {
    thorin_bytes *lent = box(sizeof *lent);
    int32_t answer = thorin_string(bytes, size, asked->kind, asked->id, i == 4 ? UINT64_MAX : i, lent);
    count(answer, "string");
    if (status != THORIN_DONE && answer != status) fail("string and look-up differ", answer);
    test_lent(lent, answer, 1, bytes, size);
  }
}

/* A row beside the unit that it is of: the same, but for what the unit's header says. */
static void test_row(int32_t row_status, const thorin_unit *row, int32_t status, const thorin_unit *unit) {
  if (row_status != (status == THORIN_MALFORMED_UNIT ? THORIN_DONE : status)) fail("a row and its unit differ", row_status);
  if (status == THORIN_DONE && memcmp(row, unit, offsetof(thorin_unit, version)) != 0) fail("another row", row_status);
  if (row_status == THORIN_DONE && (row->version != 0 || row->offset_size != 0 || row->address_size != 0))
    fail("a row has an encoding", row_status);
}

/* A look-up over an open package by each call: what they answer fits together. `opened` has what is answered where the package
 * is read anew, if it is as it was opened: the same. */
static void look_up_in(const thorin_package *package, const uint8_t *bytes, size_t size, uint8_t kind, uint64_t id,
                       const thorin_lookup *opened) {
  size_t mark = boxed;
  thorin_unit *found = box(sizeof *found), *row = box(sizeof *row);
  int32_t status = thorin_find_in(package, bytes, size, kind, id, found);
  count(status, "find_in");
  if (status > THORIN_MALFORMED_UNIT || status == THORIN_MALFORMED_FILE) fail("no status of a look-up", status);
  if (status != THORIN_DONE && !is_untouched(found, sizeof *found)) fail("a unit was written", status);
  int32_t answer = thorin_find_row_in(package, bytes, size, kind, id, row);
  count(answer, "find_row_in");
  if (answer != THORIN_DONE && !is_untouched(row, sizeof *row)) fail("a row was written", answer);
  test_row(answer, row, status, found);
  if (opened && status != opened->status) fail("an open package answers otherwise", status);
  if (opened && status == THORIN_DONE && !same_unit(found, &opened->unit)) fail("another unit", status);
  for (unsigned section = 0; section < 11; section++) {
    thorin_bytes *lent = box(sizeof *lent), *other = box(sizeof *other);
    answer = thorin_content_in(package, bytes, size, kind, id, (uint8_t)section, lent);
    count(answer, "content_in");
    if (answer != (status == THORIN_DONE && section == 10 ? THORIN_NO_SUCH_SECTION : status))
      fail("content and look-up differ", answer);
    test_lent(lent, answer, 0, bytes, size);
    if (!opened) continue;
    if (thorin_content(bytes, size, kind, id, (uint8_t)section, other) != answer) fail("other content", answer);
    if (answer == THORIN_DONE && (other->size != lent->size || (other->size > 0 && other->at != lent->at)))
      fail("other content", answer);
  }
  for (uint64_t i = 0; i < 4; i++) {
    thorin_bytes *lent = box(sizeof *lent), *other = box(sizeof *other);
    answer = thorin_string_in(package, bytes, size, kind, id, i, lent);
    count(answer, "string_in");
    if (status != THORIN_DONE && answer != status) fail("string and look-up differ", answer);
    test_lent(lent, answer, 1, bytes, size);
    if (!opened) continue;
    if (thorin_string(bytes, size, kind, id, i, other) != answer) fail("another string", answer);
    if (answer == THORIN_DONE && (other->size != lent->size || other->at != lent->at)) fail("another string", answer);
  }
  unbox(mark);
}

/* The units that an open package lists, as far as there is room. */
static size_t list_in(const thorin_package *package, const uint8_t *bytes, size_t size, thorin_name *names, size_t room) {
  uint64_t *units = box(sizeof *units);
  int32_t answer = thorin_list_in(package, bytes, size, room == 0 && drawn(2) ? NULL : names, room, units);
  count(answer, "list_in");
  if (answer != THORIN_DONE && answer != THORIN_MALFORMED_INDEX) fail("no status of a list", answer);
  if (answer == THORIN_DONE) return *units < room ? (size_t)*units : room;
  if (!is_untouched(units, sizeof *units) || !is_untouched(names, room * sizeof *names)) fail("a list was written", answer);
  return 0;
}

/* The calls over an open package whatever its numbers are: the names that it lists, and others. */
static void read_open(const thorin_package *package, const uint8_t *bytes, size_t size, uint64_t id) {
  size_t mark = boxed, room = (size_t)drawn(4);
  thorin_name *names = box(room * sizeof *names);
  thorin_package *copy = box(sizeof *copy);
  *copy = *package;
  size_t listed = list_in(copy, bytes, size, names, room);
  for (size_t i = 0; i < listed; i++) look_up_in(copy, bytes, size, names[i].kind, names[i].id, NULL);
  look_up_in(copy, bytes, size, (uint8_t)(drawn(8) ? 1 + drawn(2) : drawn(256)), id, NULL);
  if (memcmp(copy, package, sizeof *copy) != 0) fail("an open package was written", 0);
  unbox(mark);
}

/* A number of an open package, changed. */
static void change(uint64_t *number, size_t size) {
  switch (drawn(4)) {
    case 0: *number = drawn(size + 2); break;
    case 1: *number ^= (uint64_t)1 << drawn(64); break;
    case 2: *number = UINT64_MAX - drawn(size + 2); break;
    default: *number += drawn(5) - 2;
  }
}

/* A range inside the bytes. */
static thorin_range some_range(size_t size) {
  thorin_range range;
  range.offset = drawn(size + 1);
  range.size = drawn(size - range.offset + 1);
  return range;
}

/* Packages that nobody opened: of random numbers, of random ranges, of sections that stand for one another, of zeros. */
static void make_package(thorin_package *package, const thorin_package *opened, size_t size) {
  uint64_t *numbers = (uint64_t *)package;
  thorin_range *ranges = &package->info;
  size_t many = sizeof *package / sizeof *numbers, sections = many / 2, manner = (size_t)drawn(6);
  *package = *opened;
  if (manner == 0) memset(package, drawn(2) ? 0xff : 0, sizeof *package);
  for (size_t i = 0; manner == 1 && i < many; i++) numbers[i] = drawn(UINT64_MAX);
  for (size_t i = 0; manner == 2 && i < many; i++) change(&numbers[i], size);
  for (size_t i = 0; manner == 3 && i < sections; i++) ranges[i] = some_range(size);
  for (size_t i = 0; manner == 4 && i < sections; i++) ranges[i] = (&opened->info)[drawn(sections)];
  /* The indexes as they were, any other sections. */
  for (size_t i = 0; manner == 5 && i < sections - 2; i++) ranges[i] = some_range(size);
  if (manner > 2) package->big_endian = drawn(8) == 0 ? drawn(UINT64_MAX) : opened->big_endian;
}

/* A package as it was opened, damaged step by step, and others in its place; `before` is the one that was opened before, of
 * another file. */
static void read_opened(const uint8_t *bytes, size_t size, int32_t status, thorin_package *before,
                        const thorin_lookup *lookups) {
  size_t mark = boxed;
  thorin_package *package = box(sizeof *package), other;
  int32_t opened = thorin_open(bytes, size, package);
  count(opened, "open");
  if (opened != status) fail("open and count differ", opened);
  if (opened != THORIN_DONE && !is_untouched(package, sizeof *package)) fail("an open package was written", opened);
  for (size_t i = 0; opened == THORIN_DONE && i < 13; i++) {
    const thorin_range *range = &package->info + i;
    if (range->offset > size || range->size > size - range->offset) fail("a section outside", opened);
  }
  for (size_t i = 0; opened == THORIN_DONE && i < 7; i++)
    look_up_in(package, bytes, size, lookups[i].kind, lookups[i].id, &lookups[i]);
  read_open(before, bytes, size, lookups[0].id);
  for (size_t i = 0; i < 4; i++) {
    make_package(&other, drawn(2) ? package : before, size);
    read_open(&other, bytes, size, lookups[i].id);
  }
  if (opened == THORIN_DONE) *before = *package;
  for (size_t i = 0; i < 4; i++) {
    change((uint64_t *)package + drawn(sizeof *package / sizeof(uint64_t)), size);
    read_open(package, bytes, size, lookups[i].id);
  }
  unbox(mark);
}

/* The calls that read a package. */
static void read_package(const uint8_t *bytes, size_t size, thorin_package *before) {
  size_t mark = boxed;
  uint64_t *units = box(sizeof *units), *listed = box(sizeof *listed);
  int32_t status = thorin_unit_count(bytes, size, units);
  count(status, "unit_count");
  if (status != THORIN_DONE && !is_untouched(units, sizeof *units)) fail("a count was written", status);
  size_t many = status == THORIN_DONE ? (size_t)*units : 0, room = many < 4 ? many : 4;
  thorin_name *names = box(room * sizeof *names);
  count(status, "list");
  if (thorin_list(bytes, size, names, room, listed) != status || *listed != *units) fail("list and count differ", status);
  thorin_lookup *lookups = box(7 * sizeof *lookups), *rows = box(7 * sizeof *rows);
  for (size_t i = 0; i < 7; i++) {
    lookups[i].id = i < room ? names[i].id : drawn(UINT64_MAX);
    lookups[i].kind = i < room ? names[i].kind : (uint8_t)(1 + drawn(3));
    lookups[i].status = 77;
  }
  memcpy(rows, lookups, 7 * sizeof *rows);
  int32_t answer = thorin_find_rows(bytes, size, rows, 7);
  count(answer, "find_rows");
  if (answer != status) fail("rows and count differ", answer);
  if (answer != THORIN_DONE && memcmp(rows, lookups, 7 * sizeof *rows) != 0) fail("a row was written", answer);
  answer = thorin_find_each(bytes, size, lookups, 7);
  count(answer, "find_each");
  if (answer != status) fail("look-ups and count differ", answer);
  for (size_t i = 0; i < 7; i++) {
    if (answer == THORIN_DONE) {
      test_row(rows[i].status, &rows[i].unit, lookups[i].status, &lookups[i].unit);
    } else {
      if (lookups[i].status != 77) fail("a look-up was written", answer);
      lookups[i].status = answer;
    }
    size_t inner = boxed;
    look_up(bytes, size, &lookups[i]);
    unbox(inner);
  }
  read_opened(bytes, size, status, before, lookups);
  unbox(mark);
}

/* ---- executables, compressed files, statuses */

/* The objects that a file names: what is told of them fits together. */
static void list_skeletons(const uint8_t *bytes, size_t size) {
  size_t mark = boxed;
  thorin_skeleton *names = box(3 * sizeof *names);
  uint8_t *paths = box(99);
  thorin_report *report = box(sizeof *report);
  uint64_t *units = box(sizeof *units), sum = 0;
  int32_t status = thorin_skeletons(bytes, size, names, 3, paths, 99, units, report);
  count(status, "skeletons");
  if (status != THORIN_DONE && status != THORIN_REFUSED) fail("no status of skeletons", status);
  test_report(report, status == THORIN_REFUSED ? THORIN_UNFINISHED : status, 0);
  if (!is_untouched(&report->input, 20)) fail("a field of the report was written", status);
  for (uint64_t i = 0; i < *units && i < 3; i++) {
    if (names[i].kind != THORIN_COMPILATION && names[i].kind != THORIN_TYPE_UNIT) fail("no such kind", status);
    sum += names[i].path_size + 1;
    if (sum <= 99 && paths[sum - 1] != 0) fail("a path has no end", status);
  }
  if (*units <= 3 && sum != report->size) fail("paths of another size", status);
  if (report->size < 99 && !is_untouched(paths + report->size, 99 - (size_t)report->size)) fail("more paths", status);
  unbox(mark);
}

static int32_t decompress_into(const uint8_t *bytes, size_t size, uint8_t *out, size_t room, uint64_t *length) {
  int32_t status = thorin_decompress(bytes, size, out, room, length);
  count(status, "decompress");
  int is_told = status == THORIN_DONE || status == THORIN_TOO_SMALL;
  if (!is_told && status != THORIN_MALFORMED_FILE && status < THORIN_NO_MEMORY) fail("no status of a file", status);
  if (is_told ? (status == THORIN_DONE) != (*length <= room) : !is_untouched(length, sizeof *length))
    fail("another length", status);
  if (status != THORIN_DONE && room > 0 && !is_untouched(out, room)) fail("a file was written", status);
  return status;
}

/* A file with plain sections: it has none that are compressed, and packing it meets none. A damaged stream is found only where
 * there is room. */
static void decompress(const uint8_t *bytes, size_t size) {
  size_t mark = boxed, room = (size_t)drawn(600);
  uint64_t *length = box(sizeof *length), *again = box(sizeof *again), *none = box(sizeof *none);
  int32_t status = room < 100 ? decompress_into(bytes, size, NULL, 0, length)
                              : decompress_into(bytes, size, box(room), room, length);
  if (status == THORIN_DONE || status == THORIN_TOO_SMALL) {
    size_t plain_size = (size_t)*length;
    uint8_t *plain = box(plain_size);
    int32_t whole = decompress_into(bytes, size, plain, plain_size, again);
    if (whole != THORIN_DONE) {
      if (status == THORIN_DONE || (whole != THORIN_DAMAGED && whole != THORIN_DAMAGED_ZSTD && whole != THORIN_UNWRITABLE))
        fail("another file", whole);
      unbox(mark);
      return;
    }
    if (*again != plain_size) fail("another length", status);
    if (decompress_into(plain, plain_size, NULL, 0, none) != THORIN_NOT_COMPRESSED) fail("a compressed section is left", status);
    thorin_bytes input = {plain, plain_size};
    thorin_report *report = box(sizeof *report);
    int32_t answer = thorin_pack(&input, 1, NULL, 0, report);
    count(answer, "pack");
    if (answer == THORIN_REFUSED && report->fault == THORIN_FAULT_DECOMPRESS_DATA) fail("packing met a compressed section", answer);
  }
  unbox(mark);
}

static void test_text(int32_t status) {
  size_t mark = boxed, room = (size_t)drawn(70), whole = thorin_status_text(status, NULL, 0);
  uint8_t *text = box(room);
  if (whole == 0 || whole > 63) fail("a text of another length", status);
  if (thorin_status_text(status, text, room) != whole) fail("another text", status);
  if (whole < room && !is_untouched(text + whole, room - whole)) fail("a longer text", status);
  for (size_t i = 0; i < whole && i < room; i++)
    if (text[i] < ' ' || text[i] > '~') fail("no text", status);
  unbox(mark);
}

/* ---- packing */

/* The calls that pack, over inputs in two rooms that are overwritten in the end. */
static void pack(size_t many, room_t *one, room_t *other, size_t room) {
  size_t mark = boxed;
  thorin_bytes inputs[2] = {{one->at, one->size}, {other->at, other->size}};
  uint8_t *out = box(room);
  thorin_report *report = box(sizeof *report), *again = box(sizeof *again);
  int32_t status = thorin_pack(many == 0 && drawn(2) ? NULL : inputs, many, out, room, report);
  count(status, "pack");
  test_report(report, status, many);
  if (status == THORIN_TOO_SMALL) fail("the room is small", status);
  if (status == THORIN_DONE && report->packs_again > 1) fail("packs_again is no answer", status);
  size_t written = status == THORIN_DONE ? (size_t)report->size : 0;
  if (!is_untouched(out + written, room - written)) fail("out was written past the package", status);

  uint64_t *types = box(sizeof *types);
  int32_t answer = thorin_differing_types(inputs, many, types, 1, again);
  count(answer, "differing_types");
  test_report(again, answer, many);
  if (status == THORIN_DONE && (answer != THORIN_DONE || again->differing != report->differing)) fail("others differ", answer);
  if ((answer != THORIN_DONE || again->differing == 0) && !is_untouched(types, sizeof *types)) fail("a type was written", answer);
  if (status == THORIN_REFUSED && (answer != status || again->input != report->input || again->fault != report->fault))
    fail("another refusal", answer);

  if (status == THORIN_DONE) {
    size_t small = written - 1 - (size_t)drawn(written);
    uint8_t *none = box(small), *copy = box(written);
    answer = thorin_pack(inputs, many, none, small, again);
    count(answer, "pack");
    if (answer != THORIN_TOO_SMALL || again->size != report->size) fail("another size", answer);
    if (!is_untouched(none, small)) fail("too small a room was written", answer);
    answer = thorin_pack(inputs, many, copy, written, again);
    count(answer, "pack");
    if (answer != THORIN_DONE || memcmp(copy, out, written) != 0) fail("another package", answer);
    overwrite(one);
    overwrite(other);
    if (memcmp(copy, out, written) != 0) fail("the package isn't apart from its inputs", status);
    thorin_bytes packaged = {copy, written};
    if (report->packs_again) {
      answer = thorin_pack(&packaged, 1, out, room, again);
      count(answer, "pack");
      if (answer != THORIN_DONE) fail("the package isn't taken again", answer);
    }
    uint64_t *units = box(sizeof *units);
    if (thorin_unit_count(copy, written, units) != THORIN_DONE) fail("the package can't be read", status);
  }
  unbox(mark);
}

int main(int argc, char **argv) {
  if (argc < 5 || thorin_version() != THORIN_VERSION) return 2;
  state = strtoull(argv[1], NULL, 10) * 2 + 1;
  uint64_t times = strtoull(argv[2], NULL, 10), all = 0;
  is_heap = strcmp(argv[3], "heap") == 0;
  size_t files = (size_t)argc - 4, most = 1;
  thorin_bytes *whole = calloc(files, sizeof *whole);
  for (size_t i = 0; whole && i < files; i++) {
    whole[i] = read_file(argv[i + 4]);
    if (whole[i].size > most) most = whole[i].size;
  }
  uint8_t *damaged = malloc(most);
  if (!whole || !damaged) return 2;
  room_t one, both;
  make_room(&one, most);
  make_room(&both, most);
  thorin_package before;
  memset(&before, 0, sizeof before);
  for (uint64_t i = 0; i < times; i++) {
    started = state;
    size_t size = damage(damaged, &whole[drawn(files)]);
    put(&one, damaged, size);
    read_package(one.at, size, &before);
    list_skeletons(one.at, size);
    decompress(one.at, size);
    test_text((int32_t)drawn(40) - 10);
    /* Two inputs, the second as it is or damaged too. */
    const thorin_bytes *other = &whole[drawn(files)];
    if (drawn(2))
      put(&both, damaged, damage(damaged, other));
    else
      put(&both, other->at, other->size);
    pack((size_t)drawn(3), &one, &both, 4 * most + 8192);
  }
  for (int i = 0; i < STATUSES; i++) all += calls[i];
  printf("%" PRIu64 " damaged files, %" PRIu64 " calls:", times, all);
  for (int i = 0; i < STATUSES; i++) printf(" %d:%" PRIu64, i, calls[i]);
  printf("\n");
  for (size_t i = 0; i < files; i++) free((void *)whole[i].at);
  free(whole);
  free(damaged);
  free(one.block);
  free(both.block);
  munmap(one.begin, (size_t)(one.end - one.begin));
  munmap(both.begin, (size_t)(both.end - both.begin));
  return 0;
}
