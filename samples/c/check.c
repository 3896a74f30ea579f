/* check: what the calls answer of a small object, value for value. The object has the compilation unit 5 of DWARF 4, an
 * abbreviation, and two strings, `b` and `a`. */
#include "thorin.h"
#include <inttypes.h>
#include <stdio.h>
#include <string.h>

_Static_assert(THORIN_NO_SUCH_STRING == 8 && THORIN_TOO_SMALL == 10 && THORIN_REFUSED == 11, "statuses");
_Static_assert(THORIN_FAULT_DUPLICATE_UNIT == 29 && THORIN_ABBREVIATIONS == 2, "a fault and a section");

static unsigned calls, failed;

/* Counts a value that isn't the one that is wanted, and tells it. */
static void same(int line, const char *what, uint64_t found, uint64_t want) {
  if (found == want) return;
  failed++;
  fprintf(stderr, "check.c:%d: %s is %" PRIu64 ", wanted %" PRIu64 "\n", line, what, found, want);
}

#define SAME(found, want) same(__LINE__, #found, (uint64_t)(found), (uint64_t)(want))
#define CALL(call, want) (calls++, SAME(call, want))
#define BYTES(found, want, length) \
  (SAME((found).size, length), SAME((found).size == (length) && memcmp((found).at, want, length) == 0, 1))

/* The sections of the object, as they stand in the file: the unit, its abbreviations, the strings, and their offsets. */
static const uint8_t unit_bytes[20] = {0x10, 0, 0, 0, 4, 0, 0, 0, 0, 0, 8, 1, 5, 0, 0, 0, 0, 0, 0, 0};
static const uint8_t abbreviations[9] = {0x01, 0x11, 0x00, 0xb1, 0x42, 0x07, 0x00, 0x00, 0x00};
static const uint8_t strings[4] = {'a', 0, 'b', 0};
static const uint8_t string_offsets[8] = {2, 0, 0, 0, 0, 0, 0, 0};

static const char names[] = "\0.debug_info.dwo\0.debug_abbrev.dwo\0.debug_str.dwo\0.debug_str_offsets.dwo\0.shstrtab";

#define HEADERS 192
#define SECTIONS 6
static uint8_t object[HEADERS + SECTIONS * 64];

static void put_in(uint8_t *to, uint64_t value, size_t size) {
  for (size_t i = 0; i < size; i++) to[i] = (uint8_t)(value >> (8 * i));
}

static void put(size_t at, uint64_t value, size_t size) { put_in(object + at, value, size); }

/* Puts a section's content and its header: its number, the place of its name, its type and its place in the file. */
static size_t put_section(size_t number, size_t name, uint32_t type, size_t at, const void *content, size_t size) {
  size_t header = HEADERS + number * 64;
  memcpy(object + at, content, size);
  put(header, name, 4);
  put(header + 4, type, 4);
  put(header + 24, at, 8);
  put(header + 32, size, 8);
  put(header + 48, 1, 8);
  return at + size;
}

/* Makes the object: a file of 64 bits, little endian, for x86-64 (ELF gABI, chapter 4). */
static void make_object(void) {
  static const uint8_t ident[7] = {0x7f, 'E', 'L', 'F', 2, 1, 1};
  memcpy(object, ident, sizeof ident);
  put(16, 1, 2);        /* e_type: a relocatable file */
  put(18, 62, 2);       /* e_machine */
  put(20, 1, 4);        /* e_version */
  put(40, HEADERS, 8);  /* e_shoff */
  put(52, 64, 2);       /* e_ehsize */
  put(58, 64, 2);       /* e_shentsize */
  put(60, SECTIONS, 2); /* e_shnum */
  put(62, 5, 2);        /* e_shstrndx */
  size_t at = 64;
  at = put_section(1, 1, 1, at, unit_bytes, sizeof unit_bytes);
  at = put_section(2, 17, 1, at, abbreviations, sizeof abbreviations);
  at = put_section(3, 35, 1, at, strings, sizeof strings);
  at = put_section(4, 50, 1, at, string_offsets, sizeof string_offsets);
  at = put_section(5, 73, 3, at, names, sizeof names);
  SAME(at <= HEADERS, 1);
}

static void an_object_is_packed_and_found(void) {
  thorin_bytes input = {object, sizeof object};
  static uint8_t out[1000];
  thorin_report report = {0};
  CALL(thorin_pack(&input, 1, out, 727, &report), THORIN_TOO_SMALL);
  SAME(report.size, 728);
  CALL(thorin_pack(&input, 1, out, sizeof out, &report), THORIN_DONE);
  SAME(report.size, 728);
  SAME(report.packs_again, 1);
  uint64_t count = 0;
  CALL(thorin_unit_count(out, 728, &count), THORIN_DONE);
  SAME(count, 1);
  thorin_unit unit = {0};
  CALL(thorin_find(out, 728, THORIN_COMPILATION, 5, &unit), THORIN_DONE);
  SAME(unit.info.size, 20);
  SAME(unit.str_offsets.size, 8);
  SAME(unit.row, 1);
  thorin_bytes lent;
  CALL(thorin_string(out, 728, THORIN_COMPILATION, 5, 0, &lent), THORIN_DONE);
  BYTES(lent, "b", 1);
  CALL(thorin_string(out, 728, THORIN_COMPILATION, 5, 2, &lent), THORIN_NO_SUCH_STRING);
  CALL(thorin_content(out, 728, THORIN_COMPILATION, 5, THORIN_ABBREVIATIONS, &lent), THORIN_DONE);
  BYTES(lent, abbreviations, sizeof abbreviations);
}

static void a_second_unit_of_a_name_is_refused(void) {
  thorin_bytes inputs[2] = {{object, sizeof object}, {object, sizeof object}};
  static uint8_t none[1];
  thorin_report report = {0};
  CALL(thorin_pack(inputs, 2, none, 0, &report), THORIN_REFUSED);
  SAME(report.input, 1);
  SAME(report.fault, THORIN_FAULT_DUPLICATE_UNIT);
  SAME(report.text_size, 45);
  SAME(strcmp(report.text, "Duplicate split compilation unit (0x00000005)"), 0);
}

/* The statuses of look-ups of the unit, of a type unit, of a unit that isn't there, and of no kind; and the unit's
 * version. */
static void looked_up(const thorin_lookup *lookups, uint16_t version) {
  static const int32_t want[4] = {THORIN_DONE, THORIN_ABSENT, THORIN_ABSENT, THORIN_NO_SUCH_KIND};
  for (size_t i = 0; i < 4; i++) SAME(lookups[i].status, want[i]);
  SAME(lookups[0].unit.info.size, 20);
  SAME(lookups[0].unit.version, version);
}

static void many_units_are_looked_up_and_listed(void) {
  thorin_bytes input = {object, sizeof object};
  static uint8_t out[728];
  thorin_report report = {0};
  CALL(thorin_pack(&input, 1, out, sizeof out, &report), THORIN_DONE);
  thorin_lookup lookups[4] = {{.id = 5, .kind = 1}, {.id = 5, .kind = 2}, {.id = 6, .kind = 1}, {.id = 5, .kind = 3}};
  for (size_t i = 0; i < 4; i++) lookups[i].status = 77;
  CALL(thorin_find_rows(out, sizeof out, lookups, 4), THORIN_DONE);
  looked_up(lookups, 0);
  CALL(thorin_find_each(out, sizeof out, lookups, 4), THORIN_DONE);
  looked_up(lookups, 4);
  thorin_name listed[2] = {{0}, {0}};
  uint64_t count = 0, type = 0;
  CALL(thorin_list(out, sizeof out, listed, 2, &count), THORIN_DONE);
  SAME(count, 1);
  SAME(listed[0].id, 5);
  SAME(listed[1].id, 0);
  SAME(listed[0].kind, THORIN_COMPILATION);
  SAME(listed[1].kind, 0);
  CALL(thorin_differing_types(&input, 1, &type, 0, &report), THORIN_DONE);
  SAME(report.differing, 0);
}

static void a_package_stays_open(void) {
  thorin_bytes input = {object, sizeof object}, lent;
  static uint8_t out[728];
  thorin_report report = {0};
  CALL(thorin_pack(&input, 1, out, sizeof out, &report), THORIN_DONE);
  thorin_package package = {.big_endian = 0};
  CALL(thorin_open(out, sizeof out, &package), THORIN_DONE);
  /* Of a package of one object: a file's header, and the sections in the order in which they were begun. */
  SAME(package.info.size, 20);
  SAME(package.strings.size, 4);
  SAME(package.types.size, 0);
  SAME(package.big_endian, 0);
  SAME(memcmp(out + package.info.offset, unit_bytes, sizeof unit_bytes), 0);
  thorin_unit unit = {0}, row = {0};
  CALL(thorin_find_in(&package, out, sizeof out, THORIN_COMPILATION, 5, &unit), THORIN_DONE);
  SAME(unit.info.size, 20);
  SAME(unit.version, 4);
  CALL(thorin_find_row_in(&package, out, sizeof out, THORIN_COMPILATION, 5, &row), THORIN_DONE);
  SAME(row.info.size, 20);
  SAME(row.version, 0);
  CALL(thorin_find_in(&package, out, sizeof out, THORIN_TYPE_UNIT, 5, &unit), THORIN_ABSENT);
  CALL(thorin_string_in(&package, out, sizeof out, THORIN_COMPILATION, 5, 1, &lent), THORIN_DONE);
  BYTES(lent, "a", 1);
  CALL(thorin_string_in(&package, out, sizeof out, THORIN_COMPILATION, 5, 2, &lent), THORIN_NO_SUCH_STRING);
  CALL(thorin_content_in(&package, out, sizeof out, THORIN_COMPILATION, 5, THORIN_ABBREVIATIONS, &lent), THORIN_DONE);
  BYTES(lent, abbreviations, sizeof abbreviations);
  thorin_name listed = {0};
  uint64_t count = 0;
  CALL(thorin_list_in(&package, out, sizeof out, &listed, 1, &count), THORIN_DONE);
  SAME(count, 1);
  SAME(listed.id, 5);
  /* Numbers that are wrong are no danger. */
  package.cu_index.offset = UINT64_MAX;
  CALL(thorin_find_in(&package, out, sizeof out, THORIN_COMPILATION, 5, &unit), THORIN_ABSENT);
  CALL(thorin_list_in(&package, out, sizeof out, &listed, 1, &count), THORIN_DONE);
  SAME(count, 0);
  CALL(thorin_open(object, 100, &package), THORIN_MALFORMED_FILE);
}

/* Null with size 0, wherever a pointer has a size. */
static void null_is_a_place_of_nothing(void) {
  thorin_bytes inputs[2] = {{NULL, 0}, {object, sizeof object}}, lent;
  thorin_report report = {0};
  thorin_package package = {.big_endian = 0};
  thorin_unit unit = {0};
  uint64_t count = 0;
  CALL(thorin_open(NULL, 0, &package), THORIN_MALFORMED_FILE);
  CALL(thorin_find(NULL, 0, THORIN_COMPILATION, 5, &unit), THORIN_MALFORMED_FILE);
  CALL(thorin_find_in(&package, NULL, 0, THORIN_COMPILATION, 5, &unit), THORIN_ABSENT);
  CALL(thorin_find_row_in(&package, NULL, 0, THORIN_COMPILATION, 5, &unit), THORIN_ABSENT);
  CALL(thorin_find_each(NULL, 0, NULL, 0), THORIN_MALFORMED_FILE);
  CALL(thorin_find_rows(NULL, 0, NULL, 0), THORIN_MALFORMED_FILE);
  CALL(thorin_content(NULL, 0, THORIN_COMPILATION, 5, THORIN_INFO, &lent), THORIN_MALFORMED_FILE);
  CALL(thorin_string(NULL, 0, THORIN_COMPILATION, 5, 0, &lent), THORIN_MALFORMED_FILE);
  CALL(thorin_content_in(&package, NULL, 0, THORIN_COMPILATION, 5, THORIN_INFO, &lent), THORIN_ABSENT);
  CALL(thorin_string_in(&package, NULL, 0, THORIN_COMPILATION, 5, 0, &lent), THORIN_ABSENT);
  CALL(thorin_unit_count(NULL, 0, &count), THORIN_MALFORMED_FILE);
  CALL(thorin_list(NULL, 0, NULL, 0, &count), THORIN_MALFORMED_FILE);
  CALL(thorin_list_in(&package, NULL, 0, NULL, 0, &count), THORIN_DONE);
  SAME(count, 0);
  CALL(thorin_status_text(THORIN_DONE, NULL, 0), 4);
  CALL(thorin_pack(NULL, 0, NULL, 0, &report), THORIN_UNFINISHED);
  SAME(report.fault, THORIN_FAULT_NO_OUTPUT_OBJECT_CREATED);
  CALL(thorin_pack(inputs, 2, NULL, 0, &report), THORIN_REFUSED);
  SAME(report.input, 0);
  SAME(report.fault, THORIN_FAULT_PARSE_FILE_KIND);
  CALL(thorin_pack(inputs + 1, 1, NULL, 0, &report), THORIN_TOO_SMALL);
  SAME(report.size, 728);
  CALL(thorin_differing_types(inputs + 1, 1, NULL, 0, &report), THORIN_DONE);
  CALL(thorin_skeletons(NULL, 0, NULL, 0, NULL, 0, &count, &report), THORIN_REFUSED);
  SAME(report.fault, THORIN_FAULT_PARSE_OBJECT_FILE);
}

/* An object that was split names no other: no unit of it is in `.debug_info`. */
static void a_split_object_names_no_other(void) {
  thorin_report report = {0};
  thorin_skeleton skeleton = {7, 7, 7};
  uint8_t path[1] = {7};
  uint64_t count = 7;
  CALL(thorin_skeletons(object, sizeof object, &skeleton, 1, path, 1, &count, &report), THORIN_DONE);
  SAME(count, 0);
  SAME(report.size, 0);
  SAME(skeleton.id, 7);
  SAME(path[0], 7);
}

/* The same object with its abbreviations compressed: behind a header of 24 bytes a stream of one stored block, zlib's with the
 * check sum that Python's zlib gives, or zstd's (RFC 1950, 1951 and 8878; ELF gABI, "Section Compression"). */
static void a_compressed_object_becomes_plain(void) {
  static const uint8_t begins[7] = {0x78, 1, 1, 9, 0, 0xf6, 0xff}, ends[4] = {0x06, 0x26, 0x01, 0x0d};
  static const uint8_t begins_zstd[9] = {0x28, 0xb5, 0x2f, 0xfd, 0x20, 9, 0x49, 0, 0};
  static uint8_t packed[sizeof object + 44], plain[2 * sizeof packed], package[1024], wanted[1024];
  uint8_t *content = packed + sizeof object, *header = packed + HEADERS + 2 * 64;
  thorin_report report = {0}, other = {0};
  uint64_t length = 7;
  memcpy(packed, object, sizeof object);
  put_in(content, 1, 8);
  put_in(content + 8, sizeof abbreviations, 8);
  put_in(content + 16, 1, 8);
  memcpy(content + 24, begins, sizeof begins);
  memcpy(content + 31, abbreviations, sizeof abbreviations);
  memcpy(content + 40, ends, sizeof ends);
  put_in(header + 8, 0x800, 8);
  put_in(header + 24, sizeof object, 8);
  put_in(header + 32, 44, 8);
  thorin_bytes before = {object, sizeof object}, input = {packed, sizeof packed};

  CALL(thorin_pack(&input, 1, package, sizeof package, &report), THORIN_REFUSED);
  SAME(report.fault, THORIN_FAULT_DECOMPRESS_DATA);
  CALL(thorin_decompress(object, sizeof object, plain, sizeof plain, &length), THORIN_NOT_COMPRESSED);
  CALL(thorin_decompress(NULL, 0, NULL, 0, &length), THORIN_MALFORMED_FILE);
  packed[sizeof packed - 1] ^= 1;
  CALL(thorin_decompress(packed, sizeof packed, plain, sizeof plain, &length), THORIN_DAMAGED);
  packed[sizeof packed - 1] ^= 1;
  content[0] = 2;
  CALL(thorin_decompress(packed, sizeof packed, plain, sizeof plain, &length), THORIN_DAMAGED_ZSTD);
  content[0] = 3;
  CALL(thorin_decompress(packed, sizeof packed, plain, sizeof plain, &length), THORIN_NOT_ZLIB);
  content[0] = 1;
  SAME(length, 7);
  SAME(plain[0], 0);
  CALL(thorin_decompress(packed, sizeof packed, NULL, 0, &length), THORIN_TOO_SMALL);
  input.at = plain;
  input.size = length;
  CALL(thorin_decompress(packed, sizeof packed, plain, length, &length), THORIN_DONE);
  SAME(length, input.size);
  CALL(thorin_pack(&input, 1, package, sizeof package, &report), THORIN_DONE);
  CALL(thorin_pack(&before, 1, wanted, sizeof wanted, &other), THORIN_DONE);
  SAME(report.size == other.size && memcmp(package, wanted, report.size) == 0, 1);

  content[0] = 2;
  memcpy(content + 24, begins_zstd, sizeof begins_zstd);
  memcpy(content + 33, abbreviations, sizeof abbreviations);
  put_in(header + 32, 42, 8);
  memset(plain, 0, sizeof plain);
  CALL(thorin_decompress(packed, sizeof packed, plain, sizeof plain, &length), THORIN_DONE);
  SAME(length, input.size);
  CALL(thorin_pack(&input, 1, package, sizeof package, &report), THORIN_DONE);
  SAME(report.size == other.size && memcmp(package, wanted, report.size) == 0, 1);
}

int main(void) {
  SAME(thorin_version(), THORIN_VERSION);
  make_object();
  an_object_is_packed_and_found();
  a_second_unit_of_a_name_is_refused();
  many_units_are_looked_up_and_listed();
  a_package_stays_open();
  null_is_a_place_of_nothing();
  a_split_object_names_no_other();
  a_compressed_object_becomes_plain();
  if (failed) return 1;
  printf("check: %u calls as expected\n", calls);
  return 0;
}
