/* lookup PACKAGE [IDENTIFIER..]: prints what a symbolizer takes of compilation units, those of the identifiers that
 * skeleton units have in their DW_AT_GNU_dwo_id or header; or of all units. */
#include "common.h"
#include <inttypes.h>

static void print_range(const char *name, thorin_range range) {
  if (range.size > 0) printf("  %s 0x%" PRIx64 " 0x%" PRIx64 "\n", name, range.offset, range.size);
}

static void print_unit(const thorin_package *opened, thorin_bytes package, const thorin_lookup *asked) {
  const thorin_unit *unit = &asked->unit;
  printf("%s 0x%016" PRIx64 ": ", asked->kind == THORIN_TYPE_UNIT ? "tu" : "cu", asked->id);
  if (asked->status != THORIN_DONE) {
    print_status(stdout, asked->status);
    return;
  }
  printf("row %" PRIu32 ", %" PRIu32 " slots, version %u, offsets of %u bytes, addresses of %u\n", unit->row,
         unit->slots, unit->version, unit->offset_size, unit->address_size);
  print_range("info", unit->info);
  print_range("types", unit->types);
  print_range("abbreviations", unit->abbreviations);
  print_range("line", unit->line);
  print_range("loc", unit->loc);
  print_range("loclists", unit->loclists);
  print_range("rnglists", unit->rnglists);
  print_range("str_offsets", unit->str_offsets);
  print_range("macinfo", unit->macinfo);
  print_range("macro", unit->macros);
  thorin_bytes string;
  for (uint64_t i = 0;
       thorin_string_in(opened, package.at, package.size, asked->kind, asked->id, i, &string) == THORIN_DONE; i++) {
    printf("  string ");
    fwrite(string.at, 1, string.size, stdout);
    printf("\n");
  }
}

static void stop(int32_t status) {
  fprintf(stderr, "error: ");
  print_status(stderr, status);
  exit(1);
}

/* The look-ups of all units of a package that is open. */
static thorin_lookup *all_units(const thorin_package *opened, thorin_bytes package, size_t *count) {
  uint64_t units = 0;
  int32_t status = thorin_list_in(opened, package.at, package.size, NULL, 0, &units);
  thorin_name *names = calloc(units + 1, sizeof *names);
  thorin_lookup *lookups = calloc(units + 1, sizeof *lookups);
  if (status == THORIN_DONE && names && lookups)
    status = thorin_list_in(opened, package.at, package.size, names, units, &units);
  if (status != THORIN_DONE || !names || !lookups) stop(status);
  for (uint64_t i = 0; i < units; i++) {
    lookups[i].id = names[i].id;
    lookups[i].kind = names[i].kind;
  }
  free(names);
  *count = units;
  return lookups;
}

int main(int argc, char **argv) {
  if (argc < 2) {
    fprintf(stderr, "usage: lookup PACKAGE [IDENTIFIER..]\n");
    return 2;
  }
  thorin_bytes package = read_file(argv[1]);
  thorin_package opened;
  int32_t status = thorin_open(package.at, package.size, &opened);
  if (status != THORIN_DONE) stop(status);
  size_t count = (size_t)argc - 2;
  thorin_lookup *lookups;
  if (count == 0) {
    lookups = all_units(&opened, package, &count);
  } else {
    lookups = calloc(count, sizeof *lookups);
    if (!lookups) return 1;
    for (size_t i = 0; i < count; i++) {
      lookups[i].id = strtoull(argv[i + 2], NULL, 16);
      lookups[i].kind = THORIN_COMPILATION;
    }
  }
  for (size_t i = 0; i < count; i++) {
    thorin_lookup *asked = &lookups[i];
    asked->status = thorin_find_in(&opened, package.at, package.size, asked->kind, asked->id, &asked->unit);
    print_unit(&opened, package, asked);
  }
  free(lookups);
  free((void *)package.at);
  return 0;
}
