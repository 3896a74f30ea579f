/**
 * @file thorin.h
 * @brief Packages of split DWARF (.dwp), read and packed. For 64-bit machines.
 *
 * The contracts of crates/thorin_c say what each call returns and writes; docs/PROVED.md says how
 * far. They are proved for any bytes, as long as the caller keeps to these rules:
 *
 * - Each pointer has as many elements behind it as you say. Where the size beside it is 0 it may be
 *   null, also in a thorin_bytes. No other pointer is null.
 * - Structures and arrays are aligned as C aligns their types. Packages and inputs may begin at any
 *   address.
 * - No other argument of a call refers to memory that the call writes to.
 * - What a call reads doesn't change while it runs: a mapped file is neither written nor cut short.
 *
 * Compiled with -DTHORIN_CHECK, and without -DNDEBUG, each call of this header asserts what a
 * program can see of this: the pointers, their alignment, and that nothing that is written overlaps
 * anything else.
 *
 * Memory that a call only writes to needn't be initialized. Bytes that a call lends lie in the
 * package: they are valid as long as its memory is there and unchanged; don't free them. A call
 * keeps nothing after it returns, needs no setting up, and may run in several threads at once, even
 * over one package.
 *
 * A call returns a status: 0 (THORIN_DONE) where it did what was asked. The calls that read a
 * package allocate nothing. Those that pack or decompress use malloc, realloc and free, and free
 * all that they allocate. They take bytes: to pack the objects that an executable names, run the
 * program (thorin pack -e), or ask thorin_skeletons() for their paths and read them yourself.
 *
 * The soname of the shared library has the first number of the version, as libthorin.so.1. While
 * that number stays, a program that was built with one version runs with every later one: calls,
 * statuses and faults may be added, and no call, structure or number changes or goes. A new second
 * number means new calls, a new third number none. To learn whether the linked library has the
 * calls of your header, compare THORIN_VERSION with thorin_version().
 */
#ifndef THORIN_H
#define THORIN_H

#include <stddef.h>
#include <stdint.h>

#ifdef __cplusplus
extern "C" {
#endif

/** The first number of the version. */
#define THORIN_VERSION_MAJOR 1
/** The second. */
#define THORIN_VERSION_MINOR 2
/** The third. */
#define THORIN_VERSION_PATCH 0
/** The version of this header as one number. */
#define THORIN_VERSION \
  (THORIN_VERSION_MAJOR * 65536u + THORIN_VERSION_MINOR * 256u + THORIN_VERSION_PATCH)

/**
 * Tells the version of the library that is linked.
 * @return The version as one number, composed as THORIN_VERSION is.
 */
uint32_t thorin_version(void);

/* ---- what calls answer */

/** What a call answers: its status. */
enum thorin_status {
  THORIN_DONE = 0,             /**< the call did what was asked */
  THORIN_ABSENT = 1,           /**< the package has no such unit */
  THORIN_NO_SUCH_KIND = 2,     /**< kind is neither THORIN_COMPILATION nor THORIN_TYPE_UNIT */
  THORIN_MALFORMED_FILE = 3,   /**< no ELF file that can be read, or one of its sections can't be */
  THORIN_MALFORMED_INDEX = 4,  /**< an index can't be read, or a row number is past its rows */
  THORIN_RANGE_OUTSIDE = 5,    /**< a range of the unit is outside its section */
  THORIN_MALFORMED_UNIT = 6,   /**< the unit's header can't be read */
  THORIN_NO_SUCH_SECTION = 7,  /**< section is none of thorin_section */
  THORIN_NO_SUCH_STRING = 8,   /**< the unit has no string of that number */
  THORIN_MALFORMED_STRING = 9, /**< the string is outside the strings, or no zero byte ends it */
  THORIN_TOO_SMALL = 10,       /**< the package needs more room */
  THORIN_REFUSED = 11,         /**< an input was refused */
  THORIN_UNFINISHED = 12,      /**< the package can't be finished or written */
  THORIN_NO_MEMORY = 13,       /**< memory ran out */
  THORIN_NOT_COMPRESSED = 14,  /**< no section is compressed */
  THORIN_DAMAGED = 15,         /**< a compressed section is damaged, or its size is another */
  THORIN_NOT_ZLIB = 16,        /**< a section is compressed by neither zlib nor zstd */
  THORIN_UNWRITABLE = 17,      /**< the decompressed file can't be written, as it is too large */
  THORIN_DAMAGED_ZSTD = 18     /**< as THORIN_DAMAGED, of a section that zstd compressed */
};

/**
 * Writes what a status means, as far as there is room and with no zero byte behind it.
 * @param status The status.
 * @param text Where to write.
 * @param room How many bytes there are room for.
 * @return How many bytes the text has, which is never above 63.
 */
size_t thorin_status_text(int32_t status, uint8_t *text, size_t room);

/* ---- reading a package */

/** Kinds of units. */
enum thorin_kind {
  THORIN_COMPILATION = 1, /**< a compilation unit, named by its DWO id */
  THORIN_TYPE_UNIT = 2    /**< a type unit, named by its type signature */
};

/** Sections that a unit has a part of, in the order of thorin_unit. */
enum thorin_section {
  THORIN_INFO = 0,          /**< .debug_info.dwo */
  THORIN_TYPES = 1,         /**< .debug_types.dwo */
  THORIN_ABBREVIATIONS = 2, /**< .debug_abbrev.dwo */
  THORIN_LINE = 3,          /**< .debug_line.dwo */
  THORIN_LOC = 4,           /**< .debug_loc.dwo */
  THORIN_LOCLISTS = 5,      /**< .debug_loclists.dwo */
  THORIN_RNGLISTS = 6,      /**< .debug_rnglists.dwo */
  THORIN_STR_OFFSETS = 7,   /**< .debug_str_offsets.dwo */
  THORIN_MACINFO = 8,       /**< .debug_macinfo.dwo */
  THORIN_MACRO = 9          /**< .debug_macro.dwo */
};

/** Bytes. */
typedef struct {
  const uint8_t *at; /**< where they begin; null only where there are none */
  size_t size;       /**< how many there are */
} thorin_bytes;

/** A unit's part of a section, in bytes. */
typedef struct {
  uint64_t offset; /**< from the beginning of the section */
  uint64_t size;   /**< 0 where the unit has none there */
} thorin_range;

/** A unit of a package. */
typedef struct {
  thorin_range info;          /**< in .debug_info.dwo */
  thorin_range types;         /**< in .debug_types.dwo */
  thorin_range abbreviations; /**< in .debug_abbrev.dwo */
  thorin_range line;          /**< in .debug_line.dwo */
  thorin_range loc;           /**< in .debug_loc.dwo */
  thorin_range loclists;      /**< in .debug_loclists.dwo */
  thorin_range rnglists;      /**< in .debug_rnglists.dwo */
  thorin_range str_offsets;   /**< in .debug_str_offsets.dwo */
  thorin_range macinfo;       /**< in .debug_macinfo.dwo */
  thorin_range macros;        /**< in .debug_macro.dwo */
  uint32_t row;               /**< its row in the index of its kind, counted from 1 */
  uint32_t slots;             /**< how many slots of the index were looked at */
  uint16_t version;           /**< the version of DWARF */
  uint8_t offset_size;        /**< how many bytes an offset has, 4 or 8 */
  uint8_t address_size;       /**< how many bytes an address has */
} thorin_unit;

/** A unit that an index names. */
typedef struct {
  uint64_t id;  /**< the DWO id of a compilation unit, or the signature of a type unit */
  uint32_t row; /**< its row in the index of its kind, counted from 1 */
  uint8_t kind; /**< THORIN_COMPILATION or THORIN_TYPE_UNIT */
} thorin_name;

/** One of many look-ups: which unit you ask for, and what the call found. */
typedef struct {
  uint64_t id;      /**< the DWO id or type signature that is asked for */
  uint8_t kind;     /**< THORIN_COMPILATION or THORIN_TYPE_UNIT */
  int32_t status;   /**< what thorin_find answers */
  thorin_unit unit; /**< the unit, where the status is THORIN_DONE; else as it was */
} thorin_lookup;

/**
 * Looks a unit up: a compilation unit by its DWO id (DW_AT_GNU_dwo_id of the skeleton, or in DWARF
 * 5 the id in its header), a type unit by its type signature. The package's sections are read anew
 * in each call: for many units use thorin_find_each() or thorin_find_rows().
 * @param bytes The package.
 * @param size How many bytes it has.
 * @param kind THORIN_COMPILATION or THORIN_TYPE_UNIT.
 * @param id The DWO id or type signature.
 * @param[out] found The unit at THORIN_DONE; else as it was.
 * @return THORIN_DONE, THORIN_ABSENT, THORIN_NO_SUCH_KIND, or why the package or the unit can't be
 *   read, THORIN_MALFORMED_FILE to THORIN_MALFORMED_UNIT.
 */
int32_t thorin_find(const uint8_t *bytes, size_t size, uint8_t kind, uint64_t id,
                    thorin_unit *found);

/**
 * Looks many units up, and reads the package's indexes once for all of them.
 * @param bytes The package.
 * @param size How many bytes it has.
 * @param[in,out] lookups What you ask for. At THORIN_DONE each status is filled, and each unit
 *   whose status is THORIN_DONE; else all are as they were.
 * @param count How many there are.
 * @return THORIN_DONE, THORIN_MALFORMED_FILE or THORIN_MALFORMED_INDEX.
 */
int32_t thorin_find_each(const uint8_t *bytes, size_t size, thorin_lookup *lookups, size_t count);

/**
 * The same as thorin_find_each(), but nothing of the units themselves is read, so it takes less
 * time. Where a unit's header can't be read its status is THORIN_DONE all the same; version,
 * offset_size and address_size of each unit are 0.
 * @param bytes The package.
 * @param size How many bytes it has.
 * @param[in,out] lookups What you ask for.
 * @param count How many there are.
 * @return THORIN_DONE, THORIN_MALFORMED_FILE or THORIN_MALFORMED_INDEX.
 */
int32_t thorin_find_rows(const uint8_t *bytes, size_t size, thorin_lookup *lookups, size_t count);

/**
 * Lends a unit's bytes in a section.
 * @param bytes The package.
 * @param size How many bytes it has.
 * @param kind THORIN_COMPILATION or THORIN_TYPE_UNIT.
 * @param id The DWO id or type signature.
 * @param section One of thorin_section.
 * @param[out] found The bytes at THORIN_DONE, inside the package; where the unit has none there,
 *   of size 0, and at is any place but null. Else as it was.
 * @return As thorin_find(), or THORIN_NO_SUCH_SECTION.
 */
int32_t thorin_content(const uint8_t *bytes, size_t size, uint8_t kind, uint64_t id,
                       uint8_t section, thorin_bytes *found);

/**
 * Lends a string of a unit.
 * @param bytes The package.
 * @param size How many bytes it has.
 * @param kind THORIN_COMPILATION or THORIN_TYPE_UNIT.
 * @param id The DWO id or type signature.
 * @param index The string's number: the operand of DW_FORM_strx or DW_FORM_GNU_str_index, by the
 *   unit's own encoding.
 * @param[out] found The string at THORIN_DONE, inside the package, without the zero byte that
 *   ends it; else as it was.
 * @return As thorin_find(), THORIN_NO_SUCH_STRING past the last string, or THORIN_MALFORMED_STRING.
 */
int32_t thorin_string(const uint8_t *bytes, size_t size, uint8_t kind, uint64_t id, uint64_t index,
                      thorin_bytes *found);

/**
 * How many units the indexes name.
 * @param bytes The package.
 * @param size How many bytes it has.
 * @param[out] count How many there are, at THORIN_DONE.
 * @return THORIN_DONE, THORIN_MALFORMED_FILE or THORIN_MALFORMED_INDEX.
 */
int32_t thorin_unit_count(const uint8_t *bytes, size_t size, uint64_t *count);

/**
 * Lists the units that the indexes name: compilation units first, each kind in order of slot.
 * @param bytes The package.
 * @param size How many bytes it has.
 * @param[out] names As many units as there is room for, at THORIN_DONE; else nothing is written.
 * @param room How many there is room for.
 * @param[out] count How many there are, at THORIN_DONE.
 * @return THORIN_DONE, THORIN_MALFORMED_FILE or THORIN_MALFORMED_INDEX.
 */
int32_t thorin_list(const uint8_t *bytes, size_t size, thorin_name *names, size_t room,
                    uint64_t *count);

/* ---- a package that stays open */

/**
 * Where the sections of a package lie among its bytes: plain numbers, in memory of yours, and
 * nothing to close. The calls that take it are safe whatever numbers it has: they answer what the
 * bytes at these places mean, or a status, and read nothing outside of the package.
 */
typedef struct {
  thorin_range info;          /**< .debug_info.dwo */
  thorin_range types;         /**< .debug_types.dwo */
  thorin_range abbreviations; /**< .debug_abbrev.dwo */
  thorin_range line;          /**< .debug_line.dwo */
  thorin_range loc;           /**< .debug_loc.dwo */
  thorin_range loclists;      /**< .debug_loclists.dwo */
  thorin_range rnglists;      /**< .debug_rnglists.dwo */
  thorin_range str_offsets;   /**< .debug_str_offsets.dwo */
  thorin_range macinfo;       /**< .debug_macinfo.dwo */
  thorin_range macros;        /**< .debug_macro.dwo */
  thorin_range strings;       /**< .debug_str.dwo */
  thorin_range cu_index;      /**< .debug_cu_index */
  thorin_range tu_index;      /**< .debug_tu_index */
  uint64_t big_endian;        /**< 0 where numbers have their lowest byte first */
} thorin_package;

/**
 * Opens a package: finds its sections, and reads its indexes.
 * @param bytes The package.
 * @param size How many bytes it has.
 * @param[out] package Where its sections lie, at THORIN_DONE; else as it was.
 * @return THORIN_DONE, THORIN_MALFORMED_FILE or THORIN_MALFORMED_INDEX.
 */
int32_t thorin_open(const uint8_t *bytes, size_t size, thorin_package *package);

/**
 * thorin_find() in a package that is open: the same answer, without reading the file's sections.
 * @param package What thorin_open() wrote.
 * @param bytes The same bytes.
 * @param size How many there are.
 * @param kind THORIN_COMPILATION or THORIN_TYPE_UNIT.
 * @param id The DWO id or type signature.
 * @param[out] found The unit at THORIN_DONE; else as it was.
 * @return As thorin_find().
 */
int32_t thorin_find_in(const thorin_package *package, const uint8_t *bytes, size_t size,
                       uint8_t kind, uint64_t id, thorin_unit *found);

/**
 * The row of a unit alone, as thorin_find_rows() looks it up: nothing of the unit is read, and
 * version, offset_size and address_size are 0.
 * @param package What thorin_open() wrote.
 * @param bytes The same bytes.
 * @param size How many there are.
 * @param kind THORIN_COMPILATION or THORIN_TYPE_UNIT.
 * @param id The DWO id or type signature.
 * @param[out] found The unit at THORIN_DONE; else as it was.
 * @return As thorin_find(), but never THORIN_MALFORMED_UNIT.
 */
int32_t thorin_find_row_in(const thorin_package *package, const uint8_t *bytes, size_t size,
                           uint8_t kind, uint64_t id, thorin_unit *found);

/**
 * thorin_content() in a package that is open.
 * @param package What thorin_open() wrote.
 * @param bytes The same bytes.
 * @param size How many there are.
 * @param kind THORIN_COMPILATION or THORIN_TYPE_UNIT.
 * @param id The DWO id or type signature.
 * @param section One of thorin_section.
 * @param[out] found As of thorin_content().
 * @return As thorin_content().
 */
int32_t thorin_content_in(const thorin_package *package, const uint8_t *bytes, size_t size,
                          uint8_t kind, uint64_t id, uint8_t section, thorin_bytes *found);

/**
 * thorin_string() in a package that is open.
 * @param package What thorin_open() wrote.
 * @param bytes The same bytes.
 * @param size How many there are.
 * @param kind THORIN_COMPILATION or THORIN_TYPE_UNIT.
 * @param id The DWO id or type signature.
 * @param index Its number.
 * @param[out] found As of thorin_string().
 * @return As thorin_string().
 */
int32_t thorin_string_in(const thorin_package *package, const uint8_t *bytes, size_t size,
                         uint8_t kind, uint64_t id, uint64_t index, thorin_bytes *found);

/**
 * thorin_list() of a package that is open.
 * @param package What thorin_open() wrote.
 * @param bytes The same bytes.
 * @param size How many there are.
 * @param[out] names As of thorin_list().
 * @param room How many there is room for.
 * @param[out] count How many units there are, at THORIN_DONE.
 * @return As thorin_list().
 */
int32_t thorin_list_in(const thorin_package *package, const uint8_t *bytes, size_t size,
                       thorin_name *names, size_t room, uint64_t *count);

/* ---- packing */

/**
 * Why an input was refused, a package can't be finished, or a list of skeletons ended. The calls
 * here take bytes and follow no executable, so they never report 1 or 33 (files that are read or
 * written) or 30 (an executable's units that are missing). Nor do they report 38: the status is
 * THORIN_NO_MEMORY then. Only thorin_skeletons() reports 6 to 10 (relocations and skeletons). An
 * input of another byte order is refused with 32. Whether the first units of all inputs have one
 * encoding is tested when the package is finished: the answer is THORIN_UNFINISHED with 32, and
 * names no input.
 */
enum thorin_fault {
  THORIN_FAULT_READ_INPUT = 1,         /**< An input file could not be read. */
  THORIN_FAULT_PARSE_FILE_KIND = 2,    /**< The kind of an input file could not be told. */
  THORIN_FAULT_PARSE_OBJECT_FILE = 3,  /**< An input file is no ELF file that can be read. */
  THORIN_FAULT_INVALID_INPUT_KIND = 4, /**< An input is an archive. */
  THORIN_FAULT_DECOMPRESS_DATA = 5,    /**< A section that is used is compressed. */
  /** A relocation can't be used, and its section has no name that can be read; the place in it. */
  THORIN_FAULT_NAMELESS_SECTION = 6,
  /** A relocation names a symbol that can't be read; the section and the place in it. */
  THORIN_FAULT_RELOCATION_WITH_INVALID_SYMBOL = 7,
  /** A second relocation stands at one place; the section and the place in it. */
  THORIN_FAULT_MULTIPLE_RELOCATIONS = 8,
  /** A relocation is of a type that isn't supported; the section and the place in it. */
  THORIN_FAULT_UNSUPPORTED_RELOCATION = 9,
  THORIN_FAULT_MISSING_DWO_NAME = 10,     /**< A skeleton unit names no DWARF object; its DWO id. */
  THORIN_FAULT_NO_COMPILATION_UNITS = 11, /**< An input has no units. */
  THORIN_FAULT_NO_DIE = 12,               /**< A unit has no unit DIE. */
  /** A unit's first DIE has another tag than a unit DIE's. */
  THORIN_FAULT_TOP_LEVEL_DIE_NOT_UNIT = 13,
  /** An input lacks a section that it needs; the section's name. */
  THORIN_FAULT_MISSING_REQUIRED_SECTION = 14,
  THORIN_FAULT_PARSE_UNIT_ABBREVIATIONS = 15, /**< A unit's abbreviations can't be read. */
  THORIN_FAULT_PARSE_UNIT_HEADER = 16,        /**< A unit's header can't be read. */
  THORIN_FAULT_PARSE_UNIT = 17,               /**< A unit's unit DIE can't be read. */
  /**
   * An index has a version that doesn't fit the input's units; the section's name, the version that
   * fits, and the one found.
   */
  THORIN_FAULT_INCOMPATIBLE_INDEX_VERSION = 18,
  /** An entry of the string offsets can't be read; its number. */
  THORIN_FAULT_OFFSET_AT_INDEX = 19,
  THORIN_FAULT_STR_AT_OFFSET = 20, /**< A string can't be read; its offset. */
  THORIN_FAULT_PARSE_INDEX = 21,   /**< An index can't be read; the section's name. */
  /** A unit of an input package isn't in its index; the unit's identifier. */
  THORIN_FAULT_UNIT_NOT_IN_INDEX = 22,
  /** A row number in an index is past its rows; the row number. */
  THORIN_FAULT_ROW_NOT_IN_INDEX = 23,
  THORIN_FAULT_SECTION_NOT_IN_ROW = 24, /**< A section is there, and no index has its column. */
  /** A unit stands in a section whose address isn't 0; the unit's identifier. */
  THORIN_FAULT_EMPTY_UNIT = 25,
  /** An input package has a second `.debug_info.dwo`. */
  THORIN_FAULT_MULTIPLE_DEBUG_INFO_SECTION = 26,
  /** An input package has a second `.debug_types.dwo`. */
  THORIN_FAULT_MULTIPLE_DEBUG_TYPES_SECTION = 27,
  THORIN_FAULT_NOT_SPLIT_UNIT = 28, /**< A compilation unit has no identifier of a split unit. */
  THORIN_FAULT_DUPLICATE_UNIT = 29, /**< A compilation unit is contained already; its identifier. */
  /** A unit that an executable refers to isn't contained; its identifier. */
  THORIN_FAULT_MISSING_REFERENCED_UNIT = 30,
  THORIN_FAULT_NO_OUTPUT_OBJECT_CREATED = 31, /**< No input began a package. */
  THORIN_FAULT_MIXED_INPUT_ENCODINGS = 32,    /**< Inputs differ in byte order or encoding. */
  THORIN_FAULT_IO = 33,                       /**< Input or output failed. */
  THORIN_FAULT_OBJECT_READ = 34,              /**< An ELF file can't be read. */
  THORIN_FAULT_OBJECT_WRITE = 35,             /**< An ELF file can't be written. */
  THORIN_FAULT_GIMLI_READ = 36,               /**< DWARF data can't be read. */
  THORIN_FAULT_GIMLI_WRITE = 37,              /**< DWARF data can't be written. */
  THORIN_FAULT_MEMORY = 38,                   /**< Memory ran out. */
  /** A number is past its limit; what it counts or measures, and the number. */
  THORIN_FAULT_NUMBER_TOO_LARGE = 39,
  /** A unit's range is outside its section; the section's name and the unit's identifier. */
  THORIN_FAULT_BAD_CONTRIBUTION = 40,
  /** A section isn't part of the package format of the input's version; its name. */
  THORIN_FAULT_SECTION_OUTSIDE_FORMAT = 41,
  /** A section stands twice where it may stand once; its name. */
  THORIN_FAULT_REPEATED_SECTION = 42,
  /** A range of the string offsets is malformed; its place. */
  THORIN_FAULT_BAD_STRING_OFFSETS = 43,
  /** A range of the string offsets begins inside the one before it; its place. */
  THORIN_FAULT_OVERLAPPING_STRING_OFFSETS = 44
};

/**
 * What packing reports beside its status; thorin_differing_types() reports input, differing and the
 * fault alone. Each field says at which statuses it is written; at the others it is as it was.
 */
typedef struct {
  /** THORIN_DONE, THORIN_TOO_SMALL: how many bytes the package has. */
  uint64_t size;
  /**
   * THORIN_REFUSED: the number of the input, from 0 on. THORIN_NO_MEMORY: that of the input at
   * which memory ran out, or how many inputs there are, where it ran out while the package was
   * finished or written.
   */
  uint64_t input;
  /**
   * THORIN_DONE, THORIN_TOO_SMALL: how many type units were passed over whose bytes differ from
   * those of the kept unit of their signature.
   */
  uint64_t differing;
  /**
   * THORIN_DONE, THORIN_TOO_SMALL: 1 where each input is an object that added a unit, all their
   * units have one encoding, and there are abbreviations, and strings if there are string offsets;
   * else 0. Where it is 1 at THORIN_DONE, it is proved that the package is taken as an input again,
   * memory aside: as a first input always, and behind others of its byte order unless one of its
   * compilation units is there already or a string offset gets too large. Where it is 0, the
   * package may be refused.
   */
  uint32_t packs_again;
  /** THORIN_REFUSED, THORIN_UNFINISHED: the number of the fault, one of thorin_fault. */
  uint32_t fault;
  /** THORIN_REFUSED, THORIN_UNFINISHED: how many bytes its text has. */
  uint32_t text_size;
  /** THORIN_REFUSED, THORIN_UNFINISHED: its text, with a zero byte behind it. */
  char text[256];
} thorin_report;

/**
 * Packs objects (.dwo, or .o with .dwo sections) and packages (.dwp), in order, into one package.
 * A package seldom has more bytes than its inputs together plus 4096.
 * @param inputs The objects and packages.
 * @param count How many there are.
 * @param[out] out Where the package is written. At THORIN_DONE the package stands at the beginning
 *   and the rest is as it was; else all is as it was.
 * @param room How many bytes there is room for.
 * @param[in,out] report What is reported beside the status.
 * @return THORIN_DONE; THORIN_TOO_SMALL: ask again with report->size bytes; THORIN_REFUSED for the
 *   first input that can't be taken; THORIN_UNFINISHED where the inputs don't make a package;
 *   THORIN_NO_MEMORY.
 */
int32_t thorin_pack(const thorin_bytes *inputs, size_t count, uint8_t *out, size_t room,
                    thorin_report *report);

/**
 * Lists the signatures of the type units that packing these inputs passes over and whose bytes
 * differ from those of the kept unit of their signature.
 * @param inputs The objects and packages.
 * @param count How many there are.
 * @param[out] types As many signatures as there is room for, at THORIN_DONE; else as it was.
 * @param room How many there is room for.
 * @param[in,out] report In report->differing, how many there are, at THORIN_DONE.
 * @return THORIN_DONE, THORIN_REFUSED or THORIN_NO_MEMORY.
 */
int32_t thorin_differing_types(const thorin_bytes *inputs, size_t count, uint64_t *types,
                               size_t room, thorin_report *report);

/**
 * Decompresses an object, a package or an executable whose sections zlib or zstd compressed (-gz,
 * -gz=zstd): the file that it writes can be given to thorin_pack() and thorin_skeletons(), which
 * refuse compressed sections that they need. Each compressed section gets its plain content, and
 * the name .debug_X where it had .zdebug_X; other sections stay as they are.
 * @param bytes The file.
 * @param size How many bytes it has.
 * @param[out] out Where the decompressed file is written. At THORIN_DONE it stands at the beginning
 *   and the rest is as it was; else all is as it was.
 * @param room How many bytes there is room for.
 * @param[in,out] length At THORIN_DONE and THORIN_TOO_SMALL, how many bytes the decompressed file
 *   has, by what the headers of compressed sections say; else as it was.
 * @return THORIN_DONE; THORIN_NOT_COMPRESSED: take the file as it is; THORIN_TOO_SMALL: ask again
 *   with as much room as length says (no section was read and no memory taken: a damaged one is found
 *   only where there is room); THORIN_MALFORMED_FILE, THORIN_DAMAGED, THORIN_DAMAGED_ZSTD or
 *   THORIN_NOT_ZLIB, by the first section whose header has a fault, else by the first that is
 *   damaged; THORIN_UNWRITABLE; THORIN_NO_MEMORY.
 */
int32_t thorin_decompress(const uint8_t *bytes, size_t size, uint8_t *out, size_t room,
                          uint64_t *length);

/* ---- executables */

/** A split unit that an executable names, in a skeleton unit or in a type unit. */
typedef struct {
  uint64_t id;        /**< the DWO id of a compilation unit, or the signature of a type unit */
  uint64_t path_size; /**< how many bytes the path of its object has */
  uint8_t kind;       /**< THORIN_COMPILATION or THORIN_TYPE_UNIT */
} thorin_skeleton;

/**
 * Lists the split units that an executable (or a .o file) names, in order, and the paths of their
 * objects: read these files, and pack their bytes. A relative name is written behind its unit's
 * DW_AT_comp_dir.
 * @param bytes The executable.
 * @param size How many bytes it has.
 * @param[out] names As many units as there is room for.
 * @param room How many there is room for.
 * @param[out] paths The paths in the same order, each with a zero byte behind it, as far as there
 *   is room; the last one may be cut.
 * @param paths_room How many bytes there is room for.
 * @param[out] count How many units there are.
 * @param[out] report In report->size, how many bytes the paths have, their zero bytes included; at
 *   THORIN_REFUSED also the fault that ends the list. Its other fields are left as they were.
 * @return THORIN_DONE; THORIN_REFUSED where a fault ends the list: all units before it are written;
 *   THORIN_NO_MEMORY: nothing is written.
 */
int32_t thorin_skeletons(const uint8_t *bytes, size_t size, thorin_skeleton *names, size_t room,
                         uint8_t *paths, size_t paths_room, uint64_t *count,
                         thorin_report *report);

/* ---- the layouts that the library was built with */
/** @cond */

#if defined(__cplusplus)
#if __cplusplus >= 201103L
#define THORIN_IS(name, what) static_assert(what, #name)
#endif
#elif defined(__STDC_VERSION__) && __STDC_VERSION__ >= 201112L
#define THORIN_IS(name, what) _Static_assert(what, #name)
#endif
#ifndef THORIN_IS
#define THORIN_IS(name, what) typedef char thorin_is_##name[(what) ? 1 : -1]
#endif

THORIN_IS(bytes_size, sizeof(thorin_bytes) == 16);
THORIN_IS(bytes_at, offsetof(thorin_bytes, at) == 0);
THORIN_IS(bytes_length, offsetof(thorin_bytes, size) == 8);
THORIN_IS(range_size, sizeof(thorin_range) == 16);
THORIN_IS(range_offset, offsetof(thorin_range, offset) == 0);
THORIN_IS(range_length, offsetof(thorin_range, size) == 8);
THORIN_IS(unit_size, sizeof(thorin_unit) == 176);
THORIN_IS(unit_info, offsetof(thorin_unit, info) == 0);
THORIN_IS(unit_types, offsetof(thorin_unit, types) == 16);
THORIN_IS(unit_abbreviations, offsetof(thorin_unit, abbreviations) == 32);
THORIN_IS(unit_line, offsetof(thorin_unit, line) == 48);
THORIN_IS(unit_loc, offsetof(thorin_unit, loc) == 64);
THORIN_IS(unit_loclists, offsetof(thorin_unit, loclists) == 80);
THORIN_IS(unit_rnglists, offsetof(thorin_unit, rnglists) == 96);
THORIN_IS(unit_str_offsets, offsetof(thorin_unit, str_offsets) == 112);
THORIN_IS(unit_macinfo, offsetof(thorin_unit, macinfo) == 128);
THORIN_IS(unit_macros, offsetof(thorin_unit, macros) == 144);
THORIN_IS(unit_row, offsetof(thorin_unit, row) == 160);
THORIN_IS(unit_slots, offsetof(thorin_unit, slots) == 164);
THORIN_IS(unit_version, offsetof(thorin_unit, version) == 168);
THORIN_IS(unit_offset_size, offsetof(thorin_unit, offset_size) == 170);
THORIN_IS(unit_address_size, offsetof(thorin_unit, address_size) == 171);
THORIN_IS(package_size, sizeof(thorin_package) == 216);
THORIN_IS(package_info, offsetof(thorin_package, info) == 0);
THORIN_IS(package_macros, offsetof(thorin_package, macros) == 144);
THORIN_IS(package_strings, offsetof(thorin_package, strings) == 160);
THORIN_IS(package_cu_index, offsetof(thorin_package, cu_index) == 176);
THORIN_IS(package_tu_index, offsetof(thorin_package, tu_index) == 192);
THORIN_IS(package_big_endian, offsetof(thorin_package, big_endian) == 208);
THORIN_IS(name_size, sizeof(thorin_name) == 16);
THORIN_IS(name_id, offsetof(thorin_name, id) == 0);
THORIN_IS(name_row, offsetof(thorin_name, row) == 8);
THORIN_IS(name_kind, offsetof(thorin_name, kind) == 12);
THORIN_IS(lookup_size, sizeof(thorin_lookup) == 192);
THORIN_IS(lookup_id, offsetof(thorin_lookup, id) == 0);
THORIN_IS(lookup_kind, offsetof(thorin_lookup, kind) == 8);
THORIN_IS(lookup_status, offsetof(thorin_lookup, status) == 12);
THORIN_IS(lookup_unit, offsetof(thorin_lookup, unit) == 16);
THORIN_IS(skeleton_size, sizeof(thorin_skeleton) == 24);
THORIN_IS(skeleton_path_size, offsetof(thorin_skeleton, path_size) == 8);
THORIN_IS(skeleton_kind, offsetof(thorin_skeleton, kind) == 16);
THORIN_IS(report_size, sizeof(thorin_report) == 296);
THORIN_IS(report_length, offsetof(thorin_report, size) == 0);
THORIN_IS(report_input, offsetof(thorin_report, input) == 8);
THORIN_IS(report_differing, offsetof(thorin_report, differing) == 16);
THORIN_IS(report_packs_again, offsetof(thorin_report, packs_again) == 24);
THORIN_IS(report_fault, offsetof(thorin_report, fault) == 28);
THORIN_IS(report_text_size, offsetof(thorin_report, text_size) == 32);
THORIN_IS(report_text, offsetof(thorin_report, text) == 36);

#undef THORIN_IS
/** @endcond */

#ifdef __cplusplus
}
#endif

#ifdef THORIN_CHECK
#include "thorin_check.h"
#endif
#endif
