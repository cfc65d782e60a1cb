/* Tries rows of patterns and texts, as crates/conformance/README.md tells them, through the C interface.
 *
 *   rows small|unicode < rows
 *
 * It writes a line for each answer that differs from its row, and then `N rows, S not tried` and `N passed, M failed`. Not tried are
 * rows of works that the interface does not have (splitting, and replacing in the library's own language), those with flags that no
 * script has, and those with halves of pairs that UTF-8 can't hold. */
#include <regress.h>

#include "kinds.h"

#include <stdio.h>
#include <stdlib.h>
#include <string.h>

enum { FIELDS = 8, GROUPS = 65536, LIST = 1 << 22 };

static unsigned long line_number, rows, answers, wrong, skipped;

/* A text: its bytes, its 16-bit units, and what the bytes can't hold. */
typedef struct {
  char *bytes;
  size_t length;
  uint16_t *units;
  size_t count;
  int has_pair, has_half, is_ascii;
} text_of_field;

static void *room_for(size_t size) {
  void *room = malloc(size + 1);
  if (room == NULL) {
    fputs("out of memory\n", stderr);
    exit(2);
  }
  return room;
}

/* Counts an answer, and tells of a wrong one. */
static void tell(int is_right, const char *road, const char *expected, const char *told) {
  answers++;
  if (is_right) return;
  wrong++;
  printf("line %lu, %s: expected %s, told %s\n", line_number, road, expected, told);
}

static void fails(const char *road, const char *expected, const char *told) { tell(0, road, expected, told); }

static void push_point(text_of_field *text, uint32_t point) {
  if (point >= 0xD800 && point < 0xE000) text->has_half = 1;
  if (point >= 0x80) text->is_ascii = 0;
  if (point < 0x80) {
    text->bytes[text->length++] = (char)point;
  } else if (point < 0x800) {
    text->bytes[text->length++] = (char)(0xC0 | point >> 6);
    text->bytes[text->length++] = (char)(0x80 | (point & 0x3F));
  } else if (point < 0x10000) {
    text->bytes[text->length++] = (char)(0xE0 | point >> 12);
    text->bytes[text->length++] = (char)(0x80 | (point >> 6 & 0x3F));
    text->bytes[text->length++] = (char)(0x80 | (point & 0x3F));
  } else {
    text->bytes[text->length++] = (char)(0xF0 | point >> 18);
    text->bytes[text->length++] = (char)(0x80 | (point >> 12 & 0x3F));
    text->bytes[text->length++] = (char)(0x80 | (point >> 6 & 0x3F));
    text->bytes[text->length++] = (char)(0x80 | (point & 0x3F));
  }
  if (point < 0x10000) {
    text->units[text->count++] = (uint16_t)point;
  } else {
    text->has_pair = 1;
    text->units[text->count++] = (uint16_t)(0xD800 + ((point - 0x10000) >> 10));
    text->units[text->count++] = (uint16_t)(0xDC00 + ((point - 0x10000) & 0x3FF));
  }
}

/* The code point that UTF-8 begins with, and where it ends. */
static uint32_t point_at(const char **at) {
  const unsigned char *p = (const unsigned char *)*at;
  int more = p[0] < 0x80 ? 0 : p[0] < 0xE0 ? 1 : p[0] < 0xF0 ? 2 : 3;
  uint32_t point = more == 0 ? p[0] : p[0] & (0x3Fu >> more);
  for (int i = 1; i <= more; i++) point = point << 6 | (p[i] & 0x3F);
  *at += more + 1;
  return point;
}

/* Reads the escapes of a field. */
static text_of_field read_text(const char *field) {
  size_t length = strlen(field);
  text_of_field text = {room_for(length * 4), 0, room_for(length * 4), 0, 0, 0, 1};
  while (*field != 0) {
    char *end;
    if (*field != '\\') {
      push_point(&text, point_at(&field));
    } else if (strncmp(field, "\\u{", 3) == 0) {
      push_point(&text, (uint32_t)strtoul(field + 3, &end, 16));
      field = end + 1;
    } else if (field[1] == 'u') {
      char digits[5] = {field[2], field[3], field[4], field[5], 0};
      push_point(&text, (uint32_t)strtoul(digits, NULL, 16));
      field += 6;
    } else {
      push_point(&text, field[1] == 't' ? '\t' : field[1] == 'n' ? '\n' : field[1] == 'r' ? '\r' : (uint32_t)field[1]);
      field += 2;
    }
  }
  return text;
}

static void free_text(text_of_field *text) {
  free(text->bytes);
  free(text->units);
}

/* How many units stand before an offset in bytes. */
static size_t units_before(const text_of_field *text, size_t offset) {
  size_t units = 0;
  for (size_t i = 0; i < offset && i < text->length; i++) {
    unsigned char byte = (unsigned char)text->bytes[i];
    if ((byte & 0xC0) != 0x80) units += byte >= 0xF0 ? 2 : 1;
  }
  return units + (offset > text->length ? offset - text->length : 0);
}

/* A list of matches in bytes, in units. */
static char *list_in_units(const text_of_field *text, const char *list) {
  char *told = room_for(strlen(list) * 2 + 64), *to = told;
  while (*list != 0) {
    if (*list >= '0' && *list <= '9') {
      char *end;
      size_t offset = strtoul(list, &end, 10);
      to += sprintf(to, "%zu", units_before(text, offset));
      list = end;
    } else {
      *to++ = *list++;
    }
  }
  *to = 0;
  return told;
}

static char *push_match(char *to, const char *list, const regress_range *ranges, size_t width) {
  if (to != list) *to++ = '|';
  for (size_t g = 0; g < width; g++) {
    if (g > 0) *to++ = ' ';
    if (ranges[g].start == REGRESS_UNSET)
      *to++ = '-';
    else
      to += sprintf(to, "%zu..%zu", ranges[g].start, ranges[g].end);
  }
  *to = 0;
  return to;
}

/* Whether a list begins with a match, which may be none. */
static int begins_with(const char *list, const char *match) {
  size_t length = strcspn(list, "|");
  return strlen(match) == length && memcmp(list, match, length) == 0;
}

/* The match that a call answered, as a list. */
static const char *list_of(int32_t code, const regress_range *ranges, size_t width) {
  static char list[LIST];
  *list = 0;
  if (code > 0) push_match(list, list, ranges, width);
  return list;
}

/* Tries a list by all calls that search texts of a kind, from a start on. */
static void try_kind(int number, regress_search *search, size_t width, const text_of_field *of, size_t start, const char *expected) {
  static char list[LIST];
  static regress_range ranges[3 * GROUPS];
  const kind_of_text *kind = &kinds[number];
  const void *text = kind->in_units ? (const void *)of->units : of->bytes;
  size_t length = kind->in_units ? of->count : of->length;
  char *to = list;
  size_t next = start, found = 0, first = REGRESS_UNSET;
  int32_t code;
  *to = 0;
  while ((code = kind->find_many(search, text, length, &next, ranges, 3 * width, width, &found)) == REGRESS_OK && found > 0) {
    for (size_t m = 0; m < found; m++) to = push_match(to, list, ranges + m * width, width);
  }
  tell(code == REGRESS_OK && strcmp(list, expected) == 0, kind->name, expected, list);
  code = kind->find(search, text, length, start, ranges, width);
  if (code > 0) first = ranges[0].start;
  const char *match = list_of(code, ranges, width);
  tell(code == (*expected != 0 ? (int32_t)width : 0) && begins_with(expected, match), "find", expected, match);
  code = kind->is_match(search, text, length, start);
  tell(code == (*expected != 0), "is_match", expected, code == 1 ? "1" : code == 0 ? "0" : "an error");
  code = kind->match_at(search, text, length, start, ranges, width);
  match = list_of(code, ranges, width);
  tell(code == (first == start ? (int32_t)width : 0) && (code == 0 || begins_with(expected, match)), "match_at", expected, match);
}

static int is_script_flags(const char *flags) {
  for (const char *f = flags; *f != 0; f++)
    if (strchr("dgimsuvy", *f) == NULL || strchr(f + 1, *f) != NULL) return 0;
  return strchr(flags, 'u') == NULL || strchr(flags, 'v') == NULL;
}

/* The name of an error in rows. */
static const char *name_of(int32_t code) {
  switch (code) {
    case REGRESS_SYNTAX: return "!Syntax";
    case REGRESS_TOO_DEEP: return "!TooDeep";
    case REGRESS_TOO_MANY_GROUPS: return "!TooManyGroups";
    case REGRESS_TOO_MANY_LOOPS: return "!TooManyLoops";
    case REGRESS_TOO_LARGE: return "!TooLarge";
    default: return "another error";
  }
}

static void try_refusal(const char *expected, int32_t code, const regress_error *error, size_t length) {
  size_t name = strcspn(expected, " ");
  int is_named = strncmp(name_of(code), expected, name) == 0 && name_of(code)[name] == 0 && error->code == code;
  tell(is_named, "refusal", expected, name_of(code));
  tell(expected[name] != ' ' || strcmp(expected + name + 1, error->text) == 0, "text", expected, error->text);
  tell(error->place <= length, "place", expected, "past the end");
}

/* Tries a row of matches over one pattern. */
static void try_matches(regress_pattern *pattern, const text_of_field *text, size_t start, const char *expected, int in_ucs2) {
  regress_pattern shared = {0};
  regress_search search = {0};
  int32_t groups = regress_group_count(pattern);
  if (regress_share(pattern, &shared) != REGRESS_OK || groups < 0) fails("share", expected, "an error");
  regress_free(pattern);
  if (regress_search_new(&shared, &search) != REGRESS_OK) fails("search", expected, "an error");
  size_t width = (size_t)groups + 1;
  char *in_units = list_in_units(text, expected);
  size_t unit_start = units_before(text, start);
  try_kind(UTF8, &search, width, text, start, expected);
  try_kind(VALID, &search, width, text, start, expected);
  if (text->is_ascii) try_kind(ASCII, &search, width, text, start, expected);
  try_kind(UTF16, &search, width, text, unit_start, in_units);
  if (in_ucs2) try_kind(UCS2, &search, width, text, unit_start, in_units);
  free(in_units);
  regress_free(&search);
  regress_free(&shared);
}

/* Tries a row of matches, of a pattern as it is or over a whole text. */
static void try_match_row(regress_tables *tables, char **field, int count, int is_whole) {
  text_of_field source = read_text(field[1]), text = read_text(field[2]);
  const char *expected = count > 3 ? field[3] : "";
  size_t start = count > 4 ? strtoul(field[4], NULL, 10) : 0;
  regress_pattern pattern = {0};
  regress_error error;
  int in_ucs2 = !source.has_pair && !text.has_pair;
  int32_t code;
  if (text.has_half || (source.has_half && (source.has_pair || is_whole))) {
    skipped++;
  } else {
    if (!source.has_half) {
      code = (is_whole ? regress_compile_whole : regress_compile)(source.bytes, source.length, field[0], tables, &pattern, &error);
      if (*expected == '!')
        try_refusal(expected, code, &error, source.length);
      else if (code != REGRESS_OK)
        fails("compile", expected, error.text);
      else
        try_matches(&pattern, &text, start, expected, in_ucs2);
    }
    if ((!source.has_pair || strpbrk(field[0], "uv") != NULL) && !is_whole) {
      code = regress_compile_units(source.units, source.count, field[0], tables, &pattern, &error);
      if (*expected == '!')
        try_refusal(expected, code, &error, source.count);
      else if (code != REGRESS_OK)
        fails("compile_units", expected, error.text);
      else
        try_matches(&pattern, &text, start, expected, in_ucs2);
    }
  }
  regress_free(&pattern);
  free_text(&source);
  free_text(&text);
}

static void try_unit_row(regress_tables *tables, char **field, int count) {
  text_of_field source = read_text(field[1]), text = read_text(field[2]);
  size_t start = count > 5 ? strtoul(field[5], NULL, 10) : 0;
  regress_pattern pattern = {0};
  regress_search search = {0};
  int32_t code;
  if (source.has_half && source.has_pair) {
    skipped++;
  } else {
    if (source.has_half)
      code = regress_compile_units(source.units, source.count, field[0], tables, &pattern, NULL);
    else
      code = regress_compile(source.bytes, source.length, field[0], tables, &pattern, NULL);
    if (code != REGRESS_OK || regress_search_new(&pattern, &search) != REGRESS_OK) {
      fails("compile", field[3], name_of(code));
    } else {
      size_t width = (size_t)regress_group_count(&pattern) + 1;
      /* a start inside of a pair is none of UTF-16 */
      int inside = start > 0 && start < text.count && (text.units[start - 1] & 0xFC00) == 0xD800 && (text.units[start] & 0xFC00) == 0xDC00;
      if (!inside) try_kind(UTF16, &search, width, &text, start, count > 3 ? field[3] : "");
      try_kind(UCS2, &search, width, &text, start, count > 4 ? field[4] : "");
    }
  }
  regress_free(&search);
  regress_free(&pattern);
  free_text(&source);
  free_text(&text);
}

/* Tells the named groups of the first match in order, each name once, by the first group of the name that took part. */
static void tell_names(regress_pattern *pattern, const regress_range *ranges, size_t groups, char *told) {
  char name[256];
  size_t written, numbers[64];
  char *to = told;
  for (size_t g = 1; g <= groups; g++) {
    if (regress_group_name(pattern, g, name, sizeof name, &written) != REGRESS_OK || written == 0) continue;
    int32_t count = regress_group_numbers(pattern, name, written, numbers, 64);
    if (count < 1 || numbers[0] != g) continue;
    size_t set = 0;
    while (set + 1 < (size_t)count && ranges[numbers[set]].start == REGRESS_UNSET) set++;
    const regress_range *range = &ranges[numbers[set]];
    to += sprintf(to, "%s%s=", to == told ? "" : " ", name);
    to += range->start == REGRESS_UNSET ? sprintf(to, "-") : sprintf(to, "%zu..%zu", range->start, range->end);
  }
  *to = 0;
}

static void try_name_row(regress_tables *tables, char **field, int count) {
  static char told[LIST];
  static regress_range ranges[GROUPS];
  text_of_field source = read_text(field[1]), text = read_text(field[2]);
  text_of_field expected = read_text(count > 3 ? field[3] : "");
  regress_pattern pattern = {0};
  regress_search search = {0};
  if (regress_compile(source.bytes, source.length, field[0], tables, &pattern, NULL) != REGRESS_OK ||
      regress_search_new(&pattern, &search) != REGRESS_OK) {
    fails("compile", field[3], "an error");
  } else {
    size_t groups = (size_t)regress_group_count(&pattern);
    *told = 0;
    if (regress_find(&search, text.bytes, text.length, 0, ranges, groups + 1) > 0) tell_names(&pattern, ranges, groups, told);
    tell(strlen(told) == expected.length && memcmp(told, expected.bytes, expected.length) == 0, "names", field[3], told);
  }
  regress_free(&search);
  regress_free(&pattern);
  free_text(&source);
  free_text(&text);
  free_text(&expected);
}

static void try_escape_row(char **field, int count) {
  text_of_field text = read_text(field[1]), expected = read_text(count > 2 ? field[2] : "");
  char *buffer = room_for(text.length * 2);
  size_t written = 0;
  int32_t code = regress_escape(text.bytes, text.length, buffer, text.length * 2 + 1, &written);
  int is_right = code == REGRESS_OK && written == expected.length && memcmp(buffer, expected.bytes, written) == 0;
  tell(is_right, "escape", field[1], "another pattern");
  free(buffer);
  free_text(&text);
  free_text(&expected);
}

typedef int32_t (*replacing)(regress_pattern *, const char *, size_t, const char *, size_t, char *, size_t, size_t *);

/* Tries a row of a text in which matches are replaced by a template. */
static void try_template_row(regress_tables *tables, char **field, int count, replacing replace) {
  text_of_field source = read_text(field[1]), text = read_text(field[2]);
  text_of_field with = read_text(count > 3 ? field[3] : ""), expected = read_text(count > 4 ? field[4] : "");
  regress_pattern pattern = {0};
  char *buffer = room_for(expected.length);
  size_t written = 0;
  int32_t code = regress_compile(source.bytes, source.length, field[0], tables, &pattern, NULL);
  if (code == REGRESS_OK)
    code = replace(&pattern, text.bytes, text.length, with.bytes, with.length, buffer, expected.length, &written);
  int is_right = code == REGRESS_OK && written == expected.length && memcmp(buffer, expected.bytes, written) == 0;
  tell(is_right, "replace", field[3], "another text");
  free(buffer);
  regress_free(&pattern);
  free_text(&source);
  free_text(&text);
  free_text(&with);
  free_text(&expected);
}

static void try_row(regress_tables *tables, char *line) {
  char *field[FIELDS], *colon;
  int count = 0;
  for (char *at = line; at != NULL && count < FIELDS; count++) {
    field[count] = at;
    at = strchr(at, '\t');
    if (at != NULL) *at++ = 0;
  }
  rows++;
  colon = strchr(field[0], ':');
  if (colon != NULL) *colon = 0;
  const char *work = colon == NULL ? "" : field[0];
  if (colon != NULL) field[0] = colon + 1;
  if (!is_script_flags(field[0]))
    skipped++;
  else if (*work == 0 || strcmp(work, "whole") == 0)
    try_match_row(tables, field, count, *work != 0);
  else if (strcmp(work, "units") == 0)
    try_unit_row(tables, field, count);
  else if (strcmp(work, "names") == 0)
    try_name_row(tables, field, count);
  else if (strcmp(work, "replace_as") == 0)
    try_template_row(tables, field, count, regress_replace);
  else if (strcmp(work, "replace_all_as") == 0)
    try_template_row(tables, field, count, regress_replace_all);
  else if (strcmp(work, "escape") == 0)
    try_escape_row(field, count);
  else
    skipped++;
}

int main(int count, char **words) {
  static char line[1 << 22];
  regress_tables tables = {0};
  int32_t code = count > 1 && strcmp(words[1], "unicode") == 0 ? regress_tables_unicode(&tables) : regress_tables_small(&tables);
  if (code != REGRESS_OK) return 2;
  while (fgets(line, sizeof line, stdin) != NULL) {
    line_number++;
    line[strcspn(line, "\n")] = 0;
    if (*line != '#') try_row(&tables, line);
  }
  regress_free(&tables);
  printf("%lu rows, %lu not tried\n%lu passed, %lu failed\n", rows, skipped, answers - wrong, wrong);
  return wrong == 0 ? 0 : 1;
}
