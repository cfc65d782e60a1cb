/* Each call with each fault that a caller can make: a null pointer, a handle that is empty, freed or of another kind, a start inside
 * of a character, bytes that are not UTF-8, too little room. The answer is the fault's error, and what is written to is as it was. */
#include <regress.h>

#include "check.h"
#include "kinds.h"

#define COUNT(list) (sizeof(list) / sizeof *(list))

enum { MARK = 7, ROOM = 4, BYTES = 32 };

static regress_tables tables;
static regress_pattern pattern;
static regress_search search;
static regress_handle empty, freed;

static const char *const not_utf8[] = {"\x80", "a\xC3", "\xC0\x80", "\xED\xA0\x80", "\xF4\x90\x80\x80", "\xFF", "\xF0\x9F\x98"};

/* What calls write to. */
static regress_range ranges[ROOM];
static size_t next, found;

/* What a call that searches is given. */
typedef struct {
  regress_search *search;
  const void *text;
  size_t length, start;
  regress_range *ranges;
  size_t count, width;
  size_t *next, *found;
} given;

/* What is right for a kind: `(a+)b|(x)` in a text that begins with a character of two bytes or units. */
static given right_for(const kind_of_text *kind) {
  static const uint16_t units[] = {0xD83D, 0xDE00, 'a', 'a', 'b'};
  given with = {&search, "\xC3\xA9" "aab", 5, 0, ranges, ROOM, 3, &next, &found};
  if (kind == &kinds[ASCII]) with.text = "- aab";
  if (kind->in_units) with.text = units;
  return with;
}

enum { FIND, MATCH_AT, IS_MATCH, FIND_MANY, CALLS };

static int32_t answer(const kind_of_text *kind, int call, const given *with) {
  next = with->start;
  found = MARK;
  for (size_t k = 0; k < ROOM; k++) ranges[k].start = ranges[k].end = MARK;
  switch (call) {
    case FIND: return kind->find(with->search, with->text, with->length, with->start, with->ranges, with->count);
    case MATCH_AT: return kind->match_at(with->search, with->text, with->length, with->start, with->ranges, with->count);
    case IS_MATCH: return kind->is_match(with->search, with->text, with->length, with->start);
    default:
      return kind->find_many(with->search, with->text, with->length, with->next, with->ranges, with->count, with->width, with->found);
  }
}

/* Whether ranges from a number on are as they were made. */
static int are_as_made(size_t from) {
  for (size_t k = from; k < ROOM; k++)
    if (ranges[k].start != MARK || ranges[k].end != MARK) return 0;
  return 1;
}

static void refused(const kind_of_text *kind, int call, given with, int32_t code) {
  CHECK(answer(kind, call, &with) == code);
  CHECK(are_as_made(0) && next == with.start && found == MARK);
}

static void handles_of_searches(const kind_of_text *kind, int call) {
  regress_handle *const wrong[] = {&empty, &freed, &tables, &pattern};
  given with = right_for(kind);
  for (size_t k = 0; k < COUNT(wrong); k++) {
    with.search = wrong[k];
    refused(kind, call, with, REGRESS_WRONG_HANDLE);
  }
  with.search = NULL;
  refused(kind, call, with, REGRESS_NULL);
}

static void texts_of_searches(const kind_of_text *kind, int call) {
  given with = right_for(kind);
  with.start = 1;
  if (kind == &kinds[ASCII] || kind == &kinds[UCS2])
    CHECK(answer(kind, call, &with) >= 0); /* each offset is a start there */
  else
    refused(kind, call, with, REGRESS_BAD_START);
  for (size_t k = 0; k < COUNT(not_utf8) && kind == &kinds[UTF8]; k++) {
    with.text = not_utf8[k];
    with.length = strlen(not_utf8[k]);
    with.start = 0;
    refused(kind, call, with, REGRESS_NOT_UTF8);
  }
  with.text = NULL;
  with.length = 1;
  refused(kind, call, with, REGRESS_NULL);
  with.length = 0;
  CHECK(answer(kind, call, &with) == 0 && are_as_made(0)); /* an empty text, and a start past its end */
}

static void rooms_of_searches(const kind_of_text *kind, int call) {
  given with = right_for(kind);
  with.ranges = NULL;
  if (call != IS_MATCH) refused(kind, call, with, REGRESS_NULL);
  if (call != FIND_MANY) return;
  with = right_for(kind);
  with.next = NULL;
  refused(kind, call, with, REGRESS_NULL);
  with = right_for(kind);
  with.found = NULL;
  refused(kind, call, with, REGRESS_NULL);
  with = right_for(kind);
  with.width = 0;
  refused(kind, call, with, REGRESS_NO_ROOM);
  with.width = ROOM + 1;
  refused(kind, call, with, REGRESS_NO_ROOM);
  with.ranges = NULL;
  with.count = 0;
  with.width = 1;
  refused(kind, call, with, REGRESS_NO_ROOM);
}

/* As many ranges as there is room for are written, and the count is answered whole. */
static void fewer_ranges(const kind_of_text *kind) {
  for (size_t room = 0; room <= ROOM; room++) {
    given with = right_for(kind);
    with.count = with.width = room;
    CHECK(answer(kind, FIND, &with) == 3 && are_as_made(room));
    CHECK(room < 1 || (ranges[0].start == 2 && ranges[0].end == 5));
    CHECK(room < 2 || (ranges[1].start == 2 && ranges[1].end == 4));
    CHECK(room < 4 || ranges[3].end == REGRESS_UNSET);
    with.start = 2;
    CHECK(answer(kind, MATCH_AT, &with) == 3 && are_as_made(room));
    CHECK(answer(kind, FIND_MANY, &with) == (room == 0 ? REGRESS_NO_ROOM : REGRESS_OK) && are_as_made(room));
  }
}

/* Each call is refused where it takes more steps than it may, each time anew, and without a bound it answers as before. */
static void bounds_of_searches(const kind_of_text *kind, int call) {
  given with = right_for(kind);
  with.start = 2;
  CHECK(regress_search_set_max_steps(&search, 0) == REGRESS_OK);
  for (int time = 0; time < 2; time++) {
    CHECK(answer(kind, call, &with) == REGRESS_TOO_MANY_STEPS);
    CHECK(are_as_made(0) && next == with.start && found == (call == FIND_MANY ? 0 : MARK));
  }
  CHECK(regress_search_set_max_steps(&search, 1000) == REGRESS_OK);
  int32_t bounded = answer(kind, call, &with);
  CHECK(regress_search_set_max_steps(&search, SIZE_MAX) == REGRESS_OK);
  CHECK(bounded >= 0 && bounded == answer(kind, call, &with));
}

static void searches(void) {
  for (const kind_of_text *kind = kinds; kind < kinds + KINDS; kind++) {
    trying = kind->name;
    for (int call = 0; call < CALLS; call++) {
      handles_of_searches(kind, call);
      texts_of_searches(kind, call);
      rooms_of_searches(kind, call);
      bounds_of_searches(kind, call);
    }
    fewer_ranges(kind);
  }
}

/* What calls copy a text to, and how long it is. */
static char buffer[BYTES];
static size_t written;

/* Each call that copies a text. The last two ask no handle. */
enum { TEXT, NAME, REPLACE, REPLACE_ALL, ESCAPE, ERROR_TEXT, COPIES };
static const char *const names_of_copies[] = {"pattern_text", "group_name", "replace", "replace_all", "escape", "error_text"};

static int32_t copy(int call, regress_handle *handle, char *to, size_t room, size_t *length) {
  switch (call) {
    case TEXT: return regress_pattern_text(handle, to, room, length);
    case NAME: return regress_group_name(handle, 1, to, room, length);
    case REPLACE: return regress_replace(handle, "-b-", 3, "$&$&", 4, to, room, length);
    case REPLACE_ALL: return regress_replace_all(handle, "b-b", 3, "$&", 2, to, room, length);
    case ESCAPE: return regress_escape("a.b", 3, to, room, length);
    default: return regress_error_text(REGRESS_NO_ROOM, to, room, length);
  }
}

/* Copies to a buffer that is filled with points. */
static int32_t copied(int call, regress_handle *handle, size_t room) {
  memset(buffer, '.', BYTES);
  written = MARK;
  return copy(call, handle, buffer, room, &written);
}

static int is_filled_from(size_t from) {
  for (size_t k = from; k < BYTES; k++)
    if (buffer[k] != '.') return 0;
  return 1;
}

static void rooms_of_copies(int call) {
  CHECK(copied(call, &pattern, BYTES) == REGRESS_OK && written > 0 && written < BYTES - 1);
  size_t length = written;
  CHECK(buffer[length] == 0 && memchr(buffer, 0, length) == NULL && is_filled_from(length + 1));
  CHECK(copied(call, &pattern, length) == REGRESS_OK && written == length && is_filled_from(length));
  for (size_t room = 0; room < length; room++)
    CHECK(copied(call, &pattern, room) == REGRESS_NO_ROOM && written == length && is_filled_from(0));
  CHECK(copy(call, &pattern, NULL, 0, &written) == REGRESS_NO_ROOM && written == length);
  CHECK(copy(call, &pattern, NULL, BYTES, &written) == REGRESS_NULL);
  CHECK(copy(call, &pattern, buffer, BYTES, NULL) == REGRESS_NULL);
}

static void copies(void) {
  regress_handle *const wrong[] = {&empty, &freed, &tables, &search};
  for (int call = 0; call < COPIES; call++) {
    trying = names_of_copies[call];
    rooms_of_copies(call);
    for (size_t k = 0; k < COUNT(wrong) && call < ESCAPE; k++)
      CHECK(copied(call, wrong[k], BYTES) == REGRESS_WRONG_HANDLE && is_filled_from(0));
    if (call < ESCAPE) CHECK(copied(call, NULL, BYTES) == REGRESS_NULL && is_filled_from(0));
  }
}

static void texts_of_copies(void) {
  trying = "texts";
  memset(buffer, '.', BYTES);
  for (size_t k = 0; k < COUNT(not_utf8); k++) {
    const char *text = not_utf8[k];
    size_t length = strlen(text), numbers[1] = {MARK};
    CHECK(regress_replace(&pattern, text, length, "", 0, buffer, BYTES, &written) == REGRESS_NOT_UTF8);
    CHECK(regress_replace(&pattern, "b", 1, text, length, buffer, BYTES, &written) == REGRESS_NOT_UTF8);
    CHECK(regress_replace_all(&pattern, text, length, "", 0, buffer, BYTES, &written) == REGRESS_NOT_UTF8);
    CHECK(regress_replace_all(&pattern, "b", 1, text, length, buffer, BYTES, &written) == REGRESS_NOT_UTF8);
    CHECK(regress_escape(text, length, buffer, BYTES, &written) == REGRESS_NOT_UTF8);
    CHECK(regress_group_numbers(&pattern, text, length, numbers, 1) == REGRESS_NOT_UTF8 && numbers[0] == MARK);
  }
  CHECK(regress_replace(&pattern, NULL, 1, "", 0, buffer, BYTES, &written) == REGRESS_NULL);
  CHECK(regress_replace(&pattern, "", 0, NULL, 1, buffer, BYTES, &written) == REGRESS_NULL);
  CHECK(regress_replace_all(&pattern, NULL, 1, "", 0, buffer, BYTES, &written) == REGRESS_NULL);
  CHECK(regress_replace_all(&pattern, "", 0, NULL, 1, buffer, BYTES, &written) == REGRESS_NULL);
  CHECK(regress_escape(NULL, 1, buffer, BYTES, &written) == REGRESS_NULL);
  CHECK(is_filled_from(0));
}

static void asking(void) {
  regress_handle *const wrong[] = {&empty, &freed, &tables, &search};
  size_t numbers[1] = {MARK};
  trying = "asking";
  for (size_t k = 0; k < COUNT(wrong); k++) {
    CHECK(regress_is_linear(wrong[k]) == REGRESS_WRONG_HANDLE);
    CHECK(regress_linear_steps(wrong[k], 5, numbers) == REGRESS_WRONG_HANDLE);
    CHECK(regress_group_count(wrong[k]) == REGRESS_WRONG_HANDLE);
    CHECK(regress_group_numbers(wrong[k], "n", 1, numbers, 1) == REGRESS_WRONG_HANDLE);
  }
  CHECK(regress_is_linear(NULL) == REGRESS_NULL);
  CHECK(regress_linear_steps(NULL, 5, numbers) == REGRESS_NULL && regress_linear_steps(&pattern, 5, NULL) == REGRESS_NULL);
  CHECK(regress_group_count(NULL) == REGRESS_NULL);
  CHECK(regress_group_numbers(NULL, "n", 1, numbers, 1) == REGRESS_NULL);
  CHECK(regress_group_numbers(&pattern, NULL, 1, numbers, 1) == REGRESS_NULL);
  CHECK(regress_group_numbers(&pattern, "n", 1, NULL, 1) == REGRESS_NULL);
  CHECK(numbers[0] == MARK);
  CHECK(regress_group_name(&pattern, 0, buffer, BYTES, &written) == REGRESS_NO_GROUP);
  CHECK(regress_group_name(&pattern, 3, buffer, BYTES, &written) == REGRESS_NO_GROUP);
}

static void bounding(void) {
  regress_handle *const wrong[] = {&empty, &freed, &tables, &pattern};
  trying = "bounding";
  for (size_t k = 0; k < COUNT(wrong); k++) CHECK(regress_search_set_max_steps(wrong[k], 1) == REGRESS_WRONG_HANDLE);
  CHECK(regress_search_set_max_steps(NULL, 1) == REGRESS_NULL);
  CHECK(regress_is_match(&search, "aab", 3, 0) == 1);
}

/* A handle that a call is to fill holds what it held where the call fails. */
static void making(void) {
  regress_handle *const no_pattern[] = {&empty, &freed, &tables, &search}, *const not_shared[] = {&empty, &freed, &search};
  regress_handle out = {0};
  trying = "making";
  CHECK(regress_share(&pattern, &out) == REGRESS_OK);
  for (size_t k = 0; k < COUNT(no_pattern); k++) CHECK(regress_search_new(no_pattern[k], &out) == REGRESS_WRONG_HANDLE);
  for (size_t k = 0; k < COUNT(not_shared); k++) CHECK(regress_share(not_shared[k], &out) == REGRESS_WRONG_HANDLE);
  CHECK(regress_search_new(NULL, &out) == REGRESS_NULL && regress_search_new(&pattern, NULL) == REGRESS_NULL);
  CHECK(regress_share(NULL, &out) == REGRESS_NULL && regress_share(&pattern, NULL) == REGRESS_NULL);
  CHECK(regress_search_new(&out, &out) == REGRESS_SAME_HANDLE && regress_share(&out, &out) == REGRESS_SAME_HANDLE);
  CHECK(regress_tables_small(NULL) == REGRESS_NULL && regress_tables_unicode(NULL) == REGRESS_NULL);
  CHECK(regress_group_count(&out) == 2);
  regress_free(&out);
  regress_free(&out);
  regress_free(NULL);
  CHECK(out.held == NULL);
}

/* A limit that the patterns here keep. */
#define LIMIT 1000

/* The calls that compile, over a text of ASCII, or of one unit. */
enum { BY_BYTES, BY_WHOLE, BY_UNITS, BY_BYTES_WITHIN, BY_WHOLE_WITHIN, BY_UNITS_WITHIN, COMPILERS };

static int32_t compile(int by, const char *text, size_t length, const char *flags, regress_handle *from, regress_handle *to,
                       regress_error *error) {
  uint16_t unit[1] = {'('};
  if (text != NULL && length > 0) unit[0] = (unsigned char)text[0];
  if (by == BY_UNITS) return regress_compile_units(text == NULL ? NULL : unit, length, flags, from, to, error);
  if (by == BY_UNITS_WITHIN) return regress_compile_units_within(text == NULL ? NULL : unit, length, flags, LIMIT, from, to, error);
  if (by == BY_BYTES_WITHIN) return regress_compile_within(text, length, flags, LIMIT, from, to, error);
  if (by == BY_WHOLE_WITHIN) return regress_compile_whole_within(text, length, flags, LIMIT, from, to, error);
  return (by == BY_WHOLE ? regress_compile_whole : regress_compile)(text, length, flags, from, to, error);
}

static void compiling(int by) {
  regress_handle *const wrong[] = {&empty, &freed, &pattern, &search};
  regress_handle out = {0};
  regress_error error;
  CHECK(regress_share(&pattern, &out) == REGRESS_OK);
  for (size_t k = 0; k < COUNT(wrong); k++)
    CHECK(compile(by, "a", 1, "", wrong[k], &out, &error) == REGRESS_WRONG_HANDLE && error.code == REGRESS_WRONG_HANDLE);
  for (size_t k = 0; k < COUNT(not_utf8) && by != BY_UNITS && by != BY_UNITS_WITHIN; k++)
    CHECK(compile(by, not_utf8[k], strlen(not_utf8[k]), "", &tables, &out, &error) == REGRESS_NOT_UTF8);
  CHECK(compile(by, "a", 1, "", NULL, &out, &error) == REGRESS_NULL);
  CHECK(compile(by, "a", 1, "", &tables, NULL, &error) == REGRESS_NULL);
  CHECK(compile(by, NULL, 1, "", &tables, &out, &error) == REGRESS_NULL);
  CHECK(compile(by, "a", 1, "", &tables, &tables, &error) == REGRESS_SAME_HANDLE);
  CHECK(compile(by, "a", 1, "\xC3", &tables, &out, &error) == REGRESS_NOT_UTF8);
  CHECK(compile(by, "a", 1, "ix", &tables, &out, &error) == REGRESS_UNKNOWN_FLAG && error.place == 1);
  CHECK(compile(by, "a", 1, "ii", &tables, &out, NULL) == REGRESS_REPEATED_FLAG);
  CHECK(compile(by, "a", 1, "uv", &tables, &out, &error) == REGRESS_BOTH_UNICODE_FLAGS);
  CHECK(compile(by, "(", 1, "", &tables, &out, &error) == REGRESS_SYNTAX && error.place <= 1 && error.text[0] != 0);
  CHECK(compile(by, "(", 1, "", &tables, &out, NULL) == REGRESS_SYNTAX);
  CHECK(regress_group_count(&out) == 2);
  CHECK(compile(by, NULL, 0, NULL, &tables, &out, &error) == REGRESS_OK && error.code == REGRESS_OK && error.text[0] == 0);
  CHECK(regress_group_count(&out) == 0);
  regress_free(&out);
}

int main(void) {
  static const char *const names[] = {"compile",        "compile_whole",        "compile_units",
                                      "compile_within", "compile_whole_within", "compile_units_within"};
  CHECK(regress_tables_small(&tables) == REGRESS_OK && regress_tables_small(&freed) == REGRESS_OK);
  CHECK(regress_compile("(?<n>a+)b|(x)|b", 15, "", &tables, &pattern, NULL) == REGRESS_OK);
  CHECK(regress_search_new(&pattern, &search) == REGRESS_OK);
  regress_free(&freed);
  searches();
  copies();
  texts_of_copies();
  asking();
  bounding();
  making();
  for (int by = 0; by < COMPILERS; by++) {
    trying = names[by];
    compiling(by);
  }
  regress_free(&search);
  regress_free(&pattern);
  regress_free(&tables);
  return told();
}
