/* Call by call, memory is refused from each request on in turn: the answer is REGRESS_OUT_OF_MEMORY, nothing is lost, and what the call
 * was to fill is as it was. The linker sends the library's requests here (`--wrap`). */
#include <regress.h>

#include "check.h"

#include <stdlib.h>

static unsigned long granted;          /* how many requests are granted, while they are counted */
static int is_counted, was_refused;

void *__real_malloc(size_t size);
void *__real_realloc(void *held, size_t size);
void *__wrap_malloc(size_t size);
void *__wrap_realloc(void *held, size_t size);

static int is_refused(void) {
  if (!is_counted || granted > 0) {
    granted -= is_counted;
    return 0;
  }
  was_refused = 1;
  return 1;
}

void *__wrap_malloc(size_t size) { return is_refused() ? NULL : __real_malloc(size); }

void *__wrap_realloc(void *held, size_t size) { return is_refused() ? NULL : __real_realloc(held, size); }

static regress_tables tables;
static regress_pattern pattern;

/* A handle that a call is to fill, and what calls write to. */
static regress_handle out;
static char buffer[64];
static size_t written;

#define SOURCE "(?<word>[a-z]+?|\\w)(?=(\\d)\\d*)|(?:ab|a|b)*c"

static int32_t make_tables(void) { return regress_tables_small(&out); }
static int32_t compile(void) { return regress_compile(SOURCE, sizeof SOURCE - 1, "iu", &tables, &out, NULL); }
static int32_t compile_whole(void) { return regress_compile_whole(SOURCE, sizeof SOURCE - 1, "iu", &tables, &out, NULL); }
static int32_t compile_units(void) {
  static const uint16_t units[] = {'(', 'a', '|', 0xD83D, 0xDE00, ')', '+'};
  return regress_compile_units(units, 7, "u", &tables, &out, NULL);
}
static int32_t compile_within(void) { return regress_compile_within(SOURCE, sizeof SOURCE - 1, "iu", 1000, &tables, &out, NULL); }
static int32_t share(void) { return regress_share(&pattern, &out); }
static int32_t make_search(void) { return regress_search_new(&pattern, &out); }
static int32_t text_of(void) { return regress_pattern_text(&pattern, buffer, sizeof buffer, &written); }
static int32_t name(void) { return regress_group_name(&pattern, 1, buffer, sizeof buffer, &written); }
static int32_t numbers(void) {
  size_t number;
  return regress_group_numbers(&pattern, "word", 4, &number, 1) == 1 ? REGRESS_OK : REGRESS_NO_GROUP;
}
/* A table that was refused memory is not there, and a pattern without its tables is not known to be linear: that is no error. */
static int32_t unless_refused(int32_t code) { return was_refused && code == 0 ? REGRESS_OUT_OF_MEMORY : code; }
static int32_t is_linear(void) { return unless_refused(regress_is_linear(&pattern)); }
static int32_t linear_steps(void) { return unless_refused(regress_linear_steps(&pattern, 100, &written)); }
static int32_t replace(void) { return regress_replace(&pattern, "abc-x1", 6, "<$<word>>", 9, buffer, sizeof buffer, &written); }
static int32_t replace_all(void) { return regress_replace_all(&pattern, "abc-x1", 6, "<$1>", 4, buffer, sizeof buffer, &written); }
static int32_t escape(void) { return regress_escape("a.b", 3, buffer, sizeof buffer, &written); }

/* Each call that may request memory, and whether it does. */
static const struct {
  const char *name;
  int32_t (*call)(void);
  int requests;
} calls[] = {{"tables_small", make_tables, 1}, {"compile", compile, 1},         {"compile_whole", compile_whole, 1},
             {"compile_units", compile_units, 1}, {"compile_within", compile_within, 1}, {"share", share, 1},          {"search_new", make_search, 1},
             {"pattern_text", text_of, 0},     {"group_name", name, 0},         {"group_numbers", numbers, 0},
             {"is_linear", is_linear, 1},      {"linear_steps", linear_steps, 1},
             {"replace", replace, 1},          {"replace_all", replace_all, 1}, {"escape", escape, 1}};

/* Grants a call so many requests: answers whether it asked for more. */
static int is_short_of(int32_t (*call)(void), unsigned long requests) {
  granted = requests;
  was_refused = 0;
  memset(buffer, '.', sizeof buffer);
  is_counted = 1;
  int32_t code = call();
  is_counted = 0;
  CHECK(code == (was_refused ? REGRESS_OUT_OF_MEMORY : REGRESS_OK));
  CHECK(!was_refused || (buffer[0] == '.' && regress_group_count(&out) == 0));
  return was_refused;
}

static regress_search search;
static regress_range ranges[8];
static size_t start, found;
static size_t steps; /* how many steps a search may take */
static int found_before; /* whether a search of many was refused memory behind a match */

static const char text[] = "c ababababababababababababababababababababababababababababababababababababababc";

static int32_t find(void) { return regress_find(&search, text, sizeof text - 1, 1, ranges, 8); }
static int32_t match_at(void) { return regress_match_at(&search, text, sizeof text - 1, 2, ranges, 8); }
static int32_t is_match(void) { return regress_is_match(&search, text, sizeof text - 1, 1); }
static int32_t find_many(void) { return regress_find_many(&search, text, sizeof text - 1, &start, ranges, 8, 1, &found); }

/* The same of a search. One that was refused memory finds all once it is asked again, behind what it found before. */
static int is_search_short_of(int32_t (*call)(void), int32_t right, unsigned long requests) {
  CHECK(regress_search_new(&pattern, &search) == REGRESS_OK);
  CHECK(regress_search_set_max_steps(&search, steps) == REGRESS_OK);
  start = found = 0;
  granted = requests;
  was_refused = 0;
  is_counted = 1;
  int32_t code = call();
  is_counted = 0;
  CHECK(code == (was_refused ? REGRESS_OUT_OF_MEMORY : right));
  size_t told = found;
  found_before |= was_refused && told > 0;
  CHECK(call() == right);
  CHECK(call != find_many || told + found == 2);
  return was_refused;
}

int main(void) {
  static const struct {
    const char *name;
    int32_t (*call)(void);
    int32_t right;
  } searches[] = {{"find", find, 3}, {"match_at", match_at, 3}, {"is_match", is_match, 1}, {"find_many", find_many, 0}};
  CHECK(regress_tables_small(&tables) == REGRESS_OK);
  CHECK(regress_compile(SOURCE, sizeof SOURCE - 1, "iu", &tables, &pattern, NULL) == REGRESS_OK);
  for (size_t k = 0; k < sizeof calls / sizeof *calls; k++) {
    unsigned long requests = 0;
    trying = calls[k].name;
    CHECK(regress_compile("", 0, "", &tables, &out, NULL) == REGRESS_OK);
    while (is_short_of(calls[k].call, requests)) requests++;
    CHECK((requests > 0) == calls[k].requests);
  }
  for (size_t k = 0; k < 2 * (sizeof searches / sizeof *searches); k++) {
    unsigned long requests = 0;
    steps = k % 2 == 0 ? SIZE_MAX : 1000000;
    trying = searches[k / 2].name;
    while (is_search_short_of(searches[k / 2].call, searches[k / 2].right, requests)) requests++;
    CHECK(requests > 0);
  }
  CHECK(found_before);
  regress_free(&search);
  regress_free(&out);
  regress_free(&pattern);
  regress_free(&tables);
  return told();
}
