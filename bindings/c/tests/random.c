/* Random calls with right and wrong arguments: whatever comes, the answer is one that the call may have. `random COUNT SEED` */
#include <regress.h>

#include "check.h"
#include "kinds.h"

#include <stdlib.h>

enum { TABLES, PATTERN, SEARCH, KINDS_OF_HANDLES, HANDLES = 3, ROOM = 9 };

static uint64_t state;
static unsigned long matches, refusals; /* how many searches found something, and how many were refused */

static size_t below(size_t bound) {
  state = state * 6364136223846793005u + 1442695040888963407u;
  return (size_t)(state >> 33) % bound;
}

static const char *const sources[] = {"a", "(a)|b", "(?<n>a+)b", "[^]*?(x)", "(", "a{2,1}", "\\p{ASCII}", "(?<=\xC3\xA9)x", "", "\xFF", "(?:a|b)*c"};
/* The first three are ASCII, and the first six are UTF-8. */
static const char *const texts[] = {"", "aab", "ababababcbbbbx", "x\xC3\xA9x", "a", "\xF0\x9F\x98\x80", "\xFF", "a\xC3", "aab\xC3\xA9\xFF"};
static const uint16_t unit_texts[][4] = {{'a', 'b', 'x', 'a'}, {0xD83D, 0xDE00, 'a', 0xDE00}, {0xD83D, 0xD83D, 0xDE00, 0xE9}};
static const char *const flags[] = {"", "i", "u", "v", "uv", "ii", "q", "gy", NULL};

static regress_handle handles[KINDS_OF_HANDLES][HANDLES];

/* A handle that is mostly of a kind, if it holds something. */
static regress_handle *any_handle(size_t kind) {
  if (below(20) == 0) return NULL;
  return &handles[below(8) == 0 ? below(KINDS_OF_HANDLES) : kind][below(HANDLES)];
}

/* Whether ranges lie in a text. */
static int lie_in(const regress_range *ranges, size_t count, size_t length) {
  for (size_t k = 0; k < count; k++) {
    if (ranges[k].start == REGRESS_UNSET && ranges[k].end == REGRESS_UNSET) continue;
    if (ranges[k].start > ranges[k].end || ranges[k].end > length) return 0;
  }
  return 1;
}

/* A text for a kind of calls: ASCII alone may be given to those for ASCII, and UTF-8 alone to those that do not check it. */
static const void *any_text(int kind, size_t *length) {
  if (kinds[kind].in_units) {
    *length = 4;
    return unit_texts[below(3)];
  }
  const char *text = texts[below(kind == ASCII ? 3 : kind == VALID ? 6 : 9)];
  *length = strlen(text);
  return text;
}

/* Searches by any call of any kind. */
static void search(void) {
  int which = (int)below(KINDS);
  const kind_of_text *kind = &kinds[which];
  size_t length, count = below(ROOM + 1), found = 0;
  const void *text = any_text(which, &length);
  size_t start = below(12) == 0 ? SIZE_MAX : below(2) * below(length + 2);
  int is_wrong = !kind->in_units && length > 0 && strchr("\xFF\xC3", ((const char *)text)[length - 1]) != NULL;
  regress_range ranges[ROOM];
  regress_handle *from = any_handle(SEARCH);
  int32_t code;
  switch (below(4)) {
    case 0:
      code = kind->find(from, text, length, start, ranges, count);
      CHECK(code <= 0 || lie_in(ranges, count, length));
      break;
    case 1:
      code = kind->match_at(from, text, length, start, ranges, count);
      CHECK(code <= 0 || (lie_in(ranges, count, length) && (count == 0 || ranges[0].start == start)));
      break;
    case 2:
      code = kind->is_match(from, text, length, start);
      CHECK(code <= 1);
      break;
    default:
      code = kind->find_many(from, text, length, &start, ranges, count, below(4), &found);
      CHECK(code <= 0 && (code != 0 || found <= count));
  }
  CHECK(code >= REGRESS_TOO_MANY_STEPS && (!is_wrong || code < 0));
  matches += code > 0 || found > 0;
  refusals += code < 0;
}

static void make(void) {
  const char *source = sources[below(11)], *letters = flags[below(9)];
  regress_error error = {0, 0, ""};
  regress_handle *tables = any_handle(TABLES), *pattern = any_handle(PATTERN), *other = any_handle(PATTERN);
  int32_t code;
  switch (below(12)) {
    case 0: code = below(1000) == 0 ? regress_tables_unicode(tables) : regress_tables_small(tables); break;
    case 1: code = regress_share(other, pattern); break;
    case 2: code = regress_share(tables, any_handle(TABLES)); break;
    case 3: code = regress_compile_units(unit_texts[below(3)], 4, letters, tables, pattern, &error); break;
    case 4: code = regress_compile_whole(source, strlen(source), letters, tables, pattern, &error); break;
    case 5: code = regress_compile(source, strlen(source), letters, tables, pattern, &error); break;
    case 6: code = regress_compile_within(source, strlen(source), letters, below(64), tables, pattern, &error); break;
    case 7: code = regress_compile_whole_within(source, strlen(source), letters, below(64), tables, pattern, &error); break;
    case 8: code = regress_compile_units_within(unit_texts[below(3)], 4, letters, below(16), tables, pattern, &error); break;
    case 9: code = regress_search_set_max_steps(any_handle(SEARCH), below(2) == 0 ? SIZE_MAX : below(64)); break;
    default: code = regress_search_new(pattern, any_handle(SEARCH));
  }
  CHECK(code <= 0 && code >= REGRESS_PAST_LIMIT && error.place <= 24);
}

static void ask(void) {
  char buffer[24];
  size_t written = 0, room = below(25), numbers[3], steps = 1;
  const char *text = texts[below(9)];
  regress_handle *pattern = any_handle(PATTERN);
  int32_t code;
  switch (below(10)) {
    case 0: code = regress_group_name(pattern, below(4), buffer, room, &written); break;
    case 1: code = regress_group_numbers(pattern, "n", below(2), numbers, below(4)); break;
    case 2: code = regress_replace(pattern, text, strlen(text), "<$&$1>", 6, buffer, room, &written); break;
    case 3: code = regress_replace_all(pattern, text, strlen(text), "$`$'", 4, buffer, room, &written); break;
    case 4: code = regress_escape(text, strlen(text), buffer, room, &written); break;
    case 5: code = regress_error_text(-(int32_t)below(21), buffer, room, &written); break;
    case 6: code = regress_group_count(pattern); break;
    case 7: code = regress_is_linear(pattern); break;
    case 8: code = regress_linear_steps(pattern, below(40), &steps); break;
    default: code = regress_pattern_text(pattern, buffer, room, &written);
  }
  CHECK(code >= REGRESS_PAST_LIMIT && code <= 1 && (code != REGRESS_OK || written <= room) && steps > 0);
}

int main(int count, char **words) {
  unsigned long calls = count > 1 ? strtoul(words[1], NULL, 10) : 100000;
  state = count > 2 ? strtoul(words[2], NULL, 10) : 1;
  for (unsigned long k = 0; k < calls; k++) {
    switch (below(8)) {
      case 0: regress_free(below(4) == 0 ? any_handle(below(KINDS_OF_HANDLES)) : NULL); break;
      case 1:
      case 2: make(); break;
      case 3: ask(); break;
      default: search();
    }
  }
  for (int kind = 0; kind < KINDS_OF_HANDLES; kind++)
    for (int k = 0; k < HANDLES; k++) regress_free(&handles[kind][k]);
  printf("of %lu calls %lu found a match and %lu searches were refused\n", calls, matches, refusals);
  CHECK(matches > calls / 100 && refusals > calls / 100);
  return told();
}
