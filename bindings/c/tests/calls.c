/* Each call once as it is meant, and with each fault that a caller can make. */
#include <regress.h>

#include "check.h"

#define TEXT(text) (text), (sizeof(text) - 1)

static regress_tables tables;
static regress_pattern pattern;
static regress_search search;

static const uint16_t units[] = {0x61, 0xD83D, 0xDE00, 0x62};

/* Whether memory is as it was made. */
static int is_untouched(const regress_range *ranges, size_t count) {
  for (size_t k = 0; k < count; k++)
    if (ranges[k].start != 7 || ranges[k].end != 7) return 0;
  return 1;
}

static void untouch(regress_range *ranges, size_t count) {
  for (size_t k = 0; k < count; k++) ranges[k].start = ranges[k].end = 7;
}

static void handles(void) {
  regress_handle empty = {0}, other = {0};
  CHECK(regress_tables_small(NULL) == REGRESS_NULL);
  CHECK(regress_tables_unicode(NULL) == REGRESS_NULL);
  CHECK(regress_tables_small(&tables) == REGRESS_OK);
  CHECK(regress_compile(TEXT("(?<as>a+)b|(x)"), "", &tables, &pattern, NULL) == REGRESS_OK);
  CHECK(regress_search_new(&pattern, &search) == REGRESS_OK);
  regress_free(NULL);
  regress_free(&empty);
  CHECK(empty.held == NULL);
  CHECK(regress_share(NULL, &other) == REGRESS_NULL);
  CHECK(regress_share(&pattern, NULL) == REGRESS_NULL);
  CHECK(regress_share(&pattern, &pattern) == REGRESS_SAME_HANDLE);
  CHECK(regress_share(&empty, &other) == REGRESS_WRONG_HANDLE);
  CHECK(regress_share(&search, &other) == REGRESS_WRONG_HANDLE);
  CHECK(other.held == NULL);
  CHECK(regress_share(&tables, &other) == REGRESS_OK);
  CHECK(regress_share(&pattern, &other) == REGRESS_OK);
  CHECK(regress_group_count(&other) == 2);
  regress_free(&other);
  CHECK(other.held == NULL);
  regress_free(&other);
  CHECK(regress_group_count(&other) == REGRESS_WRONG_HANDLE);
  CHECK(regress_search_new(&tables, &other) == REGRESS_WRONG_HANDLE);
  CHECK(regress_search_new(&search, &other) == REGRESS_WRONG_HANDLE);
  CHECK(regress_search_new(&empty, &other) == REGRESS_WRONG_HANDLE);
  CHECK(regress_search_new(&pattern, &pattern) == REGRESS_SAME_HANDLE);
  CHECK(regress_search_new(NULL, &other) == REGRESS_NULL);
  CHECK(regress_search_new(&pattern, NULL) == REGRESS_NULL);
}

static void compiling(void) {
  regress_pattern made = {0};
  regress_handle empty = {0};
  regress_error error;
  const uint16_t open[] = {0xD83D, 0xDE00, '(', 'a'};
  CHECK(regress_compile(NULL, 0, NULL, &tables, &made, NULL) == REGRESS_OK);
  CHECK(regress_compile(NULL, 1, NULL, &tables, &made, NULL) == REGRESS_NULL);
  CHECK(regress_compile(TEXT("a"), "", NULL, &made, NULL) == REGRESS_NULL);
  CHECK(regress_compile(TEXT("a"), "", &tables, NULL, NULL) == REGRESS_NULL);
  CHECK(regress_compile(TEXT("a"), "", &tables, &tables, NULL) == REGRESS_SAME_HANDLE);
  CHECK(regress_compile(TEXT("a"), "", &empty, &made, &error) == REGRESS_WRONG_HANDLE);
  CHECK(regress_compile(TEXT("a"), "", &search, &made, &error) == REGRESS_WRONG_HANDLE);
  CHECK(regress_compile(TEXT("a\xFF"), "", &tables, &made, &error) == REGRESS_NOT_UTF8);
  CHECK(error.code == REGRESS_NOT_UTF8);
  CHECK(regress_compile(TEXT("a"), "\xFF", &tables, &made, &error) == REGRESS_NOT_UTF8);
  CHECK(regress_compile(TEXT("a"), "iX", &tables, &made, &error) == REGRESS_UNKNOWN_FLAG && error.place == 1);
  CHECK(regress_compile(TEXT("a"), "mim", &tables, &made, &error) == REGRESS_REPEATED_FLAG && error.place == 2);
  CHECK(regress_compile(TEXT("a"), "uv", &tables, &made, &error) == REGRESS_BOTH_UNICODE_FLAGS);
  CHECK(regress_compile(TEXT("\xC3\xA9(b|c"), "", &tables, &made, &error) == REGRESS_SYNTAX);
  CHECK(error.code == REGRESS_SYNTAX && error.place == 6 && strcmp(error.text, "Unbalanced parenthesis") == 0);
  CHECK(regress_compile_units(open, 4, "u", &tables, &made, &error) == REGRESS_SYNTAX && error.place == 4);
  CHECK(regress_compile_units(open, 4, "", &tables, &made, &error) == REGRESS_SYNTAX && error.place == 4);
  CHECK(regress_group_count(&made) == 0);
  CHECK(regress_compile_units(open, 2, "u", &tables, &made, &error) == REGRESS_OK && error.code == REGRESS_OK);
  CHECK(regress_compile_units(NULL, 0, "u", &tables, &made, &error) == REGRESS_OK);
  CHECK(regress_compile_units(NULL, 2, "u", &tables, &made, &error) == REGRESS_NULL);
  CHECK(regress_compile_whole(TEXT("a|ab"), "", &tables, &made, &error) == REGRESS_OK);
  CHECK(regress_compile_whole(TEXT("a|(b"), "", &tables, &made, &error) == REGRESS_SYNTAX && error.place == 4);
  regress_free(&made);
}

/* A pattern that costs five nodes, of two instructions each, and over a whole text ten. */
static void compiling_within(void) {
  regress_pattern made = {0};
  regress_error error;
  const uint16_t ab[] = {'a', 'b'};
  char many[12 * 800 + 8] = "";
  CHECK(regress_compile_within(TEXT("ab"), "", 9, &tables, &made, &error) == REGRESS_PAST_LIMIT);
  CHECK(error.code == REGRESS_PAST_LIMIT && error.place == 0 && strcmp(error.text, "pattern costs more than its limit") == 0);
  CHECK(regress_compile_within(TEXT("ab"), "", 0, &tables, &made, NULL) == REGRESS_PAST_LIMIT);
  CHECK(regress_compile_within(TEXT("a("), "", 0, &tables, &made, &error) == REGRESS_SYNTAX && error.place == 2);
  CHECK(regress_compile_within(TEXT("ab"), "", 10, &tables, &made, &error) == REGRESS_OK && error.code == REGRESS_OK);
  CHECK(regress_compile_within(TEXT("ab"), "", SIZE_MAX, &tables, &made, NULL) == REGRESS_OK);
  CHECK(regress_compile_units_within(ab, 2, "u", 9, &tables, &made, &error) == REGRESS_PAST_LIMIT);
  CHECK(regress_compile_units_within(ab, 2, "u", 10, &tables, &made, &error) == REGRESS_OK);
  CHECK(regress_compile_whole_within(TEXT("ab"), "", 19, &tables, &made, &error) == REGRESS_PAST_LIMIT);
  CHECK(regress_compile_whole_within(TEXT("ab"), "", 20, &tables, &made, &error) == REGRESS_OK);
  /* 800 groups of one name, and 800 times a reference to all of them, which may take 1,280,000 instructions. */
  for (int k = 0; k < 800; k++) strcat(many, k == 0 ? "(?:(?<n>)" : "|(?<n>)");
  strcat(many, ")");
  for (int k = 0; k < 800; k++) strcat(many, "\\k<n>");
  CHECK(regress_compile(many, strlen(many), "", &tables, &made, &error) == REGRESS_PAST_LIMIT);
  CHECK(regress_compile_whole(many, strlen(many), "", &tables, &made, &error) == REGRESS_PAST_LIMIT);
  CHECK(regress_compile_within(many, strlen(many), "", REGRESS_DEFAULT_LIMIT, &tables, &made, &error) == REGRESS_PAST_LIMIT);
  CHECK(regress_group_count(&made) == 0);
  regress_free(&made);
}

static void asking(void) {
  regress_pattern named = {0};
  char buffer[16];
  size_t written = 99, numbers[3] = {7, 7, 7};
  CHECK(regress_compile(TEXT("(?<n>a)|(b)(?<n>c)"), "dgy", &tables, &named, NULL) == REGRESS_OK);
  CHECK(regress_group_count(&named) == 3);
  CHECK(regress_group_count(NULL) == REGRESS_NULL);
  CHECK(regress_group_name(&named, 1, buffer, 16, &written) == REGRESS_OK && written == 1 && strcmp(buffer, "n") == 0);
  CHECK(regress_group_name(&named, 2, buffer, 16, &written) == REGRESS_OK && written == 0);
  CHECK(regress_group_name(&named, 0, buffer, 16, &written) == REGRESS_NO_GROUP);
  CHECK(regress_group_name(&named, 4, buffer, 16, &written) == REGRESS_NO_GROUP);
  CHECK(regress_group_name(&named, SIZE_MAX, buffer, 16, &written) == REGRESS_NO_GROUP);
  CHECK(regress_group_name(&tables, 1, buffer, 16, &written) == REGRESS_WRONG_HANDLE);
  CHECK(regress_group_name(&named, 1, NULL, 16, &written) == REGRESS_NULL);
  CHECK(regress_group_name(&named, 1, buffer, 16, NULL) == REGRESS_NULL);
  CHECK(regress_group_numbers(&named, TEXT("n"), numbers, 1) == 2 && numbers[0] == 1 && numbers[1] == 7);
  CHECK(regress_group_numbers(&named, TEXT("n"), numbers, 3) == 2 && numbers[1] == 3 && numbers[2] == 7);
  CHECK(regress_group_numbers(&named, TEXT("n"), NULL, 0) == 2);
  CHECK(regress_group_numbers(&named, TEXT("m"), numbers, 3) == 0);
  CHECK(regress_group_numbers(&named, NULL, 0, numbers, 3) == 0);
  CHECK(regress_group_numbers(&named, TEXT("\xC3"), numbers, 3) == REGRESS_NOT_UTF8);
  CHECK(regress_group_numbers(&named, NULL, 1, numbers, 3) == REGRESS_NULL);
  CHECK(regress_pattern_text(&named, NULL, 0, &written) == REGRESS_NO_ROOM && written == 18);
  CHECK(regress_pattern_text(&named, buffer, 16, &written) == REGRESS_NO_ROOM && written == 18);
  CHECK(regress_pattern_text(&pattern, buffer, 16, &written) == REGRESS_OK && strcmp(buffer, "(?<as>a+)b|(x)") == 0);
  CHECK(regress_error_text(REGRESS_OUT_OF_MEMORY, buffer, 16, &written) == REGRESS_OK && strcmp(buffer, "out of memory") == 0);
  CHECK(regress_error_text(REGRESS_NULL, NULL, 3, &written) == REGRESS_NULL);
  regress_free(&named);
}

/* Whether a pattern is known to be linear, and how many steps are enough in a text of 5,000 letters. */
static int32_t linear(const char *source, size_t *steps) {
  regress_pattern asked = {0};
  CHECK(regress_compile(source, strlen(source), "", &tables, &asked, NULL) == REGRESS_OK);
  CHECK(regress_linear_steps(&asked, 5000, steps) == REGRESS_OK);
  int32_t known = regress_is_linear(&asked);
  regress_free(&asked);
  return known;
}

static void asking_linear(void) {
  static const char *const linear_ones[] = {"(a|ab)*c", "a{3,9}b", "(?:ab){2,3}", "(?<!a)b", "(?!(a)b)[^]", "(?=(a))b", "(?<=(a)|(b))c", "(?>a|bc)c", "(?<=(?=a)a)b", "(?>a+)b", "(?>(?:a|b)+)c", "^(?=((?:ab)*c))(?=((?:a|b)*))", "", "^(\\w|\\w\\w)*!$"};
  static const char *const others[] = {"(a)\\1", "(?:ab){2,30}", "(?:a*)*b", "(?=(a*))b", "^(?:(?=((?:ab)*c))a)*", "[^]{257}"};
  regress_handle nothing = {0}, ab = {0};
  size_t steps = 7, fewer;
  CHECK(regress_compile(TEXT("(a|ab)*c"), "", &tables, &ab, NULL) == REGRESS_OK);
  CHECK(regress_linear_steps(&ab, 10, &fewer) == REGRESS_OK && fewer > 10 && fewer < 10000);
  CHECK(regress_linear_steps(&ab, 11, &steps) == REGRESS_OK && steps > fewer);
  CHECK(regress_linear_steps(&ab, (size_t)1 << 30, &steps) == REGRESS_OK && steps == SIZE_MAX);
  CHECK(regress_linear_steps(&ab, SIZE_MAX, &steps) == REGRESS_OK && steps == SIZE_MAX);
  for (size_t k = 0; k < sizeof linear_ones / sizeof *linear_ones; k++) CHECK(linear(linear_ones[k], &steps) == 1 && steps < 10000000);
  for (size_t k = 0; k < sizeof others / sizeof *others; k++) CHECK(linear(others[k], &steps) == 0 && steps == SIZE_MAX);
  steps = 7;
  CHECK(regress_is_linear(&search) == REGRESS_WRONG_HANDLE && regress_is_linear(NULL) == REGRESS_NULL);
  CHECK(regress_linear_steps(&nothing, 10, &steps) == REGRESS_WRONG_HANDLE && steps == 7);
  CHECK(regress_linear_steps(NULL, 10, &steps) == REGRESS_NULL && steps == 7);
  CHECK(regress_linear_steps(&ab, 10, NULL) == REGRESS_NULL);
  regress_free(&ab);
}

static void replacing(void) {
  char buffer[16];
  size_t written = 99;
  CHECK(regress_replace(&pattern, TEXT("aab-ab"), TEXT("<$<as>>"), buffer, 16, &written) == REGRESS_OK);
  CHECK(written == 7 && strcmp(buffer, "<aa>-ab") == 0);
  CHECK(regress_replace_all(&pattern, TEXT("aab-ab"), TEXT("<$1>"), buffer, 16, &written) == REGRESS_OK);
  CHECK(written == 8 && strcmp(buffer, "<aa>-<a>") == 0);
  CHECK(regress_replace_all(&pattern, TEXT("aab-ab"), TEXT("<$1>"), buffer, 8, &written) == REGRESS_OK && written == 8);
  memset(buffer, '.', 16);
  CHECK(regress_replace_all(&pattern, TEXT("aab-ab"), TEXT("<$1>"), buffer, 7, &written) == REGRESS_NO_ROOM);
  CHECK(written == 8 && buffer[0] == '.');
  CHECK(regress_replace(&pattern, NULL, 0, NULL, 0, NULL, 0, &written) == REGRESS_OK && written == 0);
  CHECK(regress_replace(&pattern, TEXT("\xFF"), TEXT(""), buffer, 16, &written) == REGRESS_NOT_UTF8);
  CHECK(regress_replace(&pattern, TEXT(""), TEXT("\xFF"), buffer, 16, &written) == REGRESS_NOT_UTF8);
  CHECK(regress_replace(&search, TEXT(""), TEXT(""), buffer, 16, &written) == REGRESS_WRONG_HANDLE);
  CHECK(regress_replace_all(&tables, TEXT(""), TEXT(""), buffer, 16, &written) == REGRESS_WRONG_HANDLE);
  CHECK(regress_replace(&pattern, TEXT(""), TEXT(""), buffer, 16, NULL) == REGRESS_NULL);
  CHECK(regress_replace_all(NULL, TEXT(""), TEXT(""), buffer, 16, &written) == REGRESS_NULL);
  CHECK(regress_escape(TEXT("a.b"), buffer, 16, &written) == REGRESS_OK && strcmp(buffer, "a\\.b") == 0);
  CHECK(regress_escape(TEXT("a.b"), buffer, 3, &written) == REGRESS_NO_ROOM && written == 4);
  CHECK(regress_escape(TEXT("\xE2\x82"), buffer, 16, &written) == REGRESS_NOT_UTF8);
  CHECK(regress_escape(NULL, 1, buffer, 16, &written) == REGRESS_NULL);
}

static void searching(void) {
  regress_handle empty = {0}, freed = {0};
  regress_range ranges[5];
  untouch(ranges, 5);
  CHECK(regress_find(&search, TEXT("xaab"), 1, ranges, 5) == 3);
  CHECK(ranges[0].start == 1 && ranges[0].end == 4 && ranges[1].start == 1 && ranges[1].end == 3);
  for (int k = 2; k < 5; k++) CHECK(ranges[k].start == REGRESS_UNSET && ranges[k].end == REGRESS_UNSET);
  untouch(ranges, 5);
  CHECK(regress_find(&search, TEXT("xaab"), 1, ranges, 1) == 3 && ranges[0].end == 4 && is_untouched(ranges + 1, 4));
  CHECK(regress_find(&search, TEXT("xaab"), 1, NULL, 0) == 3);
  untouch(ranges, 5);
  CHECK(regress_find(&search, TEXT("yaa"), 0, ranges, 5) == 0);
  CHECK(regress_find(&search, TEXT("xaab"), 5, ranges, 5) == 0);
  CHECK(regress_find(&search, TEXT("xaab"), SIZE_MAX, ranges, 5) == 0);
  CHECK(regress_find(&search, NULL, 0, 0, ranges, 5) == 0);
  CHECK(regress_find(&search, TEXT("\xC3\xA9x"), 1, ranges, 5) == REGRESS_BAD_START);
  CHECK(regress_find_valid(&search, TEXT("\xC3\xA9x"), 1, ranges, 5) == REGRESS_BAD_START);
  CHECK(regress_find_utf16(&search, units, 4, 2, ranges, 5) == REGRESS_BAD_START);
  CHECK(regress_find_ucs2(&search, units, 4, 2, ranges, 5) == 0);
  CHECK(regress_find(&search, TEXT("x\xFF"), 0, ranges, 5) == REGRESS_NOT_UTF8);
  CHECK(regress_find(&search, TEXT("\xED\xA0\x80"), 0, ranges, 5) == REGRESS_NOT_UTF8);
  CHECK(regress_find(&empty, TEXT("x"), 0, ranges, 5) == REGRESS_WRONG_HANDLE);
  CHECK(regress_find(&pattern, TEXT("x"), 0, ranges, 5) == REGRESS_WRONG_HANDLE);
  CHECK(regress_find(&tables, TEXT("x"), 0, ranges, 5) == REGRESS_WRONG_HANDLE);
  CHECK(regress_find(NULL, TEXT("x"), 0, ranges, 5) == REGRESS_NULL);
  CHECK(regress_find(&search, NULL, 1, 0, ranges, 5) == REGRESS_NULL);
  CHECK(regress_find(&search, TEXT("x"), 0, NULL, 5) == REGRESS_NULL);
  CHECK(regress_find_utf16(&search, NULL, 1, 0, ranges, 5) == REGRESS_NULL);
  CHECK(is_untouched(ranges, 5));
  CHECK(regress_match_at(&search, TEXT("xaab"), 0, ranges, 1) == 3 && ranges[0].end == 1);
  CHECK(regress_match_at(&search, TEXT("yaab"), 0, ranges, 1) == 0);
  CHECK(regress_match_at(&search, TEXT("yaab"), 2, ranges, 1) == 3 && ranges[0].start == 2);
  CHECK(regress_match_at(&search, TEXT("yaab"), 9, ranges, 1) == 0);
  CHECK(regress_match_at(&pattern, TEXT("yaab"), 2, ranges, 1) == REGRESS_WRONG_HANDLE);
  CHECK(regress_match_at_ascii(&search, TEXT("yaab"), 1, ranges, 1) == 3);
  CHECK(regress_match_at_utf16(&search, units, 4, 2, ranges, 1) == REGRESS_BAD_START);
  CHECK(regress_is_match(&search, TEXT("yaab"), 0) == 1);
  CHECK(regress_is_match(&search, TEXT("yaa"), 0) == 0);
  CHECK(regress_is_match(&search, TEXT("yaa\x80"), 0) == REGRESS_NOT_UTF8);
  CHECK(regress_is_match(&freed, TEXT("yaa"), 0) == REGRESS_WRONG_HANDLE);
  CHECK(regress_is_match_ascii(&search, TEXT("yaab"), 3) == 0);
  CHECK(regress_is_match_utf16(NULL, units, 4, 0) == REGRESS_NULL);
}

static void finding_many(void) {
  regress_range ranges[4];
  size_t start = 0, found = 99;
  CHECK(regress_find_many(&search, TEXT("x-ab-aab"), &start, ranges, 2, 1, &found) == REGRESS_OK);
  CHECK(found == 2 && start == 4 && ranges[0].end == 1 && ranges[1].start == 2);
  CHECK(regress_find_many(&search, TEXT("x-ab-aab"), &start, ranges, 2, 1, &found) == REGRESS_OK);
  CHECK(found == 1 && start == REGRESS_UNSET && ranges[0].start == 5 && ranges[0].end == 8);
  CHECK(regress_find_many(&search, TEXT("x-ab-aab"), &start, ranges, 2, 1, &found) == REGRESS_OK && found == 0);
  start = 0;
  CHECK(regress_find_many(&search, TEXT("x-ab-aab"), &start, ranges, 4, 3, &found) == REGRESS_OK && found == 1 && start == 1);
  CHECK(ranges[2].start == 0 && ranges[2].end == 1 && ranges[1].start == REGRESS_UNSET);
  CHECK(regress_find_many(&search, TEXT("x"), &start, ranges, 4, 0, &found) == REGRESS_NO_ROOM);
  CHECK(regress_find_many(&search, TEXT("x"), &start, ranges, 4, 5, &found) == REGRESS_NO_ROOM);
  CHECK(regress_find_many(&search, TEXT("x"), &start, NULL, 0, 1, &found) == REGRESS_NO_ROOM);
  CHECK(regress_find_many(&search, TEXT("x"), NULL, ranges, 4, 1, &found) == REGRESS_NULL);
  CHECK(regress_find_many(&search, TEXT("x"), &start, ranges, 4, 1, NULL) == REGRESS_NULL);
  CHECK(regress_find_many(&tables, TEXT("x"), &start, ranges, 4, 1, &found) == REGRESS_WRONG_HANDLE);
  CHECK(regress_find_many(&search, TEXT("\xC3\xA9x"), &start, ranges, 4, 1, &found) == REGRESS_BAD_START);
  CHECK(regress_find_many_utf16(&search, NULL, 0, &start, ranges, 4, 1, &found) == REGRESS_OK && found == 0);
}

/* The bound is each search's own: a match that needs more steps stops the call, and those before it are told. */
static void bounding(void) {
  regress_pattern list = {0};
  regress_search bounded = {0};
  regress_range ranges[2] = {{7, 7}, {7, 7}};
  size_t steps = 0, start = 0, found = 99;
  CHECK(regress_compile(TEXT("(?:(a)|b)*c"), "", &tables, &list, NULL) == REGRESS_OK);
  CHECK(regress_search_new(&list, &bounded) == REGRESS_OK);
  CHECK(regress_search_set_max_steps(&bounded, 0) == REGRESS_OK);
  while (regress_find(&bounded, TEXT("bc abababababababababc"), 0, ranges, 2) == REGRESS_TOO_MANY_STEPS && steps < 1000) {
    CHECK(is_untouched(ranges, 2));
    CHECK(regress_search_set_max_steps(&bounded, ++steps) == REGRESS_OK);
  }
  CHECK(steps > 0 && steps < 100 && ranges[0].start == 0 && ranges[0].end == 2);
  CHECK(regress_match_at(&bounded, TEXT("bc abababababababababc"), 3, ranges, 2) == REGRESS_TOO_MANY_STEPS);
  CHECK(regress_is_match(&bounded, TEXT("bc abababababababababc"), 1) == 1);
  CHECK(regress_is_match(&bounded, TEXT("bc abababababababababc"), 3) == REGRESS_TOO_MANY_STEPS);
  CHECK(regress_find_many(&bounded, TEXT("bc abababababababababc"), &start, ranges, 2, 1, &found) == REGRESS_TOO_MANY_STEPS);
  CHECK(found == 1 && start == 2 && ranges[0].end == 2);
  CHECK(regress_search_set_max_steps(&bounded, SIZE_MAX) == REGRESS_OK);
  CHECK(regress_find_many(&bounded, TEXT("bc abababababababababc"), &start, ranges, 2, 1, &found) == REGRESS_OK);
  CHECK(found == 1 && start == REGRESS_UNSET && ranges[0].start == 3 && ranges[0].end == 22);
  regress_free(&bounded);
  regress_free(&list);
}

/* A search of a linear pattern that has as many steps as are enough ends; one with half as many does not, and neither does one of a
 * pattern that isn't linear. */
static void bounding_linear(void) {
  static char letters[5000];
  static uint16_t in_units[5000];
  regress_pattern linear = {0}, other = {0};
  regress_search bounded = {0};
  regress_range ranges[2] = {{7, 7}, {7, 7}};
  size_t steps = 0;
  for (size_t k = 0; k < 5000; k++) in_units[k] = letters[k] = k % 2 == 0 ? 'a' : 'b';
  CHECK(regress_compile(TEXT("(a|ab)*c"), "", &tables, &linear, NULL) == REGRESS_OK);
  CHECK(regress_linear_steps(&linear, 5000, &steps) == REGRESS_OK);
  CHECK(regress_search_new(&linear, &bounded) == REGRESS_OK);
  CHECK(regress_search_set_max_steps(&bounded, steps) == REGRESS_OK);
  CHECK(regress_find(&bounded, letters, 5000, 0, ranges, 2) == 0 && is_untouched(ranges, 2));
  CHECK(regress_match_at(&bounded, letters, 5000, 0, ranges, 2) == 0);
  CHECK(regress_is_match(&bounded, letters, 4999, 1) == 0);
  CHECK(regress_is_match_utf16(&bounded, in_units, 5000, 0) == 0);
  letters[4999] = 'c';
  in_units[4999] = 'c';
  CHECK(regress_find(&bounded, letters, 5000, 0, ranges, 2) == 2 && ranges[0].start == 0 && ranges[0].end == 5000);
  CHECK(ranges[1].start == 4998 && ranges[1].end == 4999);
  CHECK(regress_find_ucs2(&bounded, in_units, 5000, 1, ranges, 2) == 2 && ranges[0].start == 2);
  letters[4999] = 'b';
  CHECK(regress_search_set_max_steps(&bounded, steps / 2) == REGRESS_OK);
  CHECK(regress_find(&bounded, letters, 5000, 0, ranges, 2) == REGRESS_TOO_MANY_STEPS);
  size_t fewest;
  CHECK(regress_compile(TEXT("(?:ab?)*c"), "", &tables, &other, NULL) == REGRESS_OK); /* which needs the table there */
  CHECK(regress_linear_steps(&other, 5000, &fewest) == REGRESS_OK && regress_search_new(&other, &bounded) == REGRESS_OK);
  CHECK(regress_search_set_max_steps(&bounded, fewest - 1) == REGRESS_OK);
  CHECK(regress_find(&bounded, letters, 5000, 0, ranges, 2) == REGRESS_TOO_MANY_STEPS);
  CHECK(regress_search_set_max_steps(&bounded, fewest) == REGRESS_OK);
  CHECK(regress_find(&bounded, letters, 5000, 0, ranges, 2) == 0);
  CHECK(regress_compile(TEXT("(?:ab?)*c"), "", &tables, &other, NULL) == REGRESS_OK); /* a search that was made before it is asked */
  CHECK(regress_search_new(&other, &bounded) == REGRESS_OK && regress_is_linear(&other) == 1);
  CHECK(regress_search_set_max_steps(&bounded, fewest) == REGRESS_OK);
  CHECK(regress_find(&bounded, letters, 5000, 0, ranges, 2) == REGRESS_TOO_MANY_STEPS);
  CHECK(regress_compile(TEXT("(?:(a)\\1|a|ab)*c"), "", &tables, &other, NULL) == REGRESS_OK);
  CHECK(regress_search_new(&other, &bounded) == REGRESS_OK);
  CHECK(regress_search_set_max_steps(&bounded, steps) == REGRESS_OK);
  CHECK(regress_find(&bounded, letters, 5000, 0, ranges, 2) == REGRESS_TOO_MANY_STEPS);
  regress_free(&bounded);
  regress_free(&linear);
  regress_free(&other);
}

static void empty_matches(void) {
  regress_pattern empty = {0};
  regress_search of_empty = {0};
  regress_range ranges[8];
  size_t start = 0, found = 0;
  CHECK(regress_compile(NULL, 0, "u", &tables, &empty, NULL) == REGRESS_OK);
  CHECK(regress_search_new(&empty, &of_empty) == REGRESS_OK);
  CHECK(regress_find_many(&of_empty, TEXT("\xF0\x9F\x98\x80x"), &start, ranges, 8, 1, &found) == REGRESS_OK);
  CHECK(found == 3 && ranges[0].start == 0 && ranges[1].start == 4 && ranges[2].start == 5 && start == REGRESS_UNSET);
  start = 0;
  CHECK(regress_find_many_utf16(&of_empty, units, 4, &start, ranges, 8, 1, &found) == REGRESS_OK);
  CHECK(found == 4 && ranges[1].start == 1 && ranges[2].start == 3 && ranges[3].start == 4);
  start = 0;
  CHECK(regress_find_many_ucs2(&of_empty, units, 4, &start, ranges, 8, 1, &found) == REGRESS_OK && found == 5);
  regress_free(&empty);
  regress_free(&of_empty);
}

int main(void) {
  handles();
  compiling();
  compiling_within();
  asking();
  asking_linear();
  replacing();
  searching();
  finding_many();
  bounding();
  bounding_linear();
  empty_matches();
  regress_free(&search);
  regress_free(&pattern);
  regress_free(&tables);
  return told();
}
