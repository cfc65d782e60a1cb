/* regress.h: regular expressions of ECMAScript (ECMA-262, 16th edition), by an engine that is proved.
 *
 *   #include <regress.h>
 *   #include <stdio.h>
 *   #include <string.h>
 *
 *   int main(void) {
 *     const char *source = "(?<year>\\d{4})-(\\d\\d)", *text = "on 2025-06-01";
 *     regress_tables tables = {0};
 *     regress_pattern pattern = {0};
 *     regress_search search = {0};
 *     regress_error error;
 *     regress_range ranges[3];
 *     regress_tables_unicode(&tables);
 *     if (regress_compile(source, strlen(source), "u", &tables, &pattern, &error) != REGRESS_OK)
 *       printf("%s at %zu\n", error.text, error.place);
 *     else if (regress_search_new(&pattern, &search) == REGRESS_OK &&
 *              regress_find(&search, text, strlen(text), 0, ranges, 3) > 0)
 *       printf("%.*s\n", (int)(ranges[1].end - ranges[1].start), text + ranges[1].start);
 *     regress_free(&search);
 *     regress_free(&pattern);
 *     regress_free(&tables);
 *   }
 *
 * It prints 2025. Build it by `cc example.c $(pkg-config --cflags --libs regress)`. The library needs nothing but the C library.
 *
 * HANDLES. Tables, a pattern and a search are each a handle: a struct of one pointer, which holds nothing where it is {0}. Make
 * a handle with {0}, hand on its address, and never copy, compare or write what is in it. A call that makes something puts it
 * into a handle, and frees what the handle held before; where the call fails, the handle keeps what it held. Each handle is freed
 * once it is done with, in any order: what a pattern needs of its tables it shares, and so does a search of its pattern.
 *
 * ERRORS. Calls answer an int32_t: below zero it is an error, by a name of enum regress_code. Whatever a caller can get wrong in
 * the arguments is such an error: a null pointer, a handle that is empty or of another kind, a text that is not UTF-8, a start
 * inside of a character. An error changes nothing, unless the call says otherwise.
 *
 * TEXTS are a pointer and a length, and may hold null bytes. A null pointer with the length 0 is an empty text. Five kinds of text
 * are searched, by the ending of a call's name:
 *
 *   (none)    UTF-8, which is checked first, in a time that grows with the text; offsets are in bytes.
 *   _valid    UTF-8 that the caller vouches for; offsets are in bytes. A start is still checked.
 *   _ascii    ASCII, all bytes below 80 (hexadecimal), which the caller vouches for; offsets are in bytes.
 *   _utf16    16-bit units, of which a high one before a low one is one character, and any other one alone; offsets are in units.
 *   _ucs2     16-bit units that are one character each, as a script's regular expressions without `u` and `v` take them.
 *
 * A start past the end of a text is no error, and nothing is found there.
 *
 * WHAT A CALLER KEEPS. The proofs hold for callers that keep this, which no library can check:
 *   - a pointer points to as many bytes, units, ranges or numbers as the length or count behind it says, or to one value;
 *   - memory that a call writes to is no other argument's memory, and nothing writes to what a call reads while it runs;
 *   - a handle was {0} or filled by these calls, was not copied, and is in one call at a time;
 *   - a text is UTF-8 where a `_valid` call is given it, and ASCII where an `_ascii` call is;
 *   - no call is made from a signal handler, or in the forked child of a process with threads;
 *   - malloc, realloc and free are of one allocator.
 * What of this a call rests on stands at the call again. That no other call has a handle is said of the time in which the call runs.
 *
 * THREADS. A handle may go from thread to thread, and is in one call at a time. To search with one compiled pattern in many
 * threads, give each a handle of its own by regress_share, and a search of that. Nothing is compiled again or copied.
 */
#ifndef REGRESS_H
#define REGRESS_H

#include <stddef.h>
#include <stdint.h>
#include <string.h>

#ifdef __cplusplus
extern "C" {
#endif

/* The version of this header, and of the library that it was made for. */
#define REGRESS_VERSION "0.1.0"
#define REGRESS_VERSION_MAJOR 0
#define REGRESS_VERSION_MINOR 1
#define REGRESS_VERSION_PATCH 0

/* Both ends of the range of a group that took no part in a match. */
#define REGRESS_UNSET SIZE_MAX

/* How many instructions a program of a pattern may have, where a call takes no limit. */
#define REGRESS_DEFAULT_LIMIT 1000000

/* What calls answer. */
enum regress_code {
  /* All is well. Of a call that searches: nothing was found. */
  REGRESS_OK = 0,
  /* A request for memory was refused. */
  REGRESS_OUT_OF_MEMORY = -1,
  /* A handle is empty, or holds something of another kind. */
  REGRESS_WRONG_HANDLE = -2,
  /* A pointer is null. */
  REGRESS_NULL = -3,
  /* A text is not UTF-8. */
  REGRESS_NOT_UTF8 = -4,
  /* A start lies inside of a character. */
  REGRESS_BAD_START = -5,
  /* The caller's buffer is too short, or no range is asked for. */
  REGRESS_NO_ROOM = -6,
  /* The text is no pattern; the error has a text and a place. */
  REGRESS_SYNTAX = -7,
  /* More than 256 `(` and `[` of the pattern are open at once. */
  REGRESS_TOO_DEEP = -8,
  /* The pattern has more than 65535 capturing groups. */
  REGRESS_TOO_MANY_GROUPS = -9,
  /* The pattern has more than 65535 quantifiers. */
  REGRESS_TOO_MANY_LOOPS = -10,
  /* The pattern's program has more instructions than can be counted. */
  REGRESS_TOO_LARGE = -11,
  /* No flag has the letter that the error's place tells. */
  REGRESS_UNKNOWN_FLAG = -12,
  /* A flag stands a second time; the error's place tells it. */
  REGRESS_REPEATED_FLAG = -13,
  /* The flags `u` and `v` are both there. */
  REGRESS_BOTH_UNICODE_FLAGS = -14,
  /* The pattern has no group of that number. */
  REGRESS_NO_GROUP = -15,
  /* Unicode's data breaks a law of tables. No data that the library has does. */
  REGRESS_BROKEN_TABLES = -16,
  /* Two handles of one call are the same. */
  REGRESS_SAME_HANDLE = -17,
  /* A program of the pattern may have more instructions than the limit allows. */
  REGRESS_PAST_LIMIT = -18,
  /* A search for a match would take more steps than regress_search_set_max_steps allows it. */
  REGRESS_TOO_MANY_STEPS = -19
};

/* A handle: {0}, or what a call put there. */
typedef struct regress_handle {
  void *held;
} regress_handle;

/* Case and properties of characters, which patterns are compiled by. */
typedef regress_handle regress_tables;

/* A compiled pattern. */
typedef regress_handle regress_pattern;

/* A pattern with the memory that its searches need, which is kept from one search to the next. */
typedef regress_handle regress_search;

/* The range of a match or of a group, in bytes or units of the text: [start, end). */
typedef struct regress_range {
  size_t start;
  size_t end;
} regress_range;

/* Why a pattern is not compiled. */
typedef struct regress_error {
  /* One of enum regress_code; REGRESS_OK where it was compiled. */
  int32_t code;
  /* Where reading stopped, for REGRESS_SYNTAX, in bytes or units of the pattern that was given. Where the letter stands in the
   * flags, for an error of a flag. Else 0. */
  size_t place;
  /* What is wrong, in ASCII, with a null byte behind it. */
  char text[64];
} regress_error;

/* ---------------------------------------------------------------------------------------------------------------------------
 * What the library exports, as programs in other languages bind it. No pointer may be null here, and two handles of one call are
 * different ones. In C, call the functions below, which see to that and do nothing else.
 * ------------------------------------------------------------------------------------------------------------------------- */

void regress_raw_free(regress_handle *handle);
int32_t regress_raw_share(regress_handle *handle, regress_handle *out);
int32_t regress_raw_tables_small(regress_tables *out);
int32_t regress_raw_tables_unicode(regress_tables *out);
int32_t regress_raw_compile(const uint8_t *pattern, size_t length, const uint8_t *flags, size_t flags_length, regress_tables *tables,
                            regress_pattern *out, regress_error *error);
int32_t regress_raw_compile_units(const uint16_t *pattern, size_t length, const uint8_t *flags, size_t flags_length,
                                  regress_tables *tables, regress_pattern *out, regress_error *error);
int32_t regress_raw_compile_whole(const uint8_t *pattern, size_t length, const uint8_t *flags, size_t flags_length,
                                  regress_tables *tables, regress_pattern *out, regress_error *error);
int32_t regress_raw_compile_within(const uint8_t *pattern, size_t length, const uint8_t *flags, size_t flags_length, size_t limit,
                                   regress_tables *tables, regress_pattern *out, regress_error *error);
int32_t regress_raw_compile_units_within(const uint16_t *pattern, size_t length, const uint8_t *flags, size_t flags_length,
                                         size_t limit, regress_tables *tables, regress_pattern *out, regress_error *error);
int32_t regress_raw_compile_whole_within(const uint8_t *pattern, size_t length, const uint8_t *flags, size_t flags_length,
                                         size_t limit, regress_tables *tables, regress_pattern *out, regress_error *error);
int32_t regress_raw_pattern_text(regress_pattern *pattern, uint8_t *buffer, size_t room, size_t *written);
int32_t regress_raw_is_linear(regress_pattern *pattern);
int32_t regress_raw_linear_steps(regress_pattern *pattern, size_t length, size_t *steps);
int32_t regress_raw_group_count(regress_pattern *pattern);
int32_t regress_raw_group_name(regress_pattern *pattern, size_t number, uint8_t *buffer, size_t room, size_t *written);
int32_t regress_raw_group_numbers(regress_pattern *pattern, const uint8_t *name, size_t length, size_t *numbers, size_t room);
int32_t regress_raw_replace(regress_pattern *pattern, const uint8_t *text, size_t length, const uint8_t *replacement,
                            size_t replacement_length, uint8_t *buffer, size_t room, size_t *written);
int32_t regress_raw_replace_all(regress_pattern *pattern, const uint8_t *text, size_t length, const uint8_t *replacement,
                                size_t replacement_length, uint8_t *buffer, size_t room, size_t *written);
int32_t regress_raw_escape(const uint8_t *text, size_t length, uint8_t *buffer, size_t room, size_t *written);
int32_t regress_raw_error_text(int32_t code, uint8_t *buffer, size_t room, size_t *written);
int32_t regress_raw_search_new(regress_pattern *pattern, regress_search *out);
int32_t regress_raw_search_set_max_steps(regress_search *search, size_t steps);

int32_t regress_raw_find(regress_search *search, const uint8_t *text, size_t length, size_t start, regress_range *ranges,
                         size_t count);
int32_t regress_raw_find_valid(regress_search *search, const uint8_t *text, size_t length, size_t start, regress_range *ranges,
                               size_t count);
int32_t regress_raw_find_ascii(regress_search *search, const uint8_t *text, size_t length, size_t start, regress_range *ranges,
                               size_t count);
int32_t regress_raw_find_utf16(regress_search *search, const uint16_t *text, size_t length, size_t start, regress_range *ranges,
                               size_t count);
int32_t regress_raw_find_ucs2(regress_search *search, const uint16_t *text, size_t length, size_t start, regress_range *ranges,
                              size_t count);
int32_t regress_raw_match_at(regress_search *search, const uint8_t *text, size_t length, size_t start, regress_range *ranges,
                             size_t count);
int32_t regress_raw_match_at_valid(regress_search *search, const uint8_t *text, size_t length, size_t start,
                                   regress_range *ranges, size_t count);
int32_t regress_raw_match_at_ascii(regress_search *search, const uint8_t *text, size_t length, size_t start,
                                   regress_range *ranges, size_t count);
int32_t regress_raw_match_at_utf16(regress_search *search, const uint16_t *text, size_t length, size_t start,
                                   regress_range *ranges, size_t count);
int32_t regress_raw_match_at_ucs2(regress_search *search, const uint16_t *text, size_t length, size_t start,
                                  regress_range *ranges, size_t count);
int32_t regress_raw_is_match(regress_search *search, const uint8_t *text, size_t length, size_t start);
int32_t regress_raw_is_match_valid(regress_search *search, const uint8_t *text, size_t length, size_t start);
int32_t regress_raw_is_match_ascii(regress_search *search, const uint8_t *text, size_t length, size_t start);
int32_t regress_raw_is_match_utf16(regress_search *search, const uint16_t *text, size_t length, size_t start);
int32_t regress_raw_is_match_ucs2(regress_search *search, const uint16_t *text, size_t length, size_t start);
int32_t regress_raw_find_many(regress_search *search, const uint8_t *text, size_t length, size_t *start, regress_range *ranges,
                              size_t count, size_t width, size_t *found);
int32_t regress_raw_find_many_valid(regress_search *search, const uint8_t *text, size_t length, size_t *start,
                                    regress_range *ranges, size_t count, size_t width, size_t *found);
int32_t regress_raw_find_many_ascii(regress_search *search, const uint8_t *text, size_t length, size_t *start,
                                    regress_range *ranges, size_t count, size_t width, size_t *found);
int32_t regress_raw_find_many_utf16(regress_search *search, const uint16_t *text, size_t length, size_t *start,
                                    regress_range *ranges, size_t count, size_t width, size_t *found);
int32_t regress_raw_find_many_ucs2(regress_search *search, const uint16_t *text, size_t length, size_t *start,
                                   regress_range *ranges, size_t count, size_t width, size_t *found);

/* A text as the library takes it: an empty one is never null. What is null still is a missing argument. */
static inline const uint8_t *regress_bytes_given(const char *text, size_t length) {
  return (const uint8_t *)(text == NULL && length == 0 ? "" : text);
}

/* The same of 16-bit units. */
static inline const uint16_t *regress_units_given(const uint16_t *text, size_t length) {
  static const uint16_t empty[1] = {0};
  return text == NULL && length == 0 ? empty : text;
}

/* The same of room for ranges: `none` stands for room for none. */
static inline regress_range *regress_ranges_given(regress_range *ranges, size_t count, regress_range *none) {
  return ranges == NULL && count == 0 ? none : ranges;
}

/* The same of a buffer. */
static inline uint8_t *regress_buffer_given(char *buffer, size_t room, char *none) {
  return (uint8_t *)(buffer == NULL && room == 0 ? none : buffer);
}

/* ---------------------------------------------------------------------------------------------------------------------------
 * Handles
 * ------------------------------------------------------------------------------------------------------------------------- */

/* Frees what a handle holds, and leaves the handle empty. An empty handle and a null pointer are left as they are. The caller keeps:
 * no other call has the handle. */
static inline void regress_free(regress_handle *handle) {
  if (handle != NULL) regress_raw_free(handle);
}

/* Puts the same pattern, or the same tables, into `out` for one more owner, as for another thread. Nothing is copied. A search is
 * not shared: make one of each pattern. The caller keeps: no other call has either handle. */
static inline int32_t regress_share(regress_handle *handle, regress_handle *out) {
  if (handle == NULL || out == NULL) return REGRESS_NULL;
  if (handle == out) return REGRESS_SAME_HANDLE;
  return regress_raw_share(handle, out);
}

/* ---------------------------------------------------------------------------------------------------------------------------
 * Tables
 * ------------------------------------------------------------------------------------------------------------------------- */

/* Puts small tables into `out`, which know the case and the names of ASCII and of a few letters beyond it, and take little memory
 * and time. The caller keeps: no other call has the handle. */
static inline int32_t regress_tables_small(regress_tables *out) {
  return out == NULL ? REGRESS_NULL : regress_raw_tables_small(out);
}

/* Puts the tables of all of Unicode into `out`. This takes some milliseconds and some megabytes: do it once, for all patterns. The
 * caller keeps: no other call has the handle. */
static inline int32_t regress_tables_unicode(regress_tables *out) {
  return out == NULL ? REGRESS_NULL : regress_raw_tables_unicode(out);
}

/* ---------------------------------------------------------------------------------------------------------------------------
 * Patterns
 * ------------------------------------------------------------------------------------------------------------------------- */

/* Compiles a pattern that is given in UTF-8, and puts it into `out` ("RegExpInitialize").
 *
 * `flags` is a text of ECMAScript's letters that ends with a null byte, as "iu"; a null pointer is "". Of these, `d`, `g` and `y`
 * are taken and change nothing: which call is made says where a match may begin, and what is told of it. What is refused is told
 * in `error`, which may be null.
 *
 * A pattern is REGRESS_PAST_LIMIT where a program of it may have more than REGRESS_DEFAULT_LIMIT instructions; a call that ends in
 * _within takes another limit.
 *
 * The caller keeps: `pattern` points to `length` bytes, `flags` ends with a null byte, and no other call has either handle. */
static inline int32_t regress_compile(const char *pattern, size_t length, const char *flags, regress_tables *tables,
                                      regress_pattern *out, regress_error *error) {
  regress_error unread;
  const uint8_t *text = regress_bytes_given(pattern, length);
  const char *letters = flags == NULL ? "" : flags;
  if (text == NULL || tables == NULL || out == NULL) return REGRESS_NULL;
  if (tables == out) return REGRESS_SAME_HANDLE;
  return regress_raw_compile(text, length, (const uint8_t *)letters, strlen(letters), tables, out, error == NULL ? &unread : error);
}

/* The same of a pattern that is given in 16-bit units, as script interpreters have it. With `u` or `v` a high unit before a low
 * one is one character. Else each unit is one, except in the name of a group. So regress_find_utf16 finds what the standard finds
 * with those flags, and regress_find_ucs2 what it finds without. The caller keeps: `pattern` points to `length` units. */
static inline int32_t regress_compile_units(const uint16_t *pattern, size_t length, const char *flags, regress_tables *tables,
                                            regress_pattern *out, regress_error *error) {
  regress_error unread;
  const uint16_t *text = regress_units_given(pattern, length);
  const char *letters = flags == NULL ? "" : flags;
  if (text == NULL || tables == NULL || out == NULL) return REGRESS_NULL;
  if (tables == out) return REGRESS_SAME_HANDLE;
  return regress_raw_compile_units(text, length, (const uint8_t *)letters, strlen(letters), tables, out,
                                   error == NULL ? &unread : error);
}

/* The same of a pattern in UTF-8 that is to match a whole text, from its beginning to its end, also with the flag `m`. It matches
 * where some way to match ends at the text's end, if not the preferred one: `a|ab` matches `ab`. A validator asks so. */
static inline int32_t regress_compile_whole(const char *pattern, size_t length, const char *flags, regress_tables *tables,
                                            regress_pattern *out, regress_error *error) {
  regress_error unread;
  const uint8_t *text = regress_bytes_given(pattern, length);
  const char *letters = flags == NULL ? "" : flags;
  if (text == NULL || tables == NULL || out == NULL) return REGRESS_NULL;
  if (tables == out) return REGRESS_SAME_HANDLE;
  return regress_raw_compile_whole(text, length, (const uint8_t *)letters, strlen(letters), tables, out,
                                   error == NULL ? &unread : error);
}

/* Compiles as regress_compile does, within a limit on how many instructions a program of the pattern may have. There are two
 * programs, one for texts in bytes and one for texts in units, and neither has more. A short pattern may stand for a large program:
 * `\\k<n>` may name many groups, a repetition resets the groups in it, and a small body that is repeated is copied.
 *
 * The pattern is REGRESS_PAST_LIMIT exactly where it may have more: two instructions for each node of what it costs. That is told
 * before anything of that size is made. A service that takes patterns of strangers sets it; SIZE_MAX is no limit. */
static inline int32_t regress_compile_within(const char *pattern, size_t length, const char *flags, size_t limit,
                                             regress_tables *tables, regress_pattern *out, regress_error *error) {
  regress_error unread;
  const uint8_t *text = regress_bytes_given(pattern, length);
  const char *letters = flags == NULL ? "" : flags;
  if (text == NULL || tables == NULL || out == NULL) return REGRESS_NULL;
  if (tables == out) return REGRESS_SAME_HANDLE;
  return regress_raw_compile_within(text, length, (const uint8_t *)letters, strlen(letters), limit, tables, out,
                                    error == NULL ? &unread : error);
}

/* Compiles as regress_compile_units does, within such a limit. */
static inline int32_t regress_compile_units_within(const uint16_t *pattern, size_t length, const char *flags, size_t limit,
                                                   regress_tables *tables, regress_pattern *out, regress_error *error) {
  regress_error unread;
  const uint16_t *text = regress_units_given(pattern, length);
  const char *letters = flags == NULL ? "" : flags;
  if (text == NULL || tables == NULL || out == NULL) return REGRESS_NULL;
  if (tables == out) return REGRESS_SAME_HANDLE;
  return regress_raw_compile_units_within(text, length, (const uint8_t *)letters, strlen(letters), limit, tables, out,
                                          error == NULL ? &unread : error);
}

/* Compiles as regress_compile_whole does, within such a limit on the programs of the whole. */
static inline int32_t regress_compile_whole_within(const char *pattern, size_t length, const char *flags, size_t limit,
                                                   regress_tables *tables, regress_pattern *out, regress_error *error) {
  regress_error unread;
  const uint8_t *text = regress_bytes_given(pattern, length);
  const char *letters = flags == NULL ? "" : flags;
  if (text == NULL || tables == NULL || out == NULL) return REGRESS_NULL;
  if (tables == out) return REGRESS_SAME_HANDLE;
  return regress_raw_compile_whole_within(text, length, (const uint8_t *)letters, strlen(letters), limit, tables, out,
                                          error == NULL ? &unread : error);
}

/* Copies the text of an error's code to `buffer`, as `out of memory`. It goes as regress_pattern_text does. The caller keeps: `buffer`
 * has room for `room` bytes. */
static inline int32_t regress_error_text(int32_t code, char *buffer, size_t room, size_t *written) {
  char none;
  uint8_t *to = regress_buffer_given(buffer, room, &none);
  return to == NULL || written == NULL ? REGRESS_NULL : regress_raw_error_text(code, to, room, written);
}

/* Copies the pattern's text to `buffer`, which has room for `room` bytes, in UTF-8. Of a pattern that was given in units, U+FFFD
 * stands for each surrogate.
 *
 * `written` tells how many bytes it has. Where there is room for one more, a null byte stands behind them. Where there is less
 * room than the text takes, the buffer is left as it was, the answer is REGRESS_NO_ROOM, and `written` tells what is needed: so a
 * null pointer with no room asks for the length. All calls that copy a text go so.
 *
 * The caller keeps: `buffer` has room for `room` bytes, none of which an argument lies in, and no other call has the handle. */
static inline int32_t regress_pattern_text(regress_pattern *pattern, char *buffer, size_t room, size_t *written) {
  char none;
  uint8_t *to = regress_buffer_given(buffer, room, &none);
  return pattern == NULL || to == NULL || written == NULL ? REGRESS_NULL : regress_raw_pattern_text(pattern, to, room, written);
}

/* Works out whether the pattern is linear: answers 1 where it is, and else 0. A search of such a pattern that is made from now on, and to
 * which regress_search_set_max_steps gives as many steps as regress_linear_steps tells, has enough of them, whatever the text is. A
 * search without a bound goes no other way for it, and neither does one that was made before. The pattern keeps what is learned, and
 * regress_share hands it on. What isn't linear is worked out anew at each call, in less time than compiling takes.
 *
 * A pattern is linear that has no back reference; whose repetitions have no greatest number, or 1, and a least number of 0 or 1, or are
 * of one character and have numbers up to 256; in which nothing that may be empty is repeated; and whose lookarounds are negated, or have
 * no groups or no quantifiers inside, or are visited at most once: inside of nothing that is repeated, in a pattern that begins with a `^`
 * without `m`. Where more than a character is repeated in such a one, it holds no other lookaround with groups. Its program has at most
 * 65,536 instructions. Where memory is refused the answer is REGRESS_OUT_OF_MEMORY, or 0. The caller keeps: no other call has the handle. */
static inline int32_t regress_is_linear(regress_pattern *pattern) {
  return pattern == NULL ? REGRESS_NULL : regress_raw_is_linear(pattern);
}

/* Writes to `steps` how many steps are enough for each search in a text of `length` bytes or units, or of fewer: a search of the pattern
 * that is made from now on, and to which regress_search_set_max_steps gives so many or more, never ends in REGRESS_TOO_MANY_STEPS there.
 * Once it has taken them it goes on by a table of the text, of a bit for each instruction of the program at each offset. It learns as
 * regress_is_linear does.
 *
 * It writes SIZE_MAX where the pattern isn't known to be linear, and where the table of such a text would take more than 64 MB, or more than
 * 8,388,608 offsets would be kept while it is made, one for each instruction inside of an atomic group at each offset. That is no number of
 * steps: it would take the bound away. The caller keeps: `steps` points to a number that lies in no other argument, and no other call has
 * the handle. */
static inline int32_t regress_linear_steps(regress_pattern *pattern, size_t length, size_t *steps) {
  return pattern == NULL || steps == NULL ? REGRESS_NULL : regress_raw_linear_steps(pattern, length, steps);
}

/* Answers how many capturing groups the pattern has. A match has one range more, that of the whole match. The caller keeps: no other
 * call has the handle. */
static inline int32_t regress_group_count(regress_pattern *pattern) {
  return pattern == NULL ? REGRESS_NULL : regress_raw_group_count(pattern);
}

/* Copies the name of a capturing group by its number, of which 1 is the first, to `buffer`, as regress_pattern_text does. A group
 * without a name has an empty one. The caller keeps what it keeps there. */
static inline int32_t regress_group_name(regress_pattern *pattern, size_t number, char *buffer, size_t room, size_t *written) {
  char none;
  uint8_t *to = regress_buffer_given(buffer, room, &none);
  if (pattern == NULL || to == NULL || written == NULL) return REGRESS_NULL;
  return regress_raw_group_name(pattern, number, to, room, written);
}

/* Writes the numbers of the groups that have a name to `numbers`, in order, as many as there is room for. Answers how many groups
 * have it, which are several where a name stands in several alternatives, and none for the empty name. The caller keeps: `name`
 * points to `length` bytes, `numbers` has room for `room` numbers, and no other call has the handle. */
static inline int32_t regress_group_numbers(regress_pattern *pattern, const char *name, size_t length, size_t *numbers, size_t room) {
  size_t none;
  const uint8_t *text = regress_bytes_given(name, length);
  size_t *to = numbers == NULL && room == 0 ? &none : numbers;
  if (pattern == NULL || text == NULL || to == NULL) return REGRESS_NULL;
  return regress_raw_group_numbers(pattern, text, length, to, room);
}

/* Copies a text in UTF-8 to `buffer`, with its first match replaced by a template of the standard, in UTF-8 ("GetSubstitution"):
 * `$1` stands for the text of the first group, `$<name>` for that of a named one, `$&` for the match, `` $` `` and `$'` for what is
 * before and behind it, and `$$` for `$`. It goes as regress_pattern_text does.
 *
 * The caller keeps what it keeps there; and `text` and `replacement` point to as many bytes as the length behind each says. */
static inline int32_t regress_replace(regress_pattern *pattern, const char *text, size_t length, const char *replacement,
                                      size_t replacement_length, char *buffer, size_t room, size_t *written) {
  char none;
  const uint8_t *bytes = regress_bytes_given(text, length);
  const uint8_t *with = regress_bytes_given(replacement, replacement_length);
  uint8_t *to = regress_buffer_given(buffer, room, &none);
  if (pattern == NULL || bytes == NULL || with == NULL || to == NULL || written == NULL) return REGRESS_NULL;
  return regress_raw_replace(pattern, bytes, length, with, replacement_length, to, room, written);
}

/* The same with each match replaced. */
static inline int32_t regress_replace_all(regress_pattern *pattern, const char *text, size_t length, const char *replacement,
                                          size_t replacement_length, char *buffer, size_t room, size_t *written) {
  char none;
  const uint8_t *bytes = regress_bytes_given(text, length);
  const uint8_t *with = regress_bytes_given(replacement, replacement_length);
  uint8_t *to = regress_buffer_given(buffer, room, &none);
  if (pattern == NULL || bytes == NULL || with == NULL || to == NULL || written == NULL) return REGRESS_NULL;
  return regress_raw_replace_all(pattern, bytes, length, with, replacement_length, to, room, written);
}

/* Copies a pattern to `buffer` that matches just a text in UTF-8 as it is written, whatever the flags; with `i` also in other case. It
 * goes as regress_pattern_text does. The caller keeps: `text` points to `length` bytes, and `buffer` has room for `room` bytes, none of
 * which `text` lies in. */
static inline int32_t regress_escape(const char *text, size_t length, char *buffer, size_t room, size_t *written) {
  char none;
  const uint8_t *bytes = regress_bytes_given(text, length);
  uint8_t *to = regress_buffer_given(buffer, room, &none);
  if (bytes == NULL || to == NULL || written == NULL) return REGRESS_NULL;
  return regress_raw_escape(bytes, length, to, room, written);
}

/* ---------------------------------------------------------------------------------------------------------------------------
 * Searches
 * ------------------------------------------------------------------------------------------------------------------------- */

/* Puts a search of a pattern into `out`. It keeps its memory from one call to the next, so that once it has searched, searches
 * like that one request none, but where they go back so often that they remember what fails. It needs the handle of the pattern
 * no more. The caller keeps: no other call has either handle. */
static inline int32_t regress_search_new(regress_pattern *pattern, regress_search *out) {
  if (pattern == NULL || out == NULL) return REGRESS_NULL;
  if (pattern == out) return REGRESS_SAME_HANDLE;
  return regress_raw_search_new(pattern, out);
}

/* Bounds how many steps each search for a match may take by `search` from now on. A service sets it for patterns and texts of
 * strangers, since a short pattern may take very long in a short text. SIZE_MAX takes the bound away; at first there is none.
 *
 * With a bound each call answers what it answers without, or REGRESS_TOO_MANY_STEPS where a search would take more steps; of that
 * search no range is written. Each search for a match has the steps anew. regress_find, regress_match_at, regress_is_match and their
 * kin search for one match. regress_find_many and its kin search for one match after another, the last search may find none, and each
 * may take as many steps: so a call with room for n matches takes at most n times as many.
 *
 * A step does the instruction of one state of the pattern's program, or drops the state. One more is counted for each 64 bytes or
 * units that a class passes over or that a back reference compares. Looking for the next place where a match may begin is not counted.
 * No clock plays a part: in one version of the library the same search stops at the same step everywhere.
 *
 * Where regress_is_linear answered 1 before the search was made, a search with as many steps as regress_linear_steps tells, or more, never
 * ends in REGRESS_TOO_MANY_STEPS.
 *
 * The bound is the handle's alone: another search of the same pattern has its own, and calls that take a pattern have none. The
 * caller keeps: no other call has the search. */
static inline int32_t regress_search_set_max_steps(regress_search *search, size_t steps) {
  return search == NULL ? REGRESS_NULL : regress_raw_search_set_max_steps(search, steps);
}

/* Finds the first match from `start` on ("RegExpBuiltinExec").
 *
 * Answers how many ranges the match has: 1 for the whole match, and 1 for each capturing group; or 0 where there is none. Writes
 * the range of the whole match to ranges[0], that of group 1 to ranges[1], and so on, as many as `count` has room for. Where a
 * group took no part, and past the last group, both ends are REGRESS_UNSET. Where there is no match, nothing is written.
 *
 * The caller keeps: `text` points to `length` bytes, `ranges` has room for `count` ranges, and no other call has the search. */
static inline int32_t regress_find(regress_search *search, const char *text, size_t length, size_t start, regress_range *ranges,
                                   size_t count) {
  regress_range none;
  const uint8_t *bytes = regress_bytes_given(text, length);
  regress_range *to = regress_ranges_given(ranges, count, &none);
  if (search == NULL || bytes == NULL || to == NULL) return REGRESS_NULL;
  return regress_raw_find(search, bytes, length, start, to, count);
}

/* The same in UTF-8 that the caller vouches for. */
static inline int32_t regress_find_valid(regress_search *search, const char *text, size_t length, size_t start,
                                         regress_range *ranges, size_t count) {
  regress_range none;
  const uint8_t *bytes = regress_bytes_given(text, length);
  regress_range *to = regress_ranges_given(ranges, count, &none);
  if (search == NULL || bytes == NULL || to == NULL) return REGRESS_NULL;
  return regress_raw_find_valid(search, bytes, length, start, to, count);
}

/* The same in ASCII that the caller vouches for. */
static inline int32_t regress_find_ascii(regress_search *search, const char *text, size_t length, size_t start,
                                         regress_range *ranges, size_t count) {
  regress_range none;
  const uint8_t *bytes = regress_bytes_given(text, length);
  regress_range *to = regress_ranges_given(ranges, count, &none);
  if (search == NULL || bytes == NULL || to == NULL) return REGRESS_NULL;
  return regress_raw_find_ascii(search, bytes, length, start, to, count);
}

/* The same in units of UTF-16: `text` points to `length` units. */
static inline int32_t regress_find_utf16(regress_search *search, const uint16_t *text, size_t length, size_t start,
                                         regress_range *ranges, size_t count) {
  regress_range none;
  const uint16_t *units = regress_units_given(text, length);
  regress_range *to = regress_ranges_given(ranges, count, &none);
  if (search == NULL || units == NULL || to == NULL) return REGRESS_NULL;
  return regress_raw_find_utf16(search, units, length, start, to, count);
}

/* The same in 16-bit units that are one character each: `text` points to `length` units. */
static inline int32_t regress_find_ucs2(regress_search *search, const uint16_t *text, size_t length, size_t start,
                                        regress_range *ranges, size_t count) {
  regress_range none;
  const uint16_t *units = regress_units_given(text, length);
  regress_range *to = regress_ranges_given(ranges, count, &none);
  if (search == NULL || units == NULL || to == NULL) return REGRESS_NULL;
  return regress_raw_find_ucs2(search, units, length, start, to, count);
}

/* Finds the match that begins at `start`, whatever lies behind ("RegExpBuiltinExec" with `y`). Answers and writes as regress_find
 * does, and the caller keeps what it keeps there. A tokeniser asks so. */
static inline int32_t regress_match_at(regress_search *search, const char *text, size_t length, size_t start,
                                       regress_range *ranges, size_t count) {
  regress_range none;
  const uint8_t *bytes = regress_bytes_given(text, length);
  regress_range *to = regress_ranges_given(ranges, count, &none);
  if (search == NULL || bytes == NULL || to == NULL) return REGRESS_NULL;
  return regress_raw_match_at(search, bytes, length, start, to, count);
}

/* The same in UTF-8 that the caller vouches for. */
static inline int32_t regress_match_at_valid(regress_search *search, const char *text, size_t length, size_t start,
                                             regress_range *ranges, size_t count) {
  regress_range none;
  const uint8_t *bytes = regress_bytes_given(text, length);
  regress_range *to = regress_ranges_given(ranges, count, &none);
  if (search == NULL || bytes == NULL || to == NULL) return REGRESS_NULL;
  return regress_raw_match_at_valid(search, bytes, length, start, to, count);
}

/* The same in ASCII that the caller vouches for. */
static inline int32_t regress_match_at_ascii(regress_search *search, const char *text, size_t length, size_t start,
                                             regress_range *ranges, size_t count) {
  regress_range none;
  const uint8_t *bytes = regress_bytes_given(text, length);
  regress_range *to = regress_ranges_given(ranges, count, &none);
  if (search == NULL || bytes == NULL || to == NULL) return REGRESS_NULL;
  return regress_raw_match_at_ascii(search, bytes, length, start, to, count);
}

/* The same in units of UTF-16: `text` points to `length` units. */
static inline int32_t regress_match_at_utf16(regress_search *search, const uint16_t *text, size_t length, size_t start,
                                             regress_range *ranges, size_t count) {
  regress_range none;
  const uint16_t *units = regress_units_given(text, length);
  regress_range *to = regress_ranges_given(ranges, count, &none);
  if (search == NULL || units == NULL || to == NULL) return REGRESS_NULL;
  return regress_raw_match_at_utf16(search, units, length, start, to, count);
}

/* The same in 16-bit units that are one character each: `text` points to `length` units. */
static inline int32_t regress_match_at_ucs2(regress_search *search, const uint16_t *text, size_t length, size_t start,
                                            regress_range *ranges, size_t count) {
  regress_range none;
  const uint16_t *units = regress_units_given(text, length);
  regress_range *to = regress_ranges_given(ranges, count, &none);
  if (search == NULL || units == NULL || to == NULL) return REGRESS_NULL;
  return regress_raw_match_at_ucs2(search, units, length, start, to, count);
}

/* Answers 1 where there is a match from `start` on, and 0 where there is none ("RegExp.prototype.test"). The caller keeps: `text`
 * points to `length` bytes, and no other call has the search. */
static inline int32_t regress_is_match(regress_search *search, const char *text, size_t length, size_t start) {
  const uint8_t *bytes = regress_bytes_given(text, length);
  return search == NULL || bytes == NULL ? REGRESS_NULL : regress_raw_is_match(search, bytes, length, start);
}

/* The same in UTF-8 that the caller vouches for. */
static inline int32_t regress_is_match_valid(regress_search *search, const char *text, size_t length, size_t start) {
  const uint8_t *bytes = regress_bytes_given(text, length);
  return search == NULL || bytes == NULL ? REGRESS_NULL : regress_raw_is_match_valid(search, bytes, length, start);
}

/* The same in ASCII that the caller vouches for. */
static inline int32_t regress_is_match_ascii(regress_search *search, const char *text, size_t length, size_t start) {
  const uint8_t *bytes = regress_bytes_given(text, length);
  return search == NULL || bytes == NULL ? REGRESS_NULL : regress_raw_is_match_ascii(search, bytes, length, start);
}

/* The same in units of UTF-16: `text` points to `length` units. */
static inline int32_t regress_is_match_utf16(regress_search *search, const uint16_t *text, size_t length, size_t start) {
  const uint16_t *units = regress_units_given(text, length);
  return search == NULL || units == NULL ? REGRESS_NULL : regress_raw_is_match_utf16(search, units, length, start);
}

/* The same in 16-bit units that are one character each: `text` points to `length` units. */
static inline int32_t regress_is_match_ucs2(regress_search *search, const uint16_t *text, size_t length, size_t start) {
  const uint16_t *units = regress_units_given(text, length);
  return search == NULL || units == NULL ? REGRESS_NULL : regress_raw_is_match_ucs2(search, units, length, start);
}

/* Finds matches one after another from *start on, as many as there is room for, each as regress_find finds it.
 *
 * `ranges` has room for `count` ranges, and each match takes `width` of them: the range of match k's group g stands at
 * ranges[k * width + g], where group 0 is the whole match. `found` tells how many matches there are. `start` then tells where the
 * search goes on: call again with it for the matches behind. Once there are no more, it is REGRESS_UNSET, and none is found.
 *
 * Each call remembers anew from where a pattern of many ways fails. So give it room for many matches, or for twice as many each time.
 *
 * Where memory is refused, the answer is REGRESS_OUT_OF_MEMORY, and `found` and `start` tell of the matches before. So they do where
 * it is REGRESS_TOO_MANY_STEPS: the search from `start` on takes more steps than it may. Where `width` is 0 or more than `count`, it is
 * REGRESS_NO_ROOM. Any other error leaves `found` and `start` as they were.
 *
 * The caller keeps: `text` points to `length` bytes, `ranges` has room for `count` ranges, `start` and `found` point to a number each
 * that lies in no other argument, and no other call has the search. */
static inline int32_t regress_find_many(regress_search *search, const char *text, size_t length, size_t *start,
                                        regress_range *ranges, size_t count, size_t width, size_t *found) {
  regress_range none;
  const uint8_t *bytes = regress_bytes_given(text, length);
  regress_range *to = regress_ranges_given(ranges, count, &none);
  if (search == NULL || bytes == NULL || start == NULL || to == NULL || found == NULL) return REGRESS_NULL;
  return regress_raw_find_many(search, bytes, length, start, to, count, width, found);
}

/* The same in UTF-8 that the caller vouches for. */
static inline int32_t regress_find_many_valid(regress_search *search, const char *text, size_t length, size_t *start,
                                              regress_range *ranges, size_t count, size_t width, size_t *found) {
  regress_range none;
  const uint8_t *bytes = regress_bytes_given(text, length);
  regress_range *to = regress_ranges_given(ranges, count, &none);
  if (search == NULL || bytes == NULL || start == NULL || to == NULL || found == NULL) return REGRESS_NULL;
  return regress_raw_find_many_valid(search, bytes, length, start, to, count, width, found);
}

/* The same in ASCII that the caller vouches for. */
static inline int32_t regress_find_many_ascii(regress_search *search, const char *text, size_t length, size_t *start,
                                              regress_range *ranges, size_t count, size_t width, size_t *found) {
  regress_range none;
  const uint8_t *bytes = regress_bytes_given(text, length);
  regress_range *to = regress_ranges_given(ranges, count, &none);
  if (search == NULL || bytes == NULL || start == NULL || to == NULL || found == NULL) return REGRESS_NULL;
  return regress_raw_find_many_ascii(search, bytes, length, start, to, count, width, found);
}

/* The same in units of UTF-16: `text` points to `length` units. */
static inline int32_t regress_find_many_utf16(regress_search *search, const uint16_t *text, size_t length, size_t *start,
                                              regress_range *ranges, size_t count, size_t width, size_t *found) {
  regress_range none;
  const uint16_t *units = regress_units_given(text, length);
  regress_range *to = regress_ranges_given(ranges, count, &none);
  if (search == NULL || units == NULL || start == NULL || to == NULL || found == NULL) return REGRESS_NULL;
  return regress_raw_find_many_utf16(search, units, length, start, to, count, width, found);
}

/* The same in 16-bit units that are one character each: `text` points to `length` units. */
static inline int32_t regress_find_many_ucs2(regress_search *search, const uint16_t *text, size_t length, size_t *start,
                                             regress_range *ranges, size_t count, size_t width, size_t *found) {
  regress_range none;
  const uint16_t *units = regress_units_given(text, length);
  regress_range *to = regress_ranges_given(ranges, count, &none);
  if (search == NULL || units == NULL || start == NULL || to == NULL || found == NULL) return REGRESS_NULL;
  return regress_raw_find_many_ucs2(search, units, length, start, to, count, width, found);
}

#ifdef __cplusplus
}
#endif

#endif
