/* The calls that search, by the kind of text. */
#ifndef KINDS_H
#define KINDS_H

#include <regress.h>

typedef struct {
  const char *name;
  int in_units;
  int32_t (*find)(regress_search *search, const void *text, size_t length, size_t start, regress_range *ranges, size_t count);
  int32_t (*match_at)(regress_search *search, const void *text, size_t length, size_t start, regress_range *ranges, size_t count);
  int32_t (*is_match)(regress_search *search, const void *text, size_t length, size_t start);
  int32_t (*find_many)(regress_search *search, const void *text, size_t length, size_t *start, regress_range *ranges, size_t count,
                       size_t width, size_t *found);
} kind_of_text;

/* The calls of one ending. */
#define CALLS_OF(kind, ending, unit) \
  static int32_t kind##_find(regress_search *search, const void *text, size_t length, size_t start, regress_range *ranges, \
                             size_t count) { \
    return regress_find##ending(search, (const unit *)text, length, start, ranges, count); \
  } \
  static int32_t kind##_match_at(regress_search *search, const void *text, size_t length, size_t start, regress_range *ranges, \
                                 size_t count) { \
    return regress_match_at##ending(search, (const unit *)text, length, start, ranges, count); \
  } \
  static int32_t kind##_is_match(regress_search *search, const void *text, size_t length, size_t start) { \
    return regress_is_match##ending(search, (const unit *)text, length, start); \
  } \
  static int32_t kind##_find_many(regress_search *search, const void *text, size_t length, size_t *start, regress_range *ranges, \
                                  size_t count, size_t width, size_t *found) { \
    return regress_find_many##ending(search, (const unit *)text, length, start, ranges, count, width, found); \
  }

#define KIND(kind, in_units) {#kind, in_units, kind##_find, kind##_match_at, kind##_is_match, kind##_find_many}

CALLS_OF(utf8, , char)
CALLS_OF(valid, _valid, char)
CALLS_OF(ascii, _ascii, char)
CALLS_OF(utf16, _utf16, uint16_t)
CALLS_OF(ucs2, _ucs2, uint16_t)

enum { UTF8, VALID, ASCII, UTF16, UCS2, KINDS };

static const kind_of_text kinds[KINDS] = {KIND(utf8, 0), KIND(valid, 0), KIND(ascii, 0), KIND(utf16, 1), KIND(ucs2, 1)};

#endif
