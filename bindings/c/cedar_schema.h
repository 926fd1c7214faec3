/* The proved calls on Cedar schemas. What a caller owes stands at each; README.md has the rest. */
#ifndef CEDAR_SCHEMA_H
#define CEDAR_SCHEMA_H
#include <stddef.h>
#include <stdint.h>
#ifdef __cplusplus
extern "C" {
#endif

/* Bytes and how many. `at` is never null, also where `len` is 0. */
typedef struct {
  const uint8_t *at;
  size_t len;
} cedar_schema_bytes;

/* What a call writes. Begin with CEDAR_SCHEMA_ANSWER_NONE, since no pointer in it may be null. */
typedef struct {
  cedar_schema_bytes out;
  cedar_schema_bytes err;
} cedar_schema_answer;
#define CEDAR_SCHEMA_ANSWER_NONE { { (const uint8_t *)"", 0 }, { (const uint8_t *)"", 0 } }

/* The status of a call. Under CEDAR_SCHEMA_MEMORY and CEDAR_SCHEMA_TOO_DEEP the answer stays as it was. */
enum {
  CEDAR_SCHEMA_DONE = 0,     /* `out` has what was asked for, and `err` a line for each warning */
  CEDAR_SCHEMA_REFUSED = 1,  /* the input is refused: `err` says why */
  CEDAR_SCHEMA_USAGE = 2,    /* the words ask for no command */
  CEDAR_SCHEMA_NOT_TEXT = 5, /* the input is not UTF-8 */
  CEDAR_SCHEMA_TOO_LONG = 6, /* the input is longer than 16,777,216 bytes */
  CEDAR_SCHEMA_MEMORY = 7,   /* out of memory */
  CEDAR_SCHEMA_TOO_DEEP = 8  /* more than CEDAR_SCHEMA_DEEPEST brackets are open at one place */
};
#define CEDAR_SCHEMA_DEEPEST 256

/* Each call reads `len` bytes at `bytes`, which is never null; no thread writes to them during the call. It overwrites
 * `answer`: give an older answer back first. Calls on different answers may run side by side. */

/* The canonical text of what a schema text means. */
uint8_t cedar_schema_recover(const uint8_t *bytes, size_t len, cedar_schema_answer *answer);

/* How many entity types and actions a schema text declares. */
uint8_t cedar_schema_check(const uint8_t *bytes, size_t len, cedar_schema_answer *answer);

/* The JSON form of a schema text. */
uint8_t cedar_schema_to_json(const uint8_t *bytes, size_t len, cedar_schema_answer *answer);

/* The canonical text of what a JSON schema means. */
uint8_t cedar_schema_from_json(const uint8_t *bytes, size_t len, cedar_schema_answer *answer);

/* The same for the deprecated form of JSON. */
uint8_t cedar_schema_from_deprecated(const uint8_t *bytes, size_t len, cedar_schema_answer *answer);

/* A schema text laid out anew, with its comments. */
uint8_t cedar_schema_format(const uint8_t *bytes, size_t len, cedar_schema_answer *answer);

/* What may stand at a place of a schema text, a byte offset: a line `kind KIND` for each kind of token, and then a line
 * `name NAME` for each name that the text declares or Cedar has. CEDAR_SCHEMA_REFUSED where the text before the place
 * has a fault, or where there is no such place. */
uint8_t cedar_schema_complete(const uint8_t *bytes, size_t len, size_t place, cedar_schema_answer *answer);

/* What is reported of a schema text: `out` has an object of JSON on a line of its own for each warning, or, under
 * CEDAR_SCHEMA_REFUSED, for each fault. An object has `severity`, `rule`, `message`, `help`, `path`, which is `-`, and
 * `places`; each place has `start`, `end` and `text`, and a start or an end has `byte`, which counts from 0, and
 * `line`, `column` (in characters) and `utf16` (in UTF-16 units), which count from 1. */
uint8_t cedar_schema_report(const uint8_t *bytes, size_t len, cedar_schema_answer *answer);

/* Whether two schema texts mean the same: `out` has the line `same` or `different`. Where one of them is no schema,
 * `out` has the line `first` or `second`, and `err` the faults of that text. */
uint8_t cedar_schema_same(const uint8_t *first, size_t first_len, const uint8_t *second, size_t second_len,
                          cedar_schema_answer *answer);

/* Whether a new schema text admits all that an old one does: `out` has the line `included`, or `not included: ` and
 * what the first value is about that it does not admit. Where one of them is no schema, `err` says why. */
uint8_t cedar_schema_include(const uint8_t *old_bytes, size_t old_len, const uint8_t *new_bytes, size_t new_len,
                             cedar_schema_answer *answer);

/* What the program cedar_schema_tool answers to these words and this input. */
uint8_t cedar_schema_run(const cedar_schema_bytes *words, size_t count, const uint8_t *bytes, size_t len,
                         cedar_schema_answer *answer);

/* Gives both outputs of an answer back, and leaves it without any. */
void cedar_schema_free(cedar_schema_answer *answer);

/* 10,000 times the major number, 100 times the minor one, and the patch. */
uint32_t cedar_schema_version(void);
#define CEDAR_SCHEMA_VERSION 100

#ifdef __cplusplus
}
#endif
#endif
