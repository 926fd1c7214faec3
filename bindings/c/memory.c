/* Each allocation fails in turn: the status is CEDAR_SCHEMA_MEMORY, the answer stays as it was, and nothing is lost. */
#include "cedar_schema.h"
#include <stdio.h>
#include <string.h>

static long left = -1;
static long live = 0;

void *__real_malloc(size_t size);
void *__real_realloc(void *block, size_t size);
void __real_free(void *block);

static int is_refused(void) {
  if (left == 0) return 1;
  if (left > 0) left--;
  return 0;
}

void *__wrap_malloc(size_t size) {
  if (is_refused()) return 0;
  live++;
  return __real_malloc(size);
}

void *__wrap_realloc(void *block, size_t size) {
  if (is_refused()) return 0;
  if (!block) live++;
  return __real_realloc(block, size);
}

void __wrap_free(void *block) {
  if (block) live--;
  __real_free(block);
}

typedef uint8_t (*call)(const uint8_t *, size_t, cedar_schema_answer *);

static int each_refused(call function, const char *text) {
  for (long n = 0; n < 100000; n++) {
    cedar_schema_answer answer = CEDAR_SCHEMA_ANSWER_NONE;
    const uint8_t *out = answer.out.at, *err = answer.err.at;
    long before = live;
    left = n;
    int status = function((const uint8_t *)text, strlen(text), &answer);
    left = -1;
    if (status != CEDAR_SCHEMA_MEMORY) {
      cedar_schema_free(&answer);
      if (live != before) return fprintf(stderr, "%ld blocks are lost\n", live - before), 1;
      printf("%ld allocations, each refused once\n", n);
      return 0;
    }
    if (answer.out.at != out || answer.err.at != err || answer.out.len || answer.err.len)
      return fprintf(stderr, "the answer has changed\n"), 1;
    if (live != before) return fprintf(stderr, "%ld blocks are lost\n", live - before), 1;
  }
  return 1;
}

static uint8_t complete_in_name(const uint8_t *bytes, size_t len, cedar_schema_answer *answer) {
  return cedar_schema_complete(bytes, len, 17, answer);
}

static uint8_t same_as_itself(const uint8_t *bytes, size_t len, cedar_schema_answer *answer) {
  return cedar_schema_same(bytes, len, bytes, len, answer);
}

static uint8_t includes_itself(const uint8_t *bytes, size_t len, cedar_schema_answer *answer) {
  return cedar_schema_include(bytes, len, bytes, len, answer);
}

int main(void) {
  const char *text = "@doc(\"a\") entity A in [B] = { a: Set<Long>, b?: { c: T } }; entity B; type T = String;"
                     " action a appliesTo { principal: A, resource: [A, B] };";
  return each_refused(cedar_schema_recover, text) || each_refused(cedar_schema_check, text)
         || each_refused(cedar_schema_to_json, text) || each_refused(cedar_schema_format, text)
         || each_refused(cedar_schema_from_json, "{\"\": {\"entityTypes\": {\"A\": {}}, \"actions\": {}}}")
         || each_refused(cedar_schema_recover, "entity A in [B];") || each_refused(complete_in_name, text)
         || each_refused(cedar_schema_report, "entity A in [B];") || each_refused(cedar_schema_report, text)
         || each_refused(same_as_itself, text) || each_refused(includes_itself, text)
         || each_refused(same_as_itself, "entity A in [B];");
}
