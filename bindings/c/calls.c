/* Calls every function once or more, compares what it answers, and times it. */
#include "cedar_schema.h"
#include <pthread.h>
#include <stdio.h>
#include <stdlib.h>
#include <string.h>
#include <time.h>

typedef uint8_t (*call)(const uint8_t *, size_t, cedar_schema_answer *);

static int failures = 0;

static void expect(const char *what, call function, const char *text, size_t len, int status, const char *out,
                   const char *err) {
  cedar_schema_answer answer = CEDAR_SCHEMA_ANSWER_NONE;
  int got = function((const uint8_t *)text, len, &answer);
  if (got != status || answer.out.len != strlen(out) || memcmp(answer.out.at, out, answer.out.len) != 0 ||
      answer.err.len != strlen(err) || memcmp(answer.err.at, err, answer.err.len) != 0) {
    fprintf(stderr, "%s: status %d, output `%.*s`, error output `%.*s`\n", what, got, (int)answer.out.len,
            (const char *)answer.out.at, (int)answer.err.len, (const char *)answer.err.at);
    failures++;
  }
  cedar_schema_free(&answer);
}

static void expect_text(const char *what, call function, const char *text, int status, const char *out,
                        const char *err) {
  expect(what, function, text, strlen(text), status, out, err);
}

static void worked_rows(void) {
  expect_text("recover", cedar_schema_recover, "entity B; entity A in [B];", CEDAR_SCHEMA_DONE,
              "entity A in [B];\n\nentity B;\n", "");
  expect_text("nothing", cedar_schema_recover, "", CEDAR_SCHEMA_DONE, "", "");
  expect_text("check", cedar_schema_check, "entity A;", CEDAR_SCHEMA_DONE, "1 entity types, 0 actions\n", "");
  expect_text("format", cedar_schema_format, "entity A;//a\nentity B;", CEDAR_SCHEMA_DONE, "entity A; //a\nentity B;\n",
              "");
  expect_text("not text", cedar_schema_recover, "\xff", CEDAR_SCHEMA_NOT_TEXT, "", "error: the input is not UTF-8\n");
}

static void word_lists(void) {
  cedar_schema_bytes asked[] = { { (const uint8_t *)"check", 5 } };
  cedar_schema_answer answer = CEDAR_SCHEMA_ANSWER_NONE;
  if (cedar_schema_run(asked, 1, (const uint8_t *)"entity A;", 9, &answer) != CEDAR_SCHEMA_DONE) failures++;
  cedar_schema_free(&answer);
  if (cedar_schema_run(asked, 0, (const uint8_t *)"", 0, &answer) != CEDAR_SCHEMA_USAGE) failures++;
  cedar_schema_free(&answer);
  asked[0].at = (const uint8_t *)"\xff";
  asked[0].len = 1;
  if (cedar_schema_run(asked, 1, (const uint8_t *)"", 0, &answer) != CEDAR_SCHEMA_USAGE) failures++;
  cedar_schema_free(&answer);
}

static void expect_answer(const char *what, int got, int status, const char *out, cedar_schema_answer *answer) {
  if (got != status || answer->out.len != strlen(out) || memcmp(answer->out.at, out, answer->out.len) != 0) {
    fprintf(stderr, "%s: status %d, output `%.*s`\n", what, got, (int)answer->out.len, (const char *)answer->out.at);
    failures++;
  }
  cedar_schema_free(answer);
}

static void completions(void) {
  const uint8_t *text = (const uint8_t *)"entity User; entity A in U;";
  const char *told = "kind `namespace`\n"
                     "kind `entity`\n"
                     "kind `external`\n"
                     "kind `type`\n"
                     "kind `Set`\n"
                     "kind `appliesTo`\n"
                     "kind `principal`\n"
                     "kind `action`\n"
                     "kind `resource`\n"
                     "kind `context`\n"
                     "kind `tags`\n"
                     "kind `enum`\n"
                     "kind identifier\n"
                     "kind `[`\n"
                     "name User\n";
  cedar_schema_answer answer = CEDAR_SCHEMA_ANSWER_NONE;
  expect_answer("complete", cedar_schema_complete(text, 27, 26, &answer), CEDAR_SCHEMA_DONE, told, &answer);
  expect_answer("no place", cedar_schema_complete(text, 27, 99, &answer), CEDAR_SCHEMA_REFUSED, "", &answer);
}

static void comparisons(void) {
  const uint8_t *a = (const uint8_t *)"entity A, B;", *b = (const uint8_t *)"entity B; entity A;";
  cedar_schema_answer answer = CEDAR_SCHEMA_ANSWER_NONE;
  expect_answer("same", cedar_schema_same(a, 12, b, 19, &answer), CEDAR_SCHEMA_DONE, "same\n", &answer);
  expect_answer("different", cedar_schema_same(a, 12, b, 9, &answer), CEDAR_SCHEMA_DONE, "different\n", &answer);
  expect_answer("included", cedar_schema_include(b, 9, a, 12, &answer), CEDAR_SCHEMA_DONE, "included\n", &answer);
  expect_answer("lost", cedar_schema_include(a, 12, b, 9, &answer), CEDAR_SCHEMA_DONE,
                "not included: entity A::\"\"\n", &answer);
  expect_answer("old", cedar_schema_include(a, 11, b, 9, &answer), CEDAR_SCHEMA_REFUSED, "", &answer);
  expect_answer("first", cedar_schema_same(a, 11, b, 9, &answer), CEDAR_SCHEMA_REFUSED, "first\n", &answer);
  expect_answer("second", cedar_schema_same(a, 12, b, 8, &answer), CEDAR_SCHEMA_REFUSED, "second\n", &answer);
}

static void reports(void) {
  cedar_schema_answer answer;
  const uint8_t *text = (const uint8_t *)"entity A;\nentity B in [C];";
  const char *told = "{\"help\":null,\"message\":\"failed to resolve type: C\",\"path\":\"-\",\"places\":[{\"end\":"
                     "{\"byte\":24,\"column\":15,\"line\":2,\"utf16\":15},\"start\":{\"byte\":23,\"column\":14,"
                     "\"line\":2,\"utf16\":14},\"text\":null}],\"rule\":null,\"severity\":\"error\"}\n";
  expect_answer("report", cedar_schema_report(text, 26, &answer), CEDAR_SCHEMA_REFUSED, told, &answer);
  expect_answer("nothing to report", cedar_schema_report(text, 9, &answer), CEDAR_SCHEMA_DONE, "", &answer);
}

static uint8_t complete_at_end(const uint8_t *bytes, size_t len, cedar_schema_answer *answer) {
  return cedar_schema_complete(bytes, len, len, answer);
}

static uint8_t same_as_itself(const uint8_t *bytes, size_t len, cedar_schema_answer *answer) {
  return cedar_schema_same(bytes, len, bytes, len, answer);
}

static uint8_t includes_itself(const uint8_t *bytes, size_t len, cedar_schema_answer *answer) {
  return cedar_schema_include(bytes, len, bytes, len, answer);
}

static uint8_t run_recover(const uint8_t *bytes, size_t len, cedar_schema_answer *answer) {
  cedar_schema_bytes word = { (const uint8_t *)"recover", 7 };
  return cedar_schema_run(&word, 1, bytes, len, answer);
}

/* The calls that take one input. The first so many have a word in the file of answers. */
static const call calls[] = { cedar_schema_recover,   cedar_schema_check,           cedar_schema_to_json,
                              cedar_schema_from_json, cedar_schema_from_deprecated, cedar_schema_format,
                              complete_at_end,        same_as_itself,               includes_itself,
                              run_recover,            cedar_schema_report };
static const char *const names[] = { "recover", "check", "to-json", "from-json", "from-deprecated", "layout" };
enum { CALLS = sizeof calls / sizeof calls[0], NAMES = sizeof names / sizeof names[0] };

/* An input with so many brackets open: `depth` times `open`, then `middle`, then as often `close`. */
static char *nested(int depth, const char *front, const char *open, const char *middle, const char *close,
                    const char *back) {
  size_t room = strlen(front) + (size_t)depth * (strlen(open) + strlen(close)) + strlen(middle) + strlen(back) + 1;
  char *text = malloc(room);
  char *at = stpcpy(text, front);
  for (int i = 0; i < depth; i++) at = stpcpy(at, open);
  at = stpcpy(at, middle);
  for (int i = 0; i < depth; i++) at = stpcpy(at, close);
  stpcpy(at, back);
  return text;
}

/* Each bracket at the greatest depth that is taken, and at one more. */
static void *deep(void *unused) {
  static const char *const shapes[][5] = {
    { "type T = ", "Set<", "Long", ">", ";" },
    { "type T = ", "{a:", "Long", "}", ";" },
    { "entity E = ", "{a:", "Long", "}", ";" },
    { "", "[", "1", "]", "" },
    { "", "{\"a\":", "1", "}", "" },
    { "", "(", "", ")", "" },
    { "", "<", "", ">", "" },
    { "", "{", "", "}", "" },
  };
  for (size_t shape = 0; shape < sizeof shapes / sizeof shapes[0]; shape++) {
    const char *const *s = shapes[shape];
    char *last = nested(CEDAR_SCHEMA_DEEPEST, s[0], s[1], s[2], s[3], s[4]);
    char *over = nested(CEDAR_SCHEMA_DEEPEST + 1, s[0], s[1], s[2], s[3], s[4]);
    for (int i = 0; i < CALLS; i++) {
      cedar_schema_answer answer = CEDAR_SCHEMA_ANSWER_NONE;
      int status = calls[i]((const uint8_t *)last, strlen(last), &answer);
      if (status != CEDAR_SCHEMA_DONE && status != CEDAR_SCHEMA_REFUSED) {
        fprintf(stderr, "shape %zu, call %d: status %d\n", shape, i, status);
        failures++;
      }
      cedar_schema_free(&answer);
      if (calls[i]((const uint8_t *)over, strlen(over), &answer) != CEDAR_SCHEMA_TOO_DEEP) failures++;
    }
    free(last);
    free(over);
  }
  return unused;
}

static void small_stack(void) {
  pthread_attr_t small;
  pthread_t thread;
  pthread_attr_init(&small);
  if (pthread_attr_setstacksize(&small, 1 << 20) != 0 || pthread_create(&thread, &small, deep, NULL) != 0) {
    failures++;
    return;
  }
  pthread_join(thread, NULL);
}

static char *read_block(FILE *file, size_t len) {
  char *block = malloc(len + 1);
  if (fread(block, 1, len, file) != len) failures++;
  return block;
}

/* Each line of the file has a word, the length of the input, the status, and the lengths of both outputs; the input and
 * both outputs stand behind it. */
static void answers(const char *path) {
  FILE *file = fopen(path, "rb");
  char word[32];
  size_t len, out_len, err_len;
  int status, count = 0;
  if (!file) {
    failures++;
    return;
  }
  while (fscanf(file, "%31s %zu %d %zu %zu", word, &len, &status, &out_len, &err_len) == 5) {
    fgetc(file);
    char *input = read_block(file, len), *out = read_block(file, out_len), *err = read_block(file, err_len);
    cedar_schema_answer answer = CEDAR_SCHEMA_ANSWER_NONE;
    for (int i = 0; i < NAMES; i++) {
      if (strcmp(names[i], word) != 0) continue;
      int got = calls[i]((const uint8_t *)input, len, &answer);
      if (got != status || answer.out.len != out_len || memcmp(answer.out.at, out, out_len) != 0 ||
          answer.err.len != err_len || memcmp(answer.err.at, err, err_len) != 0) {
        fprintf(stderr, "%s of `%.*s` differs\n", word, (int)len, input);
        failures++;
      }
      count++;
    }
    cedar_schema_free(&answer);
    free(input);
    free(out);
    free(err);
  }
  fclose(file);
  printf("%d inputs answered as expected\n", count - failures);
  if (count != 1000) failures++;
}

static double now(void) {
  struct timespec time;
  clock_gettime(CLOCK_MONOTONIC, &time);
  return (double)time.tv_sec + (double)time.tv_nsec * 1e-9;
}

static void timed(void) {
  char text[4096];
  char *at = text;
  for (int i = 0; i < 46; i++) at += sprintf(at, "entity User%d in [Group] { name: String };\n", i);
  strcpy(at, "entity Group;\n");
  double began = now();
  for (int i = 0; i < 1000; i++) {
    cedar_schema_answer answer = CEDAR_SCHEMA_ANSWER_NONE;
    if (cedar_schema_recover((const uint8_t *)text, strlen(text), &answer) != CEDAR_SCHEMA_DONE) failures++;
    cedar_schema_free(&answer);
  }
  printf("recover of %zu bytes: %.1f microseconds a call\n", strlen(text), (now() - began) * 1000);
}

int main(int count, char **words) {
  if (count != 2) return 2;
  if (cedar_schema_version() != CEDAR_SCHEMA_VERSION) failures++;
  worked_rows();
  word_lists();
  completions();
  comparisons();
  reports();
  answers(words[1]);
  small_stack();
  timed();
  if (failures) fprintf(stderr, "%d failures\n", failures);
  return failures ? 1 : 0;
}
