/* Gives back what a call handed out: an output of no bytes has no block. */
#include "cedar_schema.h"
#include <stdlib.h>

static void give_back(cedar_schema_bytes *block) {
  if (block->len != 0) free((void *)block->at);
  block->at = (const uint8_t *)"";
  block->len = 0;
}

void cedar_schema_free(cedar_schema_answer *answer) {
  give_back(&answer->out);
  give_back(&answer->err);
}
