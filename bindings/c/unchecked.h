/* The exports of the crate aggen_c. The proofs assume that no pointer is null, even with length 0, that
   no two ranges overlap, and that no length is above 2^63 - 1. */
#ifndef AGGEN_UNCHECKED_H
#define AGGEN_UNCHECKED_H

#include "aggen.h"

uint8_t aggen_build_unchecked(const uint8_t *grammar, size_t grammar_length, aggen_handle *handle,
                              uint8_t *message, size_t message_capacity, aggen_refusal *refusal);
uint8_t aggen_translate_unchecked(aggen_handle *handle, const uint8_t *sentence, size_t sentence_length,
                                  uint8_t *out, size_t capacity, size_t *length,
                                  uint8_t *message, size_t message_capacity, aggen_refusal *refusal);
uint8_t aggen_evaluate_unchecked(aggen_handle *handle, const uint8_t *file, size_t file_length,
                                 uint8_t *out, size_t capacity, size_t *length,
                                 uint8_t *message, size_t message_capacity, aggen_refusal *refusal);
uint8_t aggen_parse_unchecked(aggen_handle *handle, const uint8_t *sentence, size_t sentence_length,
                              uint8_t *out, size_t capacity, size_t *length,
                              uint8_t *message, size_t message_capacity, aggen_refusal *refusal);
uint8_t aggen_plan_unchecked(aggen_handle *handle, uint8_t *out, size_t capacity, size_t *length,
                             uint8_t *message, size_t message_capacity, aggen_refusal *refusal);
void aggen_free_unchecked(aggen_handle *handle);

#endif
