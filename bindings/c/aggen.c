/* The functions of aggen.h. Each checks its pointers and lengths, and then calls the proved export of
   the crate aggen_c. The export assumes that no pointer is null, that no two ranges overlap, and that
   no length is above 2^63 - 1. There is no other logic here. */
#include "aggen.h"
#include "unchecked.h"

/* An argument: the memory that a call reads or writes. */
struct range {
    const void *start;
    size_t length;
};

/* Returns whether a range can be that of an object. A null pointer needs length 0. */
static int is_valid(struct range range) {
    if (range.start == NULL) {
        return range.length == 0;
    }
    return range.length <= PTRDIFF_MAX && range.length <= UINTPTR_MAX - (uintptr_t)range.start;
}

/* Returns whether two valid ranges have a byte in common. */
static int overlap(struct range a, struct range b) {
    uintptr_t first = (uintptr_t)a.start, second = (uintptr_t)b.start;
    return a.length != 0 && b.length != 0 && first < second + b.length && second < first + a.length;
}

/* Returns whether all ranges are valid, and no two overlap. */
static int are_separate(const struct range *ranges, size_t count) {
    for (size_t i = 0; i < count; i++) {
        if (!is_valid(ranges[i])) {
            return 0;
        }
        for (size_t j = 0; j < i; j++) {
            if (overlap(ranges[i], ranges[j])) {
                return 0;
            }
        }
    }
    return 1;
}

/* The pointer that replaces a null pointer. No call reads or writes it. */
static uint8_t nothing[1];

static const uint8_t *input_of(const void *start) { return start == NULL ? nothing : start; }

static uint8_t *output_of(void *start) { return start == NULL ? nothing : start; }

int aggen_build(const void *grammar, size_t grammar_length, aggen_handle *handle,
                char *message, size_t message_capacity, aggen_refusal *refusal) {
    aggen_refusal unused = {0};
    if (refusal == NULL) {
        refusal = &unused;
    }
    const struct range ranges[] = {
        {grammar, grammar_length},
        {handle, sizeof *handle},
        {message, message_capacity},
        {refusal, sizeof *refusal},
    };
    if (!are_separate(ranges, sizeof ranges / sizeof *ranges)) {
        return AGGEN_MISUSE;
    }
    return aggen_build_unchecked(input_of(grammar), grammar_length, handle,
                                 output_of(message), message_capacity, refusal);
}

/* A call that reads an input and writes a result. */
typedef uint8_t unchecked_call(aggen_handle *, const uint8_t *, size_t, uint8_t *, size_t, size_t *,
                               uint8_t *, size_t, aggen_refusal *);

static int checked_call(unchecked_call *call, aggen_handle *handle, const void *input, size_t input_length,
                        void *out, size_t capacity, size_t *length,
                        char *message, size_t message_capacity, aggen_refusal *refusal) {
    aggen_refusal unused = {0};
    if (refusal == NULL) {
        refusal = &unused;
    }
    const struct range ranges[] = {
        {handle, sizeof *handle},
        {input, input_length},
        {out, capacity},
        {length, sizeof *length},
        {message, message_capacity},
        {refusal, sizeof *refusal},
    };
    if (!are_separate(ranges, sizeof ranges / sizeof *ranges)) {
        return AGGEN_MISUSE;
    }
    return call(handle, input_of(input), input_length, output_of(out), capacity, length,
                output_of(message), message_capacity, refusal);
}

int aggen_translate(aggen_handle *handle, const void *sentence, size_t sentence_length,
                    void *out, size_t capacity, size_t *length,
                    char *message, size_t message_capacity, aggen_refusal *refusal) {
    return checked_call(aggen_translate_unchecked, handle, sentence, sentence_length, out, capacity, length,
                        message, message_capacity, refusal);
}

int aggen_evaluate(aggen_handle *handle, const void *file, size_t file_length,
                   void *out, size_t capacity, size_t *length,
                   char *message, size_t message_capacity, aggen_refusal *refusal) {
    return checked_call(aggen_evaluate_unchecked, handle, file, file_length, out, capacity, length,
                        message, message_capacity, refusal);
}

int aggen_parse(aggen_handle *handle, const void *sentence, size_t sentence_length,
                void *out, size_t capacity, size_t *length,
                char *message, size_t message_capacity, aggen_refusal *refusal) {
    return checked_call(aggen_parse_unchecked, handle, sentence, sentence_length, out, capacity, length,
                        message, message_capacity, refusal);
}

/* Calls the export that has no input. The arguments of the input are not used. */
static uint8_t plan(aggen_handle *handle, const uint8_t *input, size_t input_length,
                    uint8_t *out, size_t capacity, size_t *length,
                    uint8_t *message, size_t message_capacity, aggen_refusal *refusal) {
    (void)input;
    (void)input_length;
    return aggen_plan_unchecked(handle, out, capacity, length, message, message_capacity, refusal);
}

int aggen_plan(aggen_handle *handle, void *out, size_t capacity, size_t *length,
               char *message, size_t message_capacity, aggen_refusal *refusal) {
    return checked_call(plan, handle, NULL, 0, out, capacity, length, message, message_capacity, refusal);
}

const char *aggen_version(void) { return AGGEN_VERSION; }

void aggen_free(aggen_handle *handle) {
    if (handle != NULL) {
        aggen_free_unchecked(handle);
    }
}
