/* aggen.h: translators from attribute grammars, inside another program.
 *
 * A handle owns a translator, which aggen_build makes of a grammar's text. The other calls use it any
 * number of times: aggen_translate translates a sentence, aggen_parse returns the tree file of a
 * sentence, aggen_evaluate translates the tree in a tree file, and aggen_plan lists the passes.
 *
 *     aggen_handle handle = AGGEN_HANDLE_INIT;
 *     if (aggen_build(grammar, length, &handle, NULL, 0, NULL) == AGGEN_OK) { .. }
 *     aggen_free(&handle);
 *
 * docs/LIBRARY.md has a whole program. Link it with -laggen.
 *
 * Texts and buffers are bytes with a length; no zero byte ends them. A null pointer with length 0 is
 * an empty text, or a buffer without room.
 *
 * Threads: a handle is used by one thread at a time, and passed to another by a lock, or when a thread
 * is started or joined. Calls on different handles are independent.
 * Don't call the library from a signal handler, or in a child that a process with threads forked.
 */
#ifndef AGGEN_H
#define AGGEN_H

#include <stddef.h>
#include <stdint.h>

#ifdef __cplusplus
extern "C" {
#endif

#define AGGEN_VERSION "1.0.0"

/* What a call returns. These are the exit statuses of the program `aggen`, and 1. */
enum aggen_status {
    AGGEN_OK = 0,
    /* the handle has no translator */
    AGGEN_NO_TRANSLATOR = 1,
    /* a pointer that is needed is null, a length is above PTRDIFF_MAX, or two arguments overlap; nothing was
       written, neither to a buffer nor to *length or *refusal */
    AGGEN_MISUSE = 2,
    /* the grammar is rejected: G1 to G4, N1 to N10, L1, A1 */
    AGGEN_GRAMMAR = 3,
    /* the sentence is rejected: S1 to S4, P1 to P3 */
    AGGEN_SENTENCE = 4,
    /* the tree file is rejected: R1, and P2 and P3 of a file */
    AGGEN_TREE_FILE = 5,
    /* the translation is not a text: O1 */
    AGGEN_NO_TEXT = 6,
    /* memory was refused; the call can be made again */
    AGGEN_NO_MEMORY = 7
};

/* A translator, or none.
 *
 * Initialize it with AGGEN_HANDLE_INIT, pass its address, and end with aggen_free. Only the calls of
 * this library write to it. Don't copy it: two copies would own one translator. */
typedef struct aggen_handle {
    void *translator;
} aggen_handle;

#define AGGEN_HANDLE_INIT {0}

/* Why a call was refused. docs/REFUSALS.md explains each refusal. */
typedef struct aggen_refusal {
    /* the letter of the refusal's number, as 'N' of N10; 0 if it has no number */
    uint8_t letter;
    /* the rest of the number, as 10 of N10 */
    uint8_t index;
    /* the offset of the fault in the input of the call, in bytes from 0, or AGGEN_NO_OFFSET */
    uint64_t offset;
    /* the line and the column of the fault, from 1, or 0 and 0. A line ends with LF; columns count
       characters. */
    size_t line;
    size_t column;
    /* the number of bytes of the message. If it is above the buffer's capacity, the buffer has the
       first bytes. It is 0 if there is no message: after AGGEN_OK and AGGEN_NO_TRANSLATOR, and if memory
       for the message was refused. */
    size_t message_length;
} aggen_refusal;

#define AGGEN_NO_OFFSET UINT64_MAX

/* Makes the translator of a grammar's text, and puts it into a handle.
 *
 * A translator that the handle has is freed first. Returns AGGEN_OK; AGGEN_GRAMMAR if the text is
 * rejected; AGGEN_NO_MEMORY; AGGEN_MISUSE. Unless it returns AGGEN_OK or AGGEN_MISUSE, the handle has no
 * translator afterwards.
 *
 * The message of a refusal is one line, which begins with the refusal's number, or with NoMemory. Its
 * first `message_capacity` bytes are written to `message`; `*refusal` gets its length and the place of
 * the fault. After AGGEN_OK the buffer is as before, and `*refusal` has no number, no place and length
 * 0. `refusal` may be null. */
int aggen_build(const void *grammar, size_t grammar_length, aggen_handle *handle,
                char *message, size_t message_capacity, aggen_refusal *refusal);

/* Translates a sentence.
 *
 * The first `capacity` bytes of the translation are written to `out`, and `*length` is the length of
 * the whole translation. If that is above `capacity`, call again with more room. Returns AGGEN_OK, also if
 * there is not enough room; AGGEN_SENTENCE or AGGEN_NO_TEXT if the sentence or its translation is
 * rejected; AGGEN_NO_MEMORY; AGGEN_NO_TRANSLATOR; AGGEN_MISUSE. After a refusal `out` is as before, and
 * `*length` is 0. After AGGEN_MISUSE `*length` is as before too.
 *
 * `message` and `refusal` are as in aggen_build. */
int aggen_translate(aggen_handle *handle, const void *sentence, size_t sentence_length,
                    void *out, size_t capacity, size_t *length,
                    char *message, size_t message_capacity, aggen_refusal *refusal);

/* Translates the tree in a tree file of pass 0, as aggen_parse or `aggen parse` makes one.
 *
 * Returns AGGEN_TREE_FILE if the file is rejected, and what aggen_translate returns, except
 * AGGEN_SENTENCE. The translation and its length are as there. */
int aggen_evaluate(aggen_handle *handle, const void *file, size_t file_length,
                   void *out, size_t capacity, size_t *length,
                   char *message, size_t message_capacity, aggen_refusal *refusal);

/* Writes the tree file of a sentence to `out`, as aggen_translate writes a translation.
 *
 * Returns what aggen_translate returns, except AGGEN_NO_TEXT. docs/FORMATS.md describes tree files. */
int aggen_parse(aggen_handle *handle, const void *sentence, size_t sentence_length,
                void *out, size_t capacity, size_t *length,
                char *message, size_t message_capacity, aggen_refusal *refusal);

/* Writes the passes of the translator to `out`, a line for each, as `aggen plan` prints them.
 *
 * Returns AGGEN_OK, AGGEN_NO_MEMORY, AGGEN_NO_TRANSLATOR or AGGEN_MISUSE. */
int aggen_plan(aggen_handle *handle, void *out, size_t capacity, size_t *length,
               char *message, size_t message_capacity, aggen_refusal *refusal);

/* Returns AGGEN_VERSION of the library. */
const char *aggen_version(void);

/* Frees the translator of a handle.
 *
 * The handle has none afterwards, and can be used again. A handle without a translator and a null
 * pointer are accepted. */
void aggen_free(aggen_handle *handle);

#ifdef __cplusplus
}
#endif

#endif
