/* Tests of the library, for tests/library: `library TEST GRAMMAR SENTENCE`. The tests are:
 *
 *   run      prints the translation and the message as `aggen run` does, and ends with its status; `plan` likewise
 *   all      the tests below, one after the other
 *   lengths  buffers of every length from 0 to one more than the text's, for results and messages
 *   many     10,000 sentences by one handle
 *   handles  100 handles at the same time; handles that are freed twice, built again, and without a translator
 *   misuse   null pointers, overlapping arguments, and lengths that exceed every object
 *   threads  four threads, each with a handle of its own, and a handle that one thread builds and another one uses
 *   memory   each request for memory refused in turn; only if it is linked with --wrap=malloc and --wrap=realloc, and REFUSE
 *
 * GRAMMAR and SENTENCE are files; the tests need a sentence that has a translation, except `run` and `plan`. A wrong result is
 * printed with its line, and the status is 1. */
#include <aggen.h>
#include <pthread.h>
#include <stdio.h>
#include <stdlib.h>
#include <string.h>

#define REQUIRE(condition) require((condition), #condition, __LINE__)

struct bytes {
    char *start;
    size_t length;
};

/* The number of requests for memory until one is refused, or 0 for none; and whether one was refused. */
static long requests_left;
static int was_refused;

static void require(int holds, const char *condition, int line) {
    if (!holds) {
        requests_left = 0;
        fprintf(stderr, "library.c:%d: %s does not hold\n", line, condition);
        exit(1);
    }
}

#ifdef REFUSE
void *__real_malloc(size_t);
void *__real_realloc(void *, size_t);

static int refuses(void) {
    if (requests_left == 0 || --requests_left > 0) {
        return 0;
    }
    was_refused = 1;
    return 1;
}

void *__wrap_malloc(size_t size) { return refuses() ? NULL : __real_malloc(size); }

void *__wrap_realloc(void *old, size_t size) { return refuses() ? NULL : __real_realloc(old, size); }
#endif

/* Returns memory of exactly this length, so that sanitizers find an access past its end. */
static char *room_for(size_t length) {
    char *start = malloc(length + (length == 0));
    REQUIRE(start != NULL);
    return start;
}

static struct bytes read_file(const char *path) {
    FILE *file = fopen(path, "rb");
    REQUIRE(file != NULL);
    struct bytes found = {room_for(4 << 20), 0};
    found.length = fread(found.start, 1, 4 << 20, file);
    fclose(file);
    return found;
}

static int same(struct bytes one, struct bytes other) {
    return one.length == other.length && memcmp(one.start, other.start, one.length) == 0;
}

/* A call of the library, with its input and its result. */
typedef int call(aggen_handle *, const void *, size_t, void *, size_t, size_t *, char *, size_t, aggen_refusal *);

static int plan(aggen_handle *handle, const void *input, size_t length, void *out, size_t capacity, size_t *needed,
                char *message, size_t room, aggen_refusal *refusal) {
    (void)input;
    (void)length;
    return aggen_plan(handle, out, capacity, needed, message, room, refusal);
}

static char message[1 << 16];
static aggen_refusal refusal;

/* Makes a call with enough room for its result, and returns its status. */
static int answer(call *function, aggen_handle *handle, struct bytes input, struct bytes *result) {
    size_t needed = 0;
    *result = (struct bytes){room_for(0), 0};
    int status = function(handle, input.start, input.length, result->start, 0, &needed, message, sizeof message, &refusal);
    if (status == AGGEN_OK && needed > 0) {
        free(result->start);
        *result = (struct bytes){room_for(needed), needed};
        size_t again = 0;
        status = function(handle, input.start, input.length, result->start, needed, &again, message, sizeof message, &refusal);
        REQUIRE(status != AGGEN_OK || again == needed);
    }
    REQUIRE(status == AGGEN_OK || needed == 0);
    return status;
}

static int build(aggen_handle *handle, struct bytes grammar) {
    return aggen_build(grammar.start, grammar.length, handle, message, sizeof message, &refusal);
}

/* Compares the fields of a refusal with its message, such as `N8 at 95 (grammar:4:47): ..`. */
static void compare_fields(int status) {
    if (status == AGGEN_OK || status == AGGEN_NO_TRANSLATOR) {
        REQUIRE(refusal.letter == 0 && refusal.index == 0 && refusal.offset == AGGEN_NO_OFFSET);
        REQUIRE(refusal.line == 0 && refusal.column == 0 && refusal.message_length == 0);
        return;
    }
    REQUIRE(refusal.message_length > 0 && refusal.message_length < sizeof message);
    message[refusal.message_length] = 0;
    char letter, name[16];
    int index, end = 0;
    if (sscanf(message, "%c%d%n", &letter, &index, &end) == 2 && end > 1) {
        REQUIRE(refusal.letter == letter && refusal.index == index);
    } else {
        REQUIRE(status == AGGEN_NO_MEMORY && refusal.letter == 0 && refusal.index == 0);
        return;
    }
    const char *rest = message + end;
    if (letter == 'G' && index == 3) {
        REQUIRE(sscanf(rest, " X%d%n", &index, &end) == 1);
        rest += end;
    }
    unsigned long long offset;
    end = 0;
    if (sscanf(rest, " at %llu%n", &offset, &end) == 1 && end > 0) {
        REQUIRE(refusal.offset == offset);
        rest += end;
    } else {
        REQUIRE(refusal.offset == AGGEN_NO_OFFSET);
    }
    size_t line, column;
    if (sscanf(rest, " (%15[a-z]:%zu:%zu)", name, &line, &column) == 3) {
        REQUIRE(refusal.line == line && refusal.column == column);
        REQUIRE(strcmp(name, status == AGGEN_GRAMMAR ? "grammar" : "sentence") == 0);
    } else {
        REQUIRE(refusal.line == 0 && refusal.column == 0);
    }
}

/* Prints the result of a call as the program does, and returns the status. */
static int print(int status, struct bytes result) {
    compare_fields(status);
    if (status == AGGEN_OK) {
        fwrite(result.start, 1, result.length, stdout);
    } else {
        fprintf(stderr, "%.*s\n", (int)refusal.message_length, message);
    }
    return status;
}

/* Checks that the translation of a sentence equals that of its tree file. */
static void compare_ways(aggen_handle *handle, struct bytes sentence, int status, struct bytes text) {
    struct bytes file, again;
    int parsed = answer(aggen_parse, handle, sentence, &file);
    REQUIRE(parsed == (status == AGGEN_NO_TEXT ? AGGEN_OK : status));
    if (parsed == AGGEN_OK) {
        REQUIRE(answer(aggen_evaluate, handle, file, &again) == status);
        REQUIRE(same(text, again));
        free(again.start);
    }
    free(file.start);
}

static int run(call *function, struct bytes grammar, struct bytes sentence) {
    aggen_handle handle = AGGEN_HANDLE_INIT;
    struct bytes result = {NULL, 0};
    int status = build(&handle, grammar);
    if (status == AGGEN_OK) {
        status = answer(function, &handle, sentence, &result);
        if (function == aggen_translate) {
            compare_ways(&handle, sentence, status, result);
            struct bytes again;
            REQUIRE(answer(function, &handle, sentence, &again) == status);
            REQUIRE(same(result, again));
            free(again.start);
        }
    }
    print(status, result);
    free(result.start);
    aggen_free(&handle);
    return status;
}

/* ---- buffers of every length */

static void try_lengths(call *function, aggen_handle *handle, struct bytes input) {
    struct bytes full;
    REQUIRE(answer(function, handle, input, &full) == AGGEN_OK);
    for (size_t capacity = 0; capacity <= full.length + 1; capacity++) {
        char *out = room_for(capacity);
        memset(out, '#', capacity);
        size_t needed = 0, copied = capacity < full.length ? capacity : full.length;
        REQUIRE(function(handle, input.start, input.length, out, capacity, &needed, NULL, 0, NULL) == AGGEN_OK);
        REQUIRE(needed == full.length);
        REQUIRE(memcmp(out, full.start, copied) == 0);
        REQUIRE(copied == capacity || out[copied] == '#');
        free(out);
    }
    free(full.start);
}

static void try_messages(void) {
    static const char grammar[] = "start S; symbol S syn out; S = Name { $0.out = $1.lex; }";
    struct bytes text = {(char *)grammar, sizeof grammar - 1};
    aggen_handle handle = AGGEN_HANDLE_INIT;
    REQUIRE(build(&handle, text) == AGGEN_GRAMMAR);
    compare_fields(AGGEN_GRAMMAR);
    size_t length = refusal.message_length;
    for (size_t capacity = 0; capacity <= length + 1; capacity++) {
        char *prefix = room_for(capacity);
        memset(prefix, '#', capacity);
        aggen_refusal found = {0};
        REQUIRE(aggen_build(text.start, text.length, &handle, prefix, capacity, &found) == AGGEN_GRAMMAR);
        REQUIRE(found.letter == 'N' && found.index == 1 && found.message_length == length);
        REQUIRE(memcmp(prefix, message, capacity < length ? capacity : length) == 0);
        REQUIRE(capacity <= length || prefix[length] == '#');
        free(prefix);
    }
    REQUIRE(aggen_build(text.start, text.length, &handle, NULL, 0, NULL) == AGGEN_GRAMMAR);
}

static void lengths(struct bytes grammar, struct bytes sentence) {
    aggen_handle handle = AGGEN_HANDLE_INIT;
    struct bytes file;
    REQUIRE(build(&handle, grammar) == AGGEN_OK);
    REQUIRE(answer(aggen_parse, &handle, sentence, &file) == AGGEN_OK);
    try_lengths(aggen_translate, &handle, sentence);
    try_lengths(aggen_parse, &handle, sentence);
    try_lengths(aggen_evaluate, &handle, file);
    try_lengths(plan, &handle, sentence);
    free(file.start);
    aggen_free(&handle);
    try_messages();
}

/* ---- one handle, and many */

static void many(struct bytes grammar, struct bytes sentence) {
    aggen_handle handle = AGGEN_HANDLE_INIT;
    struct bytes full;
    REQUIRE(build(&handle, grammar) == AGGEN_OK);
    REQUIRE(answer(aggen_translate, &handle, sentence, &full) == AGGEN_OK);
    char *out = room_for(full.length);
    for (int i = 0; i < 10000; i++) {
        size_t needed = 0;
        memset(out, '#', full.length);
        REQUIRE(aggen_translate(&handle, sentence.start, sentence.length, out, full.length, &needed, NULL, 0, NULL) == AGGEN_OK);
        REQUIRE(needed == full.length && memcmp(out, full.start, needed) == 0);
    }
    free(out);
    free(full.start);
    aggen_free(&handle);
}

static void handles(struct bytes grammar, struct bytes sentence) {
    static aggen_handle all[100];
    static const char empty[] = "start S; symbol S syn out; S = { $0.out = \"\"; }";
    struct bytes other = {(char *)empty, sizeof empty - 1}, nothing = {NULL, 0}, full, result;
    for (int i = 0; i < 100; i++) {
        REQUIRE(build(&all[i], i % 2 == 0 ? grammar : other) == AGGEN_OK);
        compare_fields(AGGEN_OK);
    }
    REQUIRE(answer(aggen_translate, &all[0], sentence, &full) == AGGEN_OK);
    for (int i = 99; i >= 0; i -= 3) {
        REQUIRE(answer(aggen_translate, &all[i], i % 2 == 0 ? sentence : nothing, &result) == AGGEN_OK);
        REQUIRE(i % 2 == 0 ? same(result, full) : result.length == 0);
        free(result.start);
        aggen_free(&all[i]);
        aggen_free(&all[i]);
        REQUIRE(answer(aggen_translate, &all[i], sentence, &result) == AGGEN_NO_TRANSLATOR);
        compare_fields(AGGEN_NO_TRANSLATOR);
        free(result.start);
    }
    /* a refused grammar removes the translator; an accepted one builds a new translator */
    struct bytes rejected = {(char *)"start", 5};
    REQUIRE(build(&all[0], rejected) == AGGEN_GRAMMAR);
    REQUIRE(answer(plan, &all[0], nothing, &result) == AGGEN_NO_TRANSLATOR);
    free(result.start);
    REQUIRE(build(&all[0], other) == AGGEN_OK);
    REQUIRE(build(&all[0], grammar) == AGGEN_OK);
    REQUIRE(answer(aggen_translate, &all[0], sentence, &result) == AGGEN_OK);
    REQUIRE(same(result, full));
    free(result.start);
    for (int i = 0; i < 100; i++) {
        aggen_free(&all[i]);
        REQUIRE(all[i].translator == NULL);
    }
    aggen_free(NULL);
    free(full.start);
    REQUIRE(strcmp(aggen_version(), AGGEN_VERSION) == 0);
}

/* ---- arguments that the library refuses */

static void misuse(struct bytes grammar, struct bytes sentence) {
    union {
        char bytes[512];
        size_t length;
        aggen_handle handle;
        aggen_refusal refusal;
    } shared = {{0}};
    aggen_handle handle = AGGEN_HANDLE_INIT;
    char out[64];
    size_t needed = 77, most = (size_t)PTRDIFF_MAX + 1;
    REQUIRE(build(&handle, grammar) == AGGEN_OK);
    call *calls[] = {aggen_translate, aggen_evaluate, aggen_parse, plan};
    memset(out, '#', sizeof out);
    for (int i = 0; i < 4; i++) {
        call *f = calls[i];
        const char *s = sentence.start;
        size_t n = sentence.length;
        REQUIRE(f(NULL, s, n, out, 64, &needed, message, 64, &refusal) == AGGEN_MISUSE);
        REQUIRE(i == 3 || f(&handle, NULL, 1, out, 64, &needed, message, 64, &refusal) == AGGEN_MISUSE);
        REQUIRE(i == 3 || f(&handle, s, most, out, 64, &needed, message, 64, &refusal) == AGGEN_MISUSE);
        REQUIRE(f(&handle, s, n, NULL, 1, &needed, message, 64, &refusal) == AGGEN_MISUSE);
        REQUIRE(f(&handle, s, n, out, most, &needed, message, 64, &refusal) == AGGEN_MISUSE);
        REQUIRE(f(&handle, s, n, out, 64, NULL, message, 64, &refusal) == AGGEN_MISUSE);
        REQUIRE(f(&handle, s, n, out, 64, &needed, NULL, 1, &refusal) == AGGEN_MISUSE);
        REQUIRE(f(&handle, s, n, out, 64, &needed, message, SIZE_MAX, &refusal) == AGGEN_MISUSE);
        /* ranges at the end of the address space: one that is too long, and one that ends after the last address */
        char *high = (char *)(UINTPTR_MAX / 4), *last = (char *)(UINTPTR_MAX - 10);
        REQUIRE(f(&handle, s, n, high, most, &needed, message, 64, &refusal) == AGGEN_MISUSE);
        REQUIRE(f(&handle, s, n, last, 64, &needed, message, 64, &refusal) == AGGEN_MISUSE);
        /* overlapping arguments */
        REQUIRE(i == 3 || f(&handle, out, 1, out, 64, &needed, message, 64, &refusal) == AGGEN_MISUSE);
        REQUIRE(i == 3 || f(&handle, out + 63, 1, out, 64, &needed, message, 64, &refusal) == AGGEN_MISUSE);
        REQUIRE(i == 3 || f(&handle, s, n, (char *)s + n - 1, 1, &needed, message, 64, &refusal) == AGGEN_MISUSE);
        REQUIRE(i == 3 || f(&handle, &handle, 1, out, 64, &needed, message, 64, &refusal) == AGGEN_MISUSE);
        REQUIRE(f(&handle, s, n, &handle, 1, &needed, message, 64, &refusal) == AGGEN_MISUSE);
        REQUIRE(f(&handle, s, n, &needed, 1, &needed, message, 64, &refusal) == AGGEN_MISUSE);
        REQUIRE(f(&handle, s, n, out, 64, &needed, out + 63, 1, &refusal) == AGGEN_MISUSE);
        REQUIRE(f(&handle, s, n, out, 64, &needed, (char *)&refusal, 1, &refusal) == AGGEN_MISUSE);
        REQUIRE(f(&handle, s, n, out, 64, &shared.length, shared.bytes, 64, &refusal) == AGGEN_MISUSE);
        REQUIRE(f(&handle, s, n, out, 64, &shared.refusal.line, message, 64, &shared.refusal) == AGGEN_MISUSE);
        REQUIRE(f(&shared.handle, s, n, out, 64, &needed, message, 64, &shared.refusal) == AGGEN_MISUSE);
        REQUIRE(needed == 77 && out[0] == '#' && out[63] == '#');
    }
    REQUIRE(aggen_build(NULL, 1, &handle, message, 64, &refusal) == AGGEN_MISUSE);
    REQUIRE(aggen_build(grammar.start, most, &handle, message, 64, &refusal) == AGGEN_MISUSE);
    REQUIRE(aggen_build(grammar.start, grammar.length, NULL, message, 64, &refusal) == AGGEN_MISUSE);
    REQUIRE(aggen_build(grammar.start, grammar.length, &handle, NULL, 1, &refusal) == AGGEN_MISUSE);
    REQUIRE(aggen_build(grammar.start, grammar.length, &handle, grammar.start, 1, &refusal) == AGGEN_MISUSE);
    REQUIRE(aggen_build(grammar.start, grammar.length, &handle, (char *)&handle, 1, &refusal) == AGGEN_MISUSE);
    /* the handle still has its translator, and adjacent ranges don't overlap */
    REQUIRE(aggen_translate(&handle, sentence.start, sentence.length, out, 32, &needed, out + 32, 32, &refusal) == AGGEN_OK);
    /* an empty text may be null: it is never a grammar, but it is a sentence of some grammars */
    REQUIRE(aggen_build(NULL, 0, &handle, NULL, 0, NULL) == AGGEN_GRAMMAR);
    static const char letter[] = "start S; symbol S syn out; S = { $0.out = \"x\"; }";
    REQUIRE(aggen_build(letter, sizeof letter - 1, &handle, NULL, 0, NULL) == AGGEN_OK);
    REQUIRE(aggen_translate(&handle, NULL, 0, NULL, 0, &needed, NULL, 0, NULL) == AGGEN_OK);
    REQUIRE(needed == 1);
    aggen_free(&handle);
}

/* ---- threads */

struct work {
    struct bytes grammar, sentence, text;
    aggen_handle handle;
};

static void *translate_often(void *argument) {
    struct work *work = argument;
    char *out = room_for(work->text.length);
    for (int i = 0; i < 200; i++) {
        size_t needed = 0;
        aggen_refusal found = {0};
        char message[64];
        if (i % 50 == 0) {
            REQUIRE(aggen_build(work->grammar.start, work->grammar.length, &work->handle, message, 64, &found) == AGGEN_OK);
        }
        REQUIRE(aggen_translate(&work->handle, work->sentence.start, work->sentence.length, out, work->text.length, &needed,
                                message, 64, &found) == AGGEN_OK);
        REQUIRE(needed == work->text.length && memcmp(out, work->text.start, needed) == 0);
        REQUIRE(aggen_translate(&work->handle, "\377", 1, out, work->text.length, &needed, message, 64, &found) == AGGEN_SENTENCE);
    }
    free(out);
    return NULL;
}

static void threads(struct bytes grammar, struct bytes sentence) {
    struct work works[4];
    pthread_t running[4];
    aggen_handle first = AGGEN_HANDLE_INIT;
    struct bytes text;
    REQUIRE(build(&first, grammar) == AGGEN_OK);
    REQUIRE(answer(aggen_translate, &first, sentence, &text) == AGGEN_OK);
    for (int i = 0; i < 4; i++) {
        works[i] = (struct work){grammar, sentence, text, AGGEN_HANDLE_INIT};
        /* the first thread continues with a handle that this one has built */
        if (i == 0) {
            works[i].handle = first;
        }
        REQUIRE(pthread_create(&running[i], NULL, translate_often, &works[i]) == 0);
    }
    for (int i = 0; i < 4; i++) {
        REQUIRE(pthread_join(running[i], NULL) == 0);
        aggen_free(&works[i].handle);
    }
    free(text.start);
}

/* ---- each request for memory refused in turn */

#ifdef REFUSE
/* Tests a call with a known result: it returns that, or reports refused memory, and then a second call returns the result. */
static void refuse_in_turn(call *function, aggen_handle *handle, struct bytes input) {
    struct bytes full;
    int right = answer(function, handle, input, &full);
    aggen_refusal fields = refusal;
    char *out = room_for(full.length);
    for (long number = 1;; number++) {
        size_t needed = 0;
        requests_left = number;
        was_refused = 0;
        int status = function(handle, input.start, input.length, out, full.length, &needed, message, sizeof message, &refusal);
        requests_left = 0;
        REQUIRE(status == right || (was_refused && status == AGGEN_NO_MEMORY));
        if (status == right) {
            REQUIRE(needed == full.length && memcmp(out, full.start, needed) == 0);
            REQUIRE(refusal.letter == fields.letter && refusal.index == fields.index && refusal.offset == fields.offset);
        } else {
            REQUIRE(needed == 0 && refusal.letter == 0);
        }
        status = function(handle, input.start, input.length, out, full.length, &needed, message, sizeof message, &refusal);
        REQUIRE(status == right && needed == full.length && memcmp(out, full.start, needed) == 0);
        if (!was_refused) {
            REQUIRE(number > 1);
            break;
        }
    }
    free(out);
    free(full.start);
}

static void refuse_build(struct bytes grammar) {
    aggen_handle handle = AGGEN_HANDLE_INIT;
    int right = build(&handle, grammar);
    for (long number = 1;; number++) {
        requests_left = number;
        was_refused = 0;
        int status = build(&handle, grammar);
        requests_left = 0;
        REQUIRE(status == right || (was_refused && status == AGGEN_NO_MEMORY));
        REQUIRE((status == AGGEN_OK) == (handle.translator != NULL));
        if (!was_refused) {
            REQUIRE(number > 1);
            break;
        }
    }
    aggen_free(&handle);
}

static void memory(struct bytes grammar, struct bytes sentence) {
    aggen_handle handle = AGGEN_HANDLE_INIT;
    struct bytes file, rejected = {(char *)"\1", 1};
    refuse_build(grammar);
    refuse_build(rejected);
    REQUIRE(build(&handle, grammar) == AGGEN_OK);
    REQUIRE(answer(aggen_parse, &handle, sentence, &file) == AGGEN_OK);
    refuse_in_turn(aggen_translate, &handle, sentence);
    refuse_in_turn(aggen_parse, &handle, sentence);
    refuse_in_turn(aggen_evaluate, &handle, file);
    refuse_in_turn(plan, &handle, sentence);
    refuse_in_turn(aggen_translate, &handle, rejected);
    file.length--;
    refuse_in_turn(aggen_evaluate, &handle, file);
    free(file.start);
    aggen_free(&handle);
}
#else
static void memory(struct bytes grammar, struct bytes sentence) {
    (void)grammar;
    (void)sentence;
    (void)was_refused;
}
#endif

static const struct {
    const char *name;
    call *function;
} calls[] = {
    {"run", aggen_translate}, {"plan", plan}, {"evaluate", aggen_evaluate},
};

static const struct {
    const char *name;
    void (*run)(struct bytes, struct bytes);
} tests[] = {
    {"lengths", lengths}, {"many", many}, {"handles", handles}, {"misuse", misuse}, {"threads", threads}, {"memory", memory},
};

int main(int argc, char **argv) {
    if (argc != 4) {
        fprintf(stderr, "library: TEST GRAMMAR SENTENCE\n");
        return 2;
    }
    struct bytes grammar = read_file(argv[2]), sentence = read_file(argv[3]);
    int status = 0, found = 0;
    for (size_t i = 0; i < sizeof calls / sizeof *calls; i++) {
        if (strcmp(argv[1], calls[i].name) == 0) {
            status = run(calls[i].function, grammar, sentence);
            found = 1;
        }
    }
    for (size_t i = 0; i < sizeof tests / sizeof *tests; i++) {
        if (strcmp(argv[1], tests[i].name) == 0 || strcmp(argv[1], "all") == 0) {
            tests[i].run(grammar, sentence);
            found = 1;
        }
    }
    REQUIRE(found);
    free(grammar.start);
    free(sentence.start);
    return status;
}
