/* The translator of names.ag, written by hand, as a lower bound of the costs of its tree files:

       names PASSES S DIR

   parses the sentence in the file S, prints its translation, and leaves the last two tree files in that folder as a.agt and
   b.agt, with the bytes of `aggen run --work DIR`. With 2 passes the grammar is names.ag, with 3 the one of `read_again` in
   names.py. A table is spelled once, when it is made. Nodes that pass it on share a pointer to it, and a record is written by
   memcpy. The tree is in memory up to pass 2. Pass 3 reads the file of pass 2 from its end, as `aggen` does, but checks
   nothing. */
#include <fcntl.h>
#include <stdbool.h>
#include <stdint.h>
#include <stdio.h>
#include <stdlib.h>
#include <string.h>
#include <sys/stat.h>
#include <unistd.h>

enum { BLOCK = 1 << 20, MAX_SENTENCE = 1 << 20, MAX_PARTS = 4, MAX_VALUES = 13, HEADER = 6, LENGTH = 4 };
enum { LEVELS = 5, MODULUS = 65521 };

enum production {
    PROGRAM, MORE_USES, NO_USES, USE_NAME, USE_GROUP, MORE_PROCS, NO_PROCS, MORE_DECLS, NO_DECLS, DECL,
    /* `Expr = Both Ors`, and with it the two productions of `Ors`; each of the next levels has three more */
    FIRST_LEVEL, MORE_REST, NO_REST,
    MINUS = FIRST_LEVEL + 3 * LEVELS, PLAIN, NAME_FACTOR, NUMBER_FACTOR, GROUP_FACTOR, PRODUCTIONS
};

/* the levels of expressions, each with the operator between its parts */
enum level { OR, AND, LESS, PLUS, TIMES };
static const char operators[LEVELS] = {'|', '&', '<', '+', '*'};

enum kind { IS_NUMBER, IS_TEXT, IS_LIST, IS_TABLE };

static _Noreturn void fail(const char *why) {
    fprintf(stderr, "names: %s\n", why);
    exit(1);
}

static void *memory(size_t count) {
    void *made = malloc(count);
    if (made == NULL) {
        fail("no memory");
    }
    return made;
}

static uint8_t *put_big_endian(uint8_t *to, uint64_t number, unsigned bytes) {
    while (bytes-- > 0) {
        *to++ = (uint8_t)(number >> 8 * bytes);
    }
    return to;
}

static uint64_t big_endian(const uint8_t *from, unsigned bytes) {
    uint64_t number = 0;
    while (bytes-- > 0) {
        number = number << 8 | *from++;
    }
    return number;
}

/* A length or a count. */
static size_t count_at(const uint8_t *at) {
    return (size_t)at[0] << 24 | (size_t)at[1] << 16 | (size_t)at[2] << 8 | at[3];
}

/* A range of bytes: a word of the sentence, or the spelling of a value */
struct bytes {
    const uint8_t *at;
    size_t count;
};

/* The tree */

/* A node with its parts from left to right, or a token with its word; then the production is that of its class. */
struct node {
    unsigned production;
    bool is_token;
    unsigned parts;
    int64_t count;
    struct bytes word;
    struct node *part[MAX_PARTS];
};

enum class { NAME, NUMBER };

static uint8_t sentence[MAX_SENTENCE + 1];
static const uint8_t *sentence_end;
static struct bytes token;

static bool is_letter(uint8_t byte) {
    return (byte >= 'a' && byte <= 'z') || (byte >= '0' && byte <= '9');
}

static void next_token(void) {
    const uint8_t *at = token.at + token.count;
    while (at < sentence_end && (*at == ' ' || *at == '\n')) {
        at++;
    }
    const uint8_t *end = at;
    while (end < sentence_end && is_letter(*end)) {
        end++;
    }
    token = (struct bytes){at, end > at ? (size_t)(end - at) : at < sentence_end};
}

static bool is_next(const char *word) {
    return token.count == strlen(word) && memcmp(token.at, word, token.count) == 0;
}

static void expect(const char *word) {
    if (!is_next(word)) {
        fail("the sentence is wrong");
    }
    next_token();
}

static struct node *node(unsigned production) {
    struct node *made = memory(sizeof *made);
    *made = (struct node){.production = production};
    return made;
}

static void add(struct node *node, struct node *part) {
    node->part[node->parts++] = part;
}

static struct node *token_node(enum class class) {
    struct node *made = node(class);
    made->is_token = true;
    made->word = token;
    next_token();
    return made;
}

static struct node *parse_level(enum level level);

static struct node *parse_factor(void) {
    struct node *factor;
    if (is_next("(")) {
        next_token();
        factor = node(GROUP_FACTOR);
        add(factor, parse_level(OR));
        expect(")");
    } else if (*token.at >= '0' && *token.at <= '9') {
        factor = node(NUMBER_FACTOR);
        add(factor, token_node(NUMBER));
    } else {
        factor = node(NAME_FACTOR);
        add(factor, token_node(NAME));
    }
    return factor;
}

static struct node *parse_sign(void) {
    bool is_minus = is_next("-");
    struct node *sign = node(is_minus ? MINUS : PLAIN);
    if (is_minus) {
        next_token();
    }
    add(sign, is_minus ? parse_sign() : parse_factor());
    return sign;
}

static struct node *parse_operand(enum level level) {
    return level == TIMES ? parse_sign() : parse_level(level + 1);
}

static struct node *parse_rest(enum level level) {
    if (token.count != 1 || *token.at != (uint8_t)operators[level]) {
        return node(NO_REST + 3 * level);
    }
    struct node *rest = node(MORE_REST + 3 * level);
    next_token();
    add(rest, parse_operand(level));
    if (level != LESS) {
        add(rest, parse_rest(level));
    }
    return rest;
}

static struct node *parse_level(enum level level) {
    struct node *made = node(FIRST_LEVEL + 3 * level);
    add(made, parse_operand(level));
    add(made, parse_rest(level));
    return made;
}

static struct node *parse_decls(void) {
    if (!is_next("let")) {
        return node(NO_DECLS);
    }
    struct node *decls = node(MORE_DECLS), *decl = node(DECL);
    next_token();
    add(decl, token_node(NAME));
    expect("=");
    add(decl, parse_level(OR));
    expect(";");
    add(decls, decl);
    add(decls, parse_decls());
    decls->count = 1 + decls->part[1]->count;
    return decls;
}

static struct node *parse_procs(void) {
    if (!is_next("proc")) {
        return node(NO_PROCS);
    }
    struct node *procs = node(MORE_PROCS);
    next_token();
    add(procs, token_node(NAME));
    expect("{");
    add(procs, parse_decls());
    expect("return");
    add(procs, parse_level(OR));
    expect(";");
    expect("}");
    add(procs, parse_procs());
    procs->count = procs->part[1]->count + 1 + procs->part[3]->count;
    return procs;
}

static struct node *parse_uses(void) {
    if (is_next(";") || is_next("}")) {
        return node(NO_USES);
    }
    struct node *uses = node(MORE_USES), *use;
    if (is_next("{")) {
        next_token();
        use = node(USE_GROUP);
        add(use, parse_uses());
        expect("}");
    } else {
        use = node(USE_NAME);
        add(use, token_node(NAME));
    }
    add(uses, use);
    add(uses, parse_uses());
    return uses;
}

static struct node *parse(const char *path) {
    FILE *file = fopen(path, "rb");
    if (file == NULL) {
        fail("the sentence can't be read");
    }
    sentence_end = sentence + fread(sentence, 1, MAX_SENTENCE, file);
    fclose(file);
    token.at = sentence;
    next_token();
    struct node *program = node(PROGRAM);
    expect("use");
    add(program, parse_uses());
    expect(";");
    add(program, parse_procs());
    if (token.count != 0) {
        fail("the sentence is wrong");
    }
    return program;
}

/* Writing */

/* The file that is written: its buffer, and the length of the current record. */
static struct {
    int descriptor;
    size_t count;
    size_t record;
    uint8_t bytes[BLOCK];
} to;

static void flush(void) {
    for (size_t written = 0; written < to.count;) {
        ssize_t count = write(to.descriptor, to.bytes + written, to.count - written);
        if (count <= 0) {
            fail("a tree file can't be written");
        }
        written += (size_t)count;
    }
    to.count = 0;
}

static void put(const void *bytes, size_t count) {
    const uint8_t *from = bytes;
    to.record += count;
    while (count > BLOCK - to.count) {
        size_t fits = BLOCK - to.count;
        memcpy(to.bytes + to.count, from, fits);
        to.count = BLOCK;
        flush();
        from += fits;
        count -= fits;
    }
    memcpy(to.bytes + to.count, from, count);
    to.count += count;
}

static void put_head(unsigned kind, uint64_t number, unsigned bytes) {
    uint8_t head[9] = {(uint8_t)kind};
    put_big_endian(head + 1, number, bytes);
    put(head, 1 + bytes);
}

static void put_number(int64_t number) {
    put_head(IS_NUMBER, (uint64_t)number, 8);
}

static void put_text(struct bytes text) {
    put_head(IS_TEXT, text.count, LENGTH);
    put(text.at, text.count);
}

static void begin_record(bool is_token, unsigned number) {
    to.record = 0;
    put_head(is_token, number, 2);
}

static void end_record(void) {
    uint8_t length[LENGTH];
    put_big_endian(length, to.record, LENGTH);
    put(length, LENGTH);
}

static void put_token(const struct node *token) {
    begin_record(true, token->production);
    put_text(token->word);
    end_record();
}

static void begin_file(const char *path, unsigned pass) {
    to.descriptor = open(path, O_RDWR | O_CREAT | O_TRUNC, 0666);
    if (to.descriptor < 0) {
        fail("a tree file can't be made");
    }
    put("AGT2", 4);
    uint8_t number[2];
    put_big_endian(number, pass, 2);
    put(number, 2);
}

/* Pass 1: the number of declarations */

static bool has_count(unsigned production) {
    return production >= MORE_PROCS && production <= NO_DECLS;
}

static void run_first_pass(const struct node *node) {
    if (node->is_token) {
        put_token(node);
        return;
    }
    for (unsigned part = node->parts; part-- > 0;) {
        run_first_pass(node->part[part]);
    }
    begin_record(false, node->production);
    if (has_count(node->production)) {
        put_number(node->count);
    }
    for (unsigned part = 0; part < node->parts; part++) {
        const struct node *below = node->part[part];
        if (below->is_token) {
            put_text(below->word);
        } else if (has_count(below->production)) {
            put_number(below->count);
        }
    }
    end_record();
}

/* Tables */

/* The spelling of a table, and the number of its owners. */
struct table {
    size_t owners;
    size_t count;
    uint8_t bytes[];
};

static struct table *share(struct table *table) {
    table->owners++;
    return table;
}

static void drop(struct table *table) {
    if (--table->owners == 0) {
        free(table);
    }
}

static void put_table(const struct table *table) {
    put(table->bytes, table->count);
}

static struct table *new_table(size_t count) {
    struct table *made = memory(sizeof *made + count);
    made->owners = 1;
    made->count = count;
    return made;
}

static struct table *empty_table(void) {
    struct table *made = new_table(1 + LENGTH);
    made->bytes[0] = IS_TABLE;
    put_big_endian(made->bytes + 1, 0, LENGTH);
    return made;
}

/* Returns the end of the value that is spelled here. */
static const uint8_t *end_of_value(const uint8_t *at) {
    unsigned kind = *at++;
    if (kind == IS_NUMBER) {
        return at + 8;
    }
    size_t count = count_at(at);
    at += LENGTH;
    if (kind == IS_TEXT) {
        return at + count;
    }
    for (; count > 0; count--) {
        if (kind == IS_TABLE) {
            at += LENGTH + count_at(at);
        }
        at = end_of_value(at);
    }
    return at;
}

/* Returns the entry of a key, or the first entry after it, and in `found` whether the key is in the table. */
static const uint8_t *entry_of(const struct table *table, struct bytes key, bool *found) {
    const uint8_t *at = table->bytes + 1 + LENGTH, *end = table->bytes + table->count;
    *found = false;
    while (at < end) {
        size_t count = count_at(at);
        int order = memcmp(at + LENGTH, key.at, count < key.count ? count : key.count);
        if (order == 0 && count == key.count) {
            *found = true;
            break;
        }
        if (order > 0 || (order == 0 && count > key.count)) {
            break;
        }
        at = end_of_value(at + LENGTH + count);
    }
    return at;
}

/* Returns the table with one more entry: a key, and a list of a text and a number. */
static struct table *table_with(const struct table *table, struct bytes key, const char *what, int64_t value) {
    bool found;
    const uint8_t *end = table->bytes + table->count, *at = entry_of(table, key, &found);
    const uint8_t *rest = found ? end_of_value(at + LENGTH + key.count) : at;
    size_t length = strlen(what), entry = LENGTH + key.count + 2 * LENGTH + length + 11;
    size_t before = (size_t)(at - table->bytes), after = (size_t)(end - rest);
    struct table *made = new_table(before + entry + after);
    memcpy(made->bytes, table->bytes, before);
    put_big_endian(made->bytes + 1, count_at(table->bytes + 1) + !found, LENGTH);
    uint8_t *next = put_big_endian(made->bytes + before, key.count, LENGTH);
    memcpy(next, key.at, key.count);
    next += key.count;
    *next++ = IS_LIST;
    next = put_big_endian(next, 2, LENGTH);
    *next++ = IS_TEXT;
    next = put_big_endian(next, length, LENGTH);
    memcpy(next, what, length);
    next += length;
    *next++ = IS_NUMBER;
    next = put_big_endian(next, (uint64_t)value, 8);
    memcpy(next, rest, after);
    return made;
}

/* Returns the number of a name in the table, or 0 if it isn't there. */
static int64_t value_in(const struct table *table, struct bytes key, bool *found) {
    const uint8_t *at = entry_of(table, key, found);
    return *found ? (int64_t)big_endian(end_of_value(at + LENGTH + key.count) - 8, 8) : 0;
}

/* Pass 2: the tables and the names found in them. Each function writes the records of a subtree. */

struct results {
    int64_t value;
    int64_t wrong;
};

static void put_results(struct results results) {
    put_number(results.value);
    put_number(results.wrong);
}

static struct results run_level(enum level level, const struct node *node, const struct table *env);

static struct results run_factor(const struct node *factor, const struct table *env) {
    const struct node *part = factor->part[0];
    struct results below = {0, 0}, results = {0, 0};
    bool is_known;
    if (part->is_token) {
        put_token(part);
    } else {
        results = below = run_level(OR, part, env);
    }
    if (factor->production == NAME_FACTOR) {
        results.value = value_in(env, part->word, &is_known);
        results.wrong = !is_known;
    } else if (factor->production == NUMBER_FACTOR) {
        for (size_t at = 0; at < part->word.count; at++) {
            results.value = 10 * results.value + part->word.at[at] - '0';
        }
    }
    begin_record(false, factor->production);
    put_results(results);
    put_table(env);
    if (part->is_token) {
        put_text(part->word);
    } else {
        put_results(below);
    }
    end_record();
    return results;
}

static struct results run_sign(const struct node *sign, const struct table *env) {
    bool is_minus = sign->production == MINUS;
    struct results below = is_minus ? run_sign(sign->part[0], env) : run_factor(sign->part[0], env), results = below;
    if (is_minus) {
        results.value = (MODULUS - below.value) % MODULUS;
    }
    begin_record(false, sign->production);
    put_results(results);
    put_table(env);
    put_results(below);
    end_record();
    return results;
}

static struct results run_operand(enum level level, const struct node *node, const struct table *env) {
    return level == TIMES ? run_sign(node, env) : run_level(level + 1, node, env);
}

static int64_t operate(enum level level, int64_t left, int64_t right) {
    switch (level) {
    case OR:
        return left != 0 ? left : right;
    case AND:
        return left != 0 ? right : 0;
    case LESS:
        return left < right;
    case PLUS:
        return (left + right) % MODULUS;
    default:
        return left * right % MODULUS;
    }
}

static struct results run_rest(enum level level, const struct node *rest, const struct table *env, int64_t left) {
    struct results results = {left, 0}, below[2] = {{0, 0}, {0, 0}};
    if (rest->parts > 0) {
        below[0] = run_operand(level, rest->part[0], env);
        results = (struct results){operate(level, left, below[0].value), below[0].wrong};
    }
    if (rest->parts > 1) {
        below[1] = run_rest(level, rest->part[1], env, results.value);
        results = (struct results){below[1].value, below[0].wrong + below[1].wrong};
    }
    begin_record(false, rest->production);
    put_results(results);
    put_table(env);
    put_number(left);
    for (unsigned part = 0; part < rest->parts; part++) {
        put_results(below[part]);
    }
    end_record();
    return results;
}

static struct results run_level(enum level level, const struct node *node, const struct table *env) {
    struct results first = run_operand(level, node->part[0], env);
    struct results rest = run_rest(level, node->part[1], env, first.value);
    struct results results = {rest.value, first.wrong + rest.wrong};
    begin_record(false, node->production);
    put_results(results);
    put_table(env);
    put_results(first);
    put_results(rest);
    end_record();
    return results;
}

/* Returns the table after the declaration, which the caller drops, and in `wrong` the number of unknown names. */
static struct table *run_decl(const struct node *decl, const struct table *env, int64_t *wrong) {
    struct bytes name = decl->part[0]->word;
    put_token(decl->part[0]);
    struct results results = run_level(OR, decl->part[1], env);
    struct table *after = table_with(env, name, "constant", results.value);
    *wrong = results.wrong;
    begin_record(false, DECL);
    put_table(after);
    put_number(*wrong);
    put_table(env);
    put_text(name);
    put_results(results);
    end_record();
    return after;
}

static struct table *run_decls(const struct node *decls, struct table *env, int64_t *wrong) {
    struct table *after_first = NULL, *after;
    int64_t in_first = 0, in_rest = 0;
    if (decls->parts > 0) {
        after_first = run_decl(decls->part[0], env, &in_first);
        after = run_decls(decls->part[1], after_first, &in_rest);
    } else {
        after = share(env);
    }
    *wrong = in_first + in_rest;
    begin_record(false, decls->production);
    put_number(decls->count);
    put_table(after);
    put_number(*wrong);
    put_table(env);
    if (decls->parts > 0) {
        put_table(after_first);
        put_number(in_first);
        put_number(decls->part[1]->count);
        put_table(after);
        put_number(in_rest);
        drop(after_first);
    }
    end_record();
    return after;
}

/* Returns the sum of the procedures, and the number of their unknown names. */
static struct results run_procs(const struct node *procs, struct table *env) {
    struct results value = {0, 0}, rest = {0, 0}, results = {0, 0};
    struct table *after = NULL;
    int64_t wrong = 0;
    if (procs->parts > 0) {
        struct bytes name = procs->part[0]->word;
        put_token(procs->part[0]);
        after = run_decls(procs->part[1], env, &wrong);
        value = run_level(OR, procs->part[2], after);
        struct table *next = table_with(env, name, "procedure", value.value);
        rest = run_procs(procs->part[3], next);
        drop(next);
        results = (struct results){(value.value + rest.value) % MODULUS, wrong + value.wrong + rest.wrong};
    }
    begin_record(false, procs->production);
    put_number(procs->count);
    put_results(results);
    put_table(env);
    if (procs->parts > 0) {
        put_text(procs->part[0]->word);
        put_number(procs->part[1]->count);
        put_table(after);
        put_number(wrong);
        put_results(value);
        put_number(procs->part[3]->count);
        put_results(rest);
        drop(after);
    }
    end_record();
    return results;
}

/* Returns the table after the imports, which the caller drops. */
static struct table *run_uses(const struct node *uses, struct table *env) {
    struct table *after_first = NULL, *after;
    if (uses->parts > 0) {
        const struct node *use = uses->part[0], *below = use->part[0];
        if (below->is_token) {
            put_token(below);
            after_first = table_with(env, below->word, "imported", (int64_t)below->word.count);
        } else {
            after_first = run_uses(below, env);
        }
        begin_record(false, use->production);
        put_table(after_first);
        put_table(env);
        if (below->is_token) {
            put_text(below->word);
        } else {
            put_table(after_first);
        }
        end_record();
        after = run_uses(uses->part[1], after_first);
    } else {
        after = share(env);
    }
    begin_record(false, uses->production);
    put_table(after);
    put_table(env);
    if (uses->parts > 0) {
        put_table(after_first);
        put_table(after);
        drop(after_first);
    }
    end_record();
    return after;
}

/* Returns the translation. `late` is the result of pass 3, or negative without that pass. */
static char translation[200];

static struct bytes translate(int64_t count, int64_t sum, int64_t wrong, int64_t late) {
    int length = snprintf(translation, sizeof translation, "%lld declarations, sum %lld, %lld names are unknown",
                          (long long)count, (long long)sum, (long long)wrong);
    if (late >= 0) {
        length += sprintf(translation + length, ", late %lld", (long long)late);
    }
    return (struct bytes){(const uint8_t *)translation, (size_t)length};
}

static void run_second_pass(const struct node *program, bool is_last) {
    struct table *env = empty_table(), *after = run_uses(program->part[0], env);
    const struct node *procs = program->part[1];
    struct results results = run_procs(procs, after);
    begin_record(false, PROGRAM);
    if (is_last) {
        put_text(translate(procs->count, results.value, results.wrong, -1));
    }
    put_table(after);
    put_number(procs->count);
    put_results(results);
    end_record();
    drop(after);
    drop(env);
}

/* Pass 3: reads the file of pass 2 from its end, and writes it again with a few more numbers */

/* The file that is read. `bytes[from..]` are the bytes before the offset `at`. */
static struct {
    int descriptor;
    size_t at;
    size_t from;
    size_t room;
    uint8_t *bytes;
} input;

/* Takes `count` bytes, backward from those that were taken before. */
static const uint8_t *take_bytes(size_t count) {
    static size_t held;
    if (held < count) {
        if (input.room < 2 * count + BLOCK) {
            size_t room = 2 * count + BLOCK;
            uint8_t *bytes = memory(room);
            if (held > 0) {
                memcpy(bytes + room - held, input.bytes + input.from, held);
            }
            free(input.bytes);
            input.bytes = bytes;
            input.room = room;
        } else {
            memmove(input.bytes + input.room - held, input.bytes + input.from, held);
        }
        size_t most = input.room - held, ahead = input.at - held;
        size_t more = ahead < most ? ahead : most;
        input.from = input.room - held - more;
        for (size_t done = 0; done < more;) {
            ssize_t got = pread(input.descriptor, input.bytes + input.from + done, more - done, (off_t)(ahead - more + done));
            if (got <= 0) {
                fail("a tree file can't be read");
            }
            done += (size_t)got;
        }
        held += more;
    }
    held -= count;
    input.at -= count;
    return input.bytes + input.from + held;
}

/* Returns the number of parts of a production, including tokens. */
static unsigned parts_of(unsigned production) {
    static const uint8_t few[FIRST_LEVEL] = {
        [PROGRAM] = 2, [MORE_USES] = 2, [USE_NAME] = 1, [USE_GROUP] = 1, [MORE_PROCS] = 4, [MORE_DECLS] = 2, [DECL] = 2,
    };
    if (production < FIRST_LEVEL) {
        return few[production];
    }
    if (production >= MINUS || production == MORE_REST + 3 * LESS) {
        return 1;
    }
    return (production - FIRST_LEVEL) % 3 == NO_REST - FIRST_LEVEL ? 0 : 2;
}

static void put_values(const struct bytes *values, unsigned first, unsigned end) {
    put(values[first].at, (size_t)(values[end - 1].at + values[end - 1].count - values[first].at));
}

static int64_t number_in(struct bytes value) {
    return (int64_t)big_endian(value.at + 1, 8);
}

/* Runs the pass over a subtree, from right to left. `rest` is that attribute of its root, if it has one. Returns the `late` of
   its root, or 0. */
static int64_t run_third_pass(int64_t rest) {
    size_t count = count_at(take_bytes(LENGTH));
    uint8_t *body = memory(count);
    memcpy(body, take_bytes(count), count);
    unsigned production = (unsigned)big_endian(body + 1, 2);
    int64_t late = 0, first = 0, second = 0;
    struct bytes values[MAX_VALUES];
    bool is_node = body[0] == 0;
    if (is_node && (production <= PROGRAM || (production >= MORE_PROCS && production <= DECL))) {
        const uint8_t *at = body + 3;
        for (unsigned value = 0; at < body + count; value++) {
            values[value] = (struct bytes){at, (size_t)(end_of_value(at) - at)};
            at += values[value].count;
        }
    }
    switch (is_node ? production : PRODUCTIONS) {
    case PROGRAM:
        late = run_third_pass(0);
        run_third_pass(0);
        begin_record(false, PROGRAM);
        put_text(translate(number_in(values[1]), number_in(values[2]), number_in(values[3]), late));
        put_values(values, 0, 4);
        put_number(late);
        break;
    case MORE_PROCS:
        second = run_third_pass(0);
        run_third_pass(0);
        first = run_third_pass(number_in(values[11]));
        run_third_pass(0);
        late = (first + second) % MODULUS;
        begin_record(false, production);
        put_values(values, 0, 3);
        put_number(late);
        put_values(values, 3, 8);
        put_number(first);
        put_values(values, 8, 13);
        put_number(second);
        break;
    case NO_PROCS:
        begin_record(false, production);
        put_values(values, 0, 3);
        put_number(late);
        put_values(values, 3, 4);
        break;
    case MORE_DECLS:
        second = run_third_pass(rest);
        first = run_third_pass(rest);
        late = (first + second) % MODULUS;
        begin_record(false, production);
        put_values(values, 0, 3);
        put_number(late);
        put_values(values, 3, 4);
        put_number(rest);
        put_values(values, 4, 6);
        put_number(first);
        put_values(values, 6, 9);
        put_number(second);
        break;
    case NO_DECLS:
        begin_record(false, production);
        put_values(values, 0, 3);
        put_number(late);
        put_values(values, 3, 4);
        put_number(rest);
        break;
    case DECL:
        run_third_pass(0);
        run_third_pass(0);
        late = (number_in(values[4]) + rest) % MODULUS;
        begin_record(false, production);
        put_values(values, 0, 2);
        put_number(late);
        put_values(values, 2, 3);
        put_number(rest);
        put_values(values, 3, 6);
        break;
    default:
        for (unsigned part = is_node ? parts_of(production) : 0; part > 0; part--) {
            run_third_pass(0);
        }
        to.record = 0;
        put(body, count);
    }
    end_record();
    free(body);
    return late;
}

int main(int argc, char **argv) {
    bool is_three = argc == 4 && strcmp(argv[1], "3") == 0;
    if (argc != 4 || (!is_three && strcmp(argv[1], "2") != 0)) {
        fail("say 2 or 3 passes, a sentence, and a folder");
    }
    char path[2][4096];
    for (unsigned file = 0; file < 2; file++) {
        snprintf(path[file], sizeof path[file], "%s/%c.agt", argv[3], 'a' + (int)file);
    }
    const struct node *program = parse(argv[2]);
    begin_file(path[1], 1);
    run_first_pass(program);
    flush();
    close(to.descriptor);
    begin_file(path[0], 2);
    run_second_pass(program, !is_three);
    flush();
    if (is_three) {
        input.descriptor = to.descriptor;
        input.at = (size_t)lseek(to.descriptor, 0, SEEK_END);
        begin_file(path[1], 3);
        run_third_pass(0);
        flush();
    }
    printf("%s", translation);
    return 0;
}
