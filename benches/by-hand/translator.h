/* The translator of a grammar: its parser and its passes. */
#ifndef TRANSLATOR_H
#define TRANSLATOR_H

#include "tree_file.h"

/* The number of tokens of a grammar; each is one letter. */
enum { LETTER_COUNT = 3, NO_TOKEN = 0 };

/* A sentence that is split into tokens, and the file of its tree. */
struct scanner {
    const uint8_t *begin;
    const uint8_t *at;
    const uint8_t *end;
    char letters[LETTER_COUNT];
    /* the start of the next token, and its letter; NO_TOKEN at the end */
    const uint8_t *token_at;
    char token;
    unsigned nodes;
    struct file *to;
};

/* Moves to the next token. */
void next_token(struct scanner *scanner);

/* Rejects the next token. */
_Noreturn void unexpected(const struct scanner *scanner);

/* Rejects the next token unless it is this letter, and moves to the one after it. */
void expect(struct scanner *scanner, char letter);

/* Counts a node on a level, from 1 for the root. Rejects a tree that is too large, with this status. */
void count_node(unsigned *nodes, unsigned level, int status);

struct translator {
    const char *name;
    /* the letters that are tokens */
    char letters[LETTER_COUNT];
    unsigned passes;
    void (*parse)(struct scanner *scanner);
    void (*run_pass)(unsigned pass, struct reader *from, struct file *to);
    /* takes the root's record of the last file, and returns its text in `out` */
    void (*take_root)(struct reader *from, struct text *out);
};

extern const struct translator lists;
extern const struct translator flat;

#endif
