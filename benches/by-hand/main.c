/* Two translators written by hand, to compare them with those that `aggen` makes of the same grammars: `lists` is that of
   examples/lists-in-groups.ag, and `flat` that of flat.ag in this folder.

       by-hand GRAMMAR parse S TREE    parses the sentence in the file S, and writes its tree file to TREE
       by-hand GRAMMAR eval TREE       runs the passes over the tree in TREE, and prints the root's text
       by-hand GRAMMAR run S DIR       does both, and leaves the last two tree files in that folder as a.agt and b.agt

   They do what `aggen parse`, `aggen eval` and `aggen run --work DIR` do, and write the same bytes. */
#include "translator.h"

#include <stdbool.h>
#include <stdio.h>
#include <stdlib.h>
#include <string.h>

enum { MAX_SENTENCE = 1048576, MAX_PATH = 4096 };

static bool is_separator(uint8_t letter) {
    return letter == ' ' || letter == '\t' || letter == '\r' || letter == '\n';
}

void next_token(struct scanner *scanner) {
    while (scanner->at < scanner->end && is_separator(*scanner->at)) {
        scanner->at++;
    }
    scanner->token_at = scanner->at;
    if (scanner->at == scanner->end) {
        scanner->token = NO_TOKEN;
        return;
    }
    char letter = (char)*scanner->at;
    if (letter != scanner->letters[0] && letter != scanner->letters[1] && letter != scanner->letters[2]) {
        refuse(OF_SENTENCE, "S2 at %td: no token begins here", scanner->at - scanner->begin);
    }
    scanner->token = letter;
    scanner->at++;
}

_Noreturn void unexpected(const struct scanner *scanner) {
    refuse(OF_SENTENCE, "P1 at %td: unexpected token", scanner->token_at - scanner->begin);
}

void expect(struct scanner *scanner, char letter) {
    if (scanner->token != letter) {
        unexpected(scanner);
    }
    next_token(scanner);
}

void count_node(unsigned *nodes, unsigned level, int status) {
    if (level > MAX_LEVELS) {
        refuse(status, "P2 no tree of at most 65,536 levels");
    }
    if (*nodes == MAX_NODES) {
        refuse(status, "P3 no tree of at most 1,048,576 nodes");
    }
    ++*nodes;
}

/* Parses the sentence in a file, and writes its tree. Returns the number of nodes. */
static unsigned parse(const struct translator *translator, const char *path, struct file *to) {
    static uint8_t sentence[MAX_SENTENCE + 1];
    FILE *file = fopen(path, "rb");
    if (file == NULL) {
        refuse(8, "the file can't be opened: %s", path);
    }
    size_t count = fread(sentence, 1, sizeof sentence, file);
    if (ferror(file) || fclose(file) != 0) {
        refuse(8, "the file can't be read: %s", path);
    }
    if (count > MAX_SENTENCE) {
        refuse(OF_SENTENCE, "S4 the sentence has more than 1,048,576 bytes");
    }
    struct scanner scanner = {.begin = sentence, .at = sentence, .end = sentence + count, .to = to};
    memcpy(scanner.letters, translator->letters, LETTER_COUNT);
    next_token(&scanner);
    begin_file(to, 0);
    translator->parse(&scanner);
    return scanner.nodes;
}

/* Runs all passes: the first one from `tree` to `next`, the second one from `next` to `other`, the third one back, and so on.
   Prints the root's text, which is in the last record of the last file. */
static void evaluate(const struct translator *translator, struct file *tree, struct file *next, struct file *other) {
    static struct reader reader;
    struct file *from = tree, *to = next;
    for (unsigned pass = 1; pass <= translator->passes; pass++) {
        start_reading(&reader, from, pass - 1);
        begin_file(to, pass);
        translator->run_pass(pass, &reader, to);
        end_reading(&reader);
        from = to;
        to = to == next ? other : next;
    }
    struct text out;
    start_reading(&reader, from, translator->passes);
    translator->take_root(&reader, &out);
    if (fwrite(out.bytes, 1, out.length, stdout) != out.length || fflush(stdout) != 0) {
        refuse(8, "O2 the output could not be written completely");
    }
}

/* Makes the file of this name in a folder. */
static struct file file_in(const char *folder, const char *name) {
    char path[MAX_PATH];
    if (snprintf(path, sizeof path, "%s/%s", folder, name) >= MAX_PATH) {
        refuse(8, "the name is too long: %s", folder);
    }
    return file_made(path);
}

int main(int count, char **words) {
    const struct translator *translator = NULL;
    if (count > 3) {
        translator = strcmp(words[1], lists.name) == 0 ? &lists : strcmp(words[1], flat.name) == 0 ? &flat : NULL;
    }
    if (translator != NULL && count == 5 && strcmp(words[2], "parse") == 0) {
        struct file tree = file_made(words[4]);
        printf("%u nodes\n", parse(translator, words[3], &tree));
        close_file(&tree);
        return 0;
    }
    if (translator != NULL && count == 4 && strcmp(words[2], "eval") == 0) {
        struct file tree = file_opened(words[3]), a = file_in_memory(), b = file_in_memory();
        evaluate(translator, &tree, &b, &a);
        close_file(&tree);
        close_file(&a);
        close_file(&b);
        return 0;
    }
    if (translator != NULL && count == 5 && strcmp(words[2], "run") == 0) {
        struct file a = file_in(words[4], "a.agt"), b = file_in(words[4], "b.agt");
        parse(translator, words[3], &a);
        evaluate(translator, &a, &b, &a);
        close_file(&a);
        close_file(&b);
        return 0;
    }
    refuse(2, "by-hand lists|flat parse S TREE, eval TREE or run S DIR");
}
