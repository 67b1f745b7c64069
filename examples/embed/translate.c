/* translate GRAMMAR SENTENCE: prints the translation of a sentence by a grammar. Both are files. */
#include <aggen.h>
#include <stdio.h>
#include <stdlib.h>

/* a translation has at most 1 MiB */
static char grammar[1 << 20], sentence[1 << 20], text[1 << 20], message[4096];

/* Reads a file of less than 1 MiB, or ends the program. */
static size_t read_file(const char *path, char *bytes) {
    FILE *file = fopen(path, "rb");
    size_t length = file ? fread(bytes, 1, 1 << 20, file) : 0;
    if (!file || ferror(file) || length == 1 << 20) {
        fprintf(stderr, "%s can't be read\n", path);
        exit(8);
    }
    fclose(file);
    return length;
}

int main(int argc, char **argv) {
    if (argc != 3) return 2;
    aggen_handle handle = AGGEN_HANDLE_INIT;
    size_t length = 0, grammar_length = read_file(argv[1], grammar), sentence_length = read_file(argv[2], sentence);
    /* the last byte of the message stays zero */
    int status = aggen_build(grammar, grammar_length, &handle, message, sizeof message - 1, NULL);
    if (status == AGGEN_OK) {
        status = aggen_translate(&handle, sentence, sentence_length, text, sizeof text, &length,
                                 message, sizeof message - 1, NULL);
    }
    if (status == AGGEN_OK) {
        fwrite(text, 1, length, stdout);
    } else {
        fprintf(stderr, "%s\n", message);
    }
    aggen_free(&handle);
    return status;
}
