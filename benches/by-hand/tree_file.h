/* Tree files, by docs/FORMATS.md. They are written forward, and read backward from their end in blocks of 64 KiB. */
#ifndef TREE_FILE_H
#define TREE_FILE_H

#include <stddef.h>
#include <stdint.h>

enum {
    MAX_LEVELS = 65536,
    MAX_NODES = 1048576,
    BLOCK = 65536,
    /* the length of a number with its sign */
    MAX_TEXT = 20,
    /* the most bytes of a record of these grammars, with its length */
    MAX_RECORD = 256
};

/* A text of these grammars: empty, or the digits of a number. */
struct text {
    size_t length;
    /* with room for a 0 after them */
    char bytes[MAX_TEXT + 1];
};

/* A file on disk or in memory. `bytes` is the buffer of the appended bytes, up to a block, or the whole file if it is in memory.
   `record` is the offset in `bytes` of the record that was begun last. */
struct file {
    int descriptor;
    uint8_t *bytes;
    size_t count;
    size_t room;
    size_t record;
};

/* A tree file that is read from its end. `bytes[from..to]` are the bytes of the file before the offset `at`. The record that was
   taken last ends at the offset `end`; its values from `value` to `last` are not taken yet. */
struct reader {
    struct file *file;
    uint64_t at;
    uint64_t end;
    size_t from;
    size_t to;
    const uint8_t *value;
    const uint8_t *last;
    uint8_t bytes[BLOCK];
};

/* The exit statuses for a rejected sentence and a rejected tree file. */
enum { OF_SENTENCE = 4, OF_FILE = 5 };

/* Prints a message on standard error, and exits with this status. */
_Noreturn void refuse(int status, const char *message, ...);

/* Return a file in memory; a new or emptied file on disk; and a file on disk that is only read. */
struct file file_in_memory(void);
struct file file_made(const char *path);
struct file file_opened(const char *path);

/* Writes the buffered bytes, and closes the file. */
void close_file(struct file *file);

/* Replaces the file by the header of this pass. */
void begin_file(struct file *file, unsigned pass);

/* Append the record of a node: its beginning, its own values, the copies of its children's values, and its end. */
void begin_record(struct file *file, unsigned production);
void put_number(struct file *file, int64_t number);
void put_text(struct file *file, const struct text *text);
void end_record(struct file *file);

/* Appends the record of a node without values. */
void put_bare(struct file *file, unsigned production);

/* Begins to read a file, which must be that of this pass. */
void start_reading(struct reader *reader, struct file *file, unsigned pass);

/* Read the next record backward, which must be a node's. `take_record` returns the number of its production; then its values are
   taken one by one, and `end_values` checks that none is left. */
unsigned take_record(struct reader *reader);
int64_t take_number(struct reader *reader);
void take_text(struct reader *reader, struct text *text);
void end_values(const struct reader *reader);

/* Reject the record that was taken last, and a file in which records are left. */
_Noreturn void damaged(const struct reader *reader);
void end_reading(struct reader *reader);

#endif
