#include "tree_file.h"

#include <fcntl.h>
#include <stdarg.h>
#include <stdio.h>
#include <stdlib.h>
#include <string.h>
#include <sys/stat.h>
#include <unistd.h>

enum { HEADER = 6, LENGTH = 4, LEAST_BODY = 3, NUMBER = 9, TEXT = 5 };

/* the first bytes of the spellings of values, and of a node's body */
enum { IS_NUMBER = 0, IS_TEXT = 1, IS_NODE = 0 };

_Noreturn void refuse(int status, const char *message, ...) {
    va_list words;
    va_start(words, message);
    vfprintf(stderr, message, words);
    va_end(words);
    fputc('\n', stderr);
    exit(status);
}

static uint8_t *put_big_endian(uint8_t *to, uint64_t number, unsigned bytes) {
    while (bytes-- > 0) {
        *to++ = (uint8_t)(number >> 8 * bytes);
    }
    return to;
}

static uint64_t big_endian(const uint8_t *from, unsigned bytes) {
    uint64_t number = 0;
    while (bytes-- > 0) {
        number = number << 8 | *from++;
    }
    return number;
}

/* Files */

static uint8_t *memory_for(uint8_t *bytes, size_t count) {
    bytes = realloc(bytes, count);
    if (bytes == NULL) {
        refuse(7, "no memory");
    }
    return bytes;
}

struct file file_in_memory(void) {
    return (struct file){.descriptor = -1};
}

static struct file file_on_disk(const char *path, int flags) {
    int descriptor = open(path, flags, 0666);
    if (descriptor < 0) {
        refuse(8, "the file can't be opened or made: %s", path);
    }
    return (struct file){descriptor, memory_for(NULL, BLOCK), 0, BLOCK, 0};
}

struct file file_made(const char *path) {
    return file_on_disk(path, O_RDWR | O_APPEND | O_CREAT | O_TRUNC);
}

struct file file_opened(const char *path) {
    return file_on_disk(path, O_RDONLY);
}

/* Writes the buffered bytes. */
static void finish(struct file *file) {
    if (file->descriptor < 0) {
        return;
    }
    for (size_t written = 0; written < file->count;) {
        ssize_t count = write(file->descriptor, file->bytes + written, file->count - written);
        if (count <= 0) {
            refuse(8, "a file can't be written");
        }
        written += (size_t)count;
    }
    file->count = 0;
}

void close_file(struct file *file) {
    finish(file);
    if (file->descriptor >= 0 && close(file->descriptor) != 0) {
        refuse(8, "a file can't be written");
    }
    free(file->bytes);
}

/* Makes room for `count` bytes, at most a block. */
static void make_room(struct file *file, size_t count) {
    if (file->room - file->count >= count) {
        return;
    }
    if (file->descriptor < 0) {
        file->room = file->room == 0 ? BLOCK : 2 * file->room;
        file->bytes = memory_for(file->bytes, file->room);
    } else {
        finish(file);
    }
}

static uint64_t length_of(struct file *file) {
    struct stat facts;
    if (file->descriptor < 0) {
        return file->count;
    }
    finish(file);
    if (fstat(file->descriptor, &facts) != 0) {
        refuse(8, "a file can't be read");
    }
    return (uint64_t)facts.st_size;
}

static void read_at(const struct file *file, uint64_t at, uint8_t *to, size_t count) {
    if (file->descriptor < 0) {
        memcpy(to, file->bytes + at, count);
        return;
    }
    while (count > 0) {
        ssize_t got = pread(file->descriptor, to, count, (off_t)at);
        if (got <= 0) {
            refuse(8, "a file can't be read");
        }
        to += got;
        at += (uint64_t)got;
        count -= (size_t)got;
    }
}

/* Writing */

void begin_file(struct file *file, unsigned pass) {
    file->count = 0;
    if (file->descriptor >= 0 && ftruncate(file->descriptor, 0) != 0) {
        refuse(8, "a file can't be cut");
    }
    make_room(file, HEADER);
    memcpy(file->bytes, "AGT2", 4);
    put_big_endian(file->bytes + 4, pass, 2);
    file->count = HEADER;
}

void begin_record(struct file *file, unsigned production) {
    make_room(file, MAX_RECORD);
    file->record = file->count;
    file->bytes[file->count] = IS_NODE;
    put_big_endian(file->bytes + file->count + 1, production, 2);
    file->count += LEAST_BODY;
}

void put_number(struct file *file, int64_t number) {
    file->bytes[file->count] = IS_NUMBER;
    put_big_endian(file->bytes + file->count + 1, (uint64_t)number, 8);
    file->count += NUMBER;
}

void put_text(struct file *file, const struct text *text) {
    uint8_t *to = file->bytes + file->count;
    *to++ = IS_TEXT;
    to = put_big_endian(to, text->length, 4);
    memcpy(to, text->bytes, text->length);
    file->count += TEXT + text->length;
}

void end_record(struct file *file) {
    put_big_endian(file->bytes + file->count, file->count - file->record, LENGTH);
    file->count += LENGTH;
}

void put_bare(struct file *file, unsigned production) {
    begin_record(file, production);
    end_record(file);
}

/* Reading */

_Noreturn void damaged(const struct reader *reader) {
    refuse(OF_FILE, "R1 at %llu: expected the end of another record", (unsigned long long)reader->end);
}

void start_reading(struct reader *reader, struct file *file, unsigned pass) {
    uint8_t header[HEADER];
    reader->file = file;
    reader->at = length_of(file);
    reader->from = reader->to = BLOCK;
    reader->end = 0;
    if (reader->at < HEADER) {
        damaged(reader);
    }
    read_at(file, 0, header, HEADER);
    if (memcmp(header, "AGT2", 4) != 0) {
        damaged(reader);
    }
    reader->end = 4;
    if (big_endian(header + 4, 2) != pass) {
        damaged(reader);
    }
}

/* Fills the block with the bytes before those that it has. */
static void read_block(struct reader *reader) {
    size_t held = reader->to - reader->from;
    uint64_t ahead = reader->at - HEADER - held;
    size_t count = BLOCK - held;
    if (ahead < count) {
        count = (size_t)ahead;
    }
    memmove(reader->bytes + BLOCK - held, reader->bytes + reader->from, held);
    reader->to = BLOCK;
    reader->from = BLOCK - held - count;
    read_at(reader->file, reader->at - held - count, reader->bytes + reader->from, count);
}

/* Takes the next frame backward. Returns its body, and the length of the body in `length`. */
static const uint8_t *take_body(struct reader *reader, size_t *length) {
    reader->end = reader->at;
    if (reader->at < HEADER + LENGTH) {
        damaged(reader);
    }
    if (reader->to - reader->from < LENGTH) {
        read_block(reader);
    }
    *length = big_endian(reader->bytes + reader->to - LENGTH, LENGTH);
    if (*length < LEAST_BODY || *length > BLOCK - LENGTH || *length > reader->at - HEADER - LENGTH) {
        damaged(reader);
    }
    if (reader->to - reader->from < *length + LENGTH) {
        read_block(reader);
    }
    reader->to -= *length + LENGTH;
    reader->at -= *length + LENGTH;
    return reader->bytes + reader->to;
}

unsigned take_record(struct reader *reader) {
    size_t length;
    const uint8_t *body = take_body(reader, &length);
    if (body[0] != IS_NODE) {
        damaged(reader);
    }
    reader->value = body + LEAST_BODY;
    reader->last = body + length;
    return (unsigned)big_endian(body + 1, 2);
}

int64_t take_number(struct reader *reader) {
    const uint8_t *value = reader->value;
    if (reader->last - value < NUMBER || value[0] != IS_NUMBER) {
        damaged(reader);
    }
    reader->value += NUMBER;
    return (int64_t)big_endian(value + 1, 8);
}

void take_text(struct reader *reader, struct text *text) {
    const uint8_t *value = reader->value;
    if (reader->last - value < TEXT || value[0] != IS_TEXT) {
        damaged(reader);
    }
    value += TEXT;
    text->length = big_endian(value - 4, 4);
    if (text->length > MAX_TEXT || text->length > (size_t)(reader->last - value)) {
        damaged(reader);
    }
    for (size_t i = 0; i < text->length; i++) {
        text->bytes[i] = (char)value[i];
        if (text->bytes[i] < '0' || text->bytes[i] > '9') {
            damaged(reader);
        }
    }
    reader->value = value + text->length;
}

void end_values(const struct reader *reader) {
    if (reader->value != reader->last) {
        damaged(reader);
    }
}

void end_reading(struct reader *reader) {
    if (reader->at != HEADER) {
        reader->end = reader->at;
        damaged(reader);
    }
}
