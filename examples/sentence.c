/*
 * Prints the shortest sentence that brings a parser to a state with a lookahead:
 *
 *   cc examples/sentence.c -Iinclude target/staticlib/libpurlquartz.a -o target/sentence
 *   target/sentence books/bracket.book 5 0
 *
 * prints `2 1 3`.
 */
#include <stdio.h>
#include <stdlib.h>
#include <string.h>

#include "purlquartz.h"

static int refused(const uint64_t answer[8])
{
    if (answer[0] != PURLQUARTZ_REFUSED) {
        return 0;
    }
    printf("refused %llu place %llu\n", (unsigned long long)answer[1],
           (unsigned long long)answer[2]);
    return 1;
}

/* The bytes of a file, one more than a book can have at most; a longer file is refused. */
static size_t read_file(const char *name, uint8_t *bytes, size_t most)
{
    FILE *file = fopen(name, "rb");
    if (file == NULL) {
        perror(name);
        exit(2);
    }
    size_t count = fread(bytes, 1, most, file);
    if (ferror(file)) {
        perror(name);
        exit(2);
    }
    fclose(file);
    return count;
}

/* A number below 65,536, in digits alone. */
static uint16_t number(const char *text)
{
    unsigned long value = 0;
    size_t digits = strspn(text, "0123456789");
    for (size_t at = 0; at < digits && value <= 65535; at++) {
        value = 10 * value + (unsigned long)(text[at] - '0');
    }
    if (digits == 0 || text[digits] != 0 || value > 65535) {
        fprintf(stderr, "not a number below 65536: %s\n", text);
        exit(2);
    }
    return (uint16_t)value;
}

static void print_found(const uint64_t answer[8], const uint8_t *sentence)
{
    if (answer[0] == PURLQUARTZ_FOUND_UNREACHED) {
        puts("unreached");
        return;
    }
    if (answer[0] == PURLQUARTZ_FOUND_LONG) {
        puts("long");
        return;
    }
    for (size_t at = 0; at < answer[1]; at++) {
        printf(at == 0 ? "%u" : " %u", sentence[at]);
    }
    puts("");
}

/* Lends as many work cells as the book needs. */
static int find(const uint16_t *cells, size_t count, uint16_t state, uint16_t lookahead)
{
    uint64_t answer[8];
    purlquartz_check(cells, count, answer);
    if (refused(answer)) {
        return 1;
    }
    size_t work_count = PURLQUARTZ_WORK_CELLS(answer[1], answer[2], answer[3]);
    uint16_t *work = calloc(work_count, sizeof *work);
    if (work == NULL) {
        perror("work cells");
        return 2;
    }
    uint8_t sentence[PURLQUARTZ_SENTENCE_BYTES];
    purlquartz_find(cells, count, state, lookahead, work, work_count, sentence, sizeof sentence,
                    answer);
    free(work);
    if (refused(answer)) {
        return 1;
    }
    print_found(answer, sentence);
    return 0;
}

int main(int argc, char **argv)
{
    static uint8_t bytes[PURLQUARTZ_MOST_BYTES + 1];
    static uint16_t cells[PURLQUARTZ_MOST_CELLS];
    if (argc != 4) {
        fprintf(stderr, "usage: %s FILE STATE LOOKAHEAD\n", argv[0]);
        return 2;
    }
    uint16_t state = number(argv[2]);
    uint16_t lookahead = number(argv[3]);
    size_t byte_count = read_file(argv[1], bytes, sizeof bytes);
    uint64_t answer[8];
    purlquartz_read(bytes, byte_count, cells, PURLQUARTZ_MOST_CELLS, answer);
    if (refused(answer)) {
        return 1;
    }
    return find(cells, answer[1], state, lookahead);
}
