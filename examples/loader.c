/* A station's loader in C, on the two entries of include/tehilgam.h. It lets no file through that tehilgam_refusal refuses, puts
 * the PEC behind a write request, and believes a read's reply only where its PEC is right. From the repository's root, on x86-64:
 *
 *     (cd crates/loader && rt lib)
 *     cc -Iinclude -o loader examples/loader.c crates/loader/out/libloader.a
 *     ./loader examples/production.hex
 *
 * Exit status: 0 accepted, 1 refused, 2 no file, or one that cannot be read. docs/NUMBERS.md says what each number means.
 */
#include "tehilgam.h"
#include <stdbool.h>
#include <stdio.h>
#include <string.h>

enum {
    ROOM = 65536 + 1, /* one byte more than a file may have: a longer file is seen to be longer, and refused */
    TO_WRITE = 0xC0,  /* the device's address */
    TO_READ = 0xC1,
    POINT = 0xC7, /* commands: point to a register, and read it */
    DATA = 0xC5,
    LONGEST_REPLY = 6 /* of AD and AE: a count, four bytes and the PEC; of C5: four bytes and the PEC */
};

/* The file's length, or -1 where it cannot be read. */
static long read_file(const char *name, uint8_t *text)
{
    FILE *file = fopen(name, "rb");
    if (!file)
        return -1;
    size_t length = fread(text, 1, ROOM, file);
    bool failed = ferror(file);
    fclose(file);
    return failed ? -1 : (long)length;
}

/* A write's PEC covers C0, the command and the data. It goes behind them; the request's length with it is handed back. */
static size_t seal(uint8_t *request, size_t used)
{
    request[used] = tehilgam_pec(request, used);
    return used + 1;
}

/* A read's PEC covers C0, the command, C1 and the bytes that came before it. */
static bool sound(uint8_t command, const uint8_t *reply, size_t count)
{
    uint8_t covered[3 + LONGEST_REPLY] = {TO_WRITE, command, TO_READ};
    if (count < 1 || count > LONGEST_REPLY)
        return false;
    memcpy(covered + 3, reply, count - 1);
    return tehilgam_pec(covered, 3 + count - 1) == reply[count - 1];
}

static void print_bytes(const char *word, const uint8_t *bytes, size_t count)
{
    printf("%s", word);
    for (size_t i = 0; i < count; i++)
        printf(" %02X", bytes[i]);
}

/* Here the bus would carry the request and bring the reply; these are the counter's of document 01, and one bit of it wrong. */
static void ask_counter(void)
{
    uint8_t request[8] = {TO_WRITE, POINT, 0x35, 0x00};
    static const uint8_t replies[][5] = {{0x1C, 0x00, 0x00, 0x00, 0x6A}, {0x1D, 0x00, 0x00, 0x00, 0x6A}};
    print_bytes("write", request, seal(request, 4));
    printf("\n");
    for (size_t i = 0; i < sizeof replies / sizeof replies[0]; i++) {
        print_bytes("reply", replies[i], sizeof replies[i]);
        printf(sound(DATA, replies[i], sizeof replies[i]) ? " is sound\n" : " is not believed\n");
    }
}

int main(int argc, char **argv)
{
    static uint8_t text[ROOM];
    if (argc != 2) {
        fprintf(stderr, "usage: loader FILE\n");
        return 2;
    }
    long length = read_file(argv[1], text);
    if (length < 0) {
        fprintf(stderr, "loader: %s cannot be read\n", argv[1]);
        return 2;
    }
    uint8_t number = tehilgam_refusal(text, (size_t)length);
    if (number != 0) {
        printf("refused %u\n", number);
        return 1;
    }
    printf("accepted\n");
    ask_counter();
    return 0;
}
