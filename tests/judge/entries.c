/* Answers cases on standard input by the two C entries, in one process: a case is the byte 'f' (the refusal number of a file) or
 * 'p' (the PEC), four bytes length, lowest first, and so many bytes; the answer is one byte. 'F' and 'P' ask the same of a null
 * pointer, with length 0. It ends with the input, and with status 1 at a case of another form. */
#include "tehilgam.h"
#include <stdio.h>

enum { ROOM = 1 << 18 };

static uint8_t bytes[ROOM];

/* The entry's answer, or -1 where the case has another form. */
static int answer(uint8_t what, size_t length)
{
    switch (what) {
    case 'f':
        return tehilgam_refusal(bytes, length);
    case 'p':
        return tehilgam_pec(bytes, length);
    case 'F':
        return length == 0 ? tehilgam_refusal(NULL, 0) : -1;
    case 'P':
        return length == 0 ? tehilgam_pec(NULL, 0) : -1;
    default:
        return -1;
    }
}

int main(void)
{
    uint8_t head[5];
    while (fread(head, 1, sizeof head, stdin) == sizeof head) {
        size_t length = head[1] | (size_t)head[2] << 8 | (size_t)head[3] << 16 | (size_t)head[4] << 24;
        if (length > ROOM || fread(bytes, 1, length, stdin) != length)
            return 1;
        int given = answer(head[0], length);
        if (given < 0 || putchar(given) == EOF || fflush(stdout) == EOF)
            return 1;
    }
    return 0;
}
