/* The programs in C and C++ that are compared share this. */
#include <stddef.h>
#include <stdint.h>
#include <stdio.h>
#include <stdlib.h>

/* Reads standard input whole. Returns NULL if there is no memory. */
static uint8_t *input(size_t *size) {
    size_t room = 1 << 20;
    uint8_t *bytes = (uint8_t *)malloc(room);
    *size = 0;
    while (bytes) {
        size_t count = fread(bytes + *size, 1, room - *size, stdin);
        *size += count;
        if (count == 0)
            return bytes;
        if (*size == room)
            bytes = (uint8_t *)realloc(bytes, room *= 2);
    }
    return NULL;
}
