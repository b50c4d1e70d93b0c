/* The peer of bench/output.py: so many bytes to standard output, one write a byte (`each`) or through stdio (`stdio`). */
#include <stdio.h>
#include <stdlib.h>
#include <string.h>
#include <unistd.h>

int main(int argc, char **argv) {
    long count = argc > 2 ? atol(argv[2]) : 1000000;
    char byte = 'x';
    if (argc > 1 && strcmp(argv[1], "each") == 0) {
        for (long i = 0; i < count; i++) {
            if (write(1, &byte, 1) != 1) {
                return 1;
            }
        }
    } else {
        for (long i = 0; i < count; i++) {
            putchar(byte);
        }
    }
    return 0;
}
