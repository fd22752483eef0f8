/* Compares the two path functions with an implementation of its own, for every block and every k up to 14,
 * and for numbers above. */
#include "paths.h"

#include <stdio.h>

/* The path of a block, built bit by bit from the highest of the low 12 bits down to the lowest and then turned round. */
static uint32_t own_path(uint32_t block, uint32_t path[13])
{
    uint32_t turned[13];
    uint32_t length = 0;
    uint32_t sum = block / 4096 * 4096;
    turned[length++] = sum;
    for (uint32_t weight = 2048; weight > 0; weight /= 2) {
        if (block / weight % 2 == 1) {
            sum += weight;
            turned[length++] = sum;
        }
    }
    for (uint32_t i = 0; i < length; i++)
        path[i] = turned[length - 1 - i];
    return length;
}

int main(void)
{
    static const uint32_t above[] = {65536, 65537, 69632, 131071, 1u << 20, 0x7fffffffu, 0x80000000u, 0xffffffffu};
    static const uint32_t far[] = {15, 16, 4096, 65535, 65536, 0x80000000u, 0xffffffffu};
    unsigned long compared = 0, wrong = 0;
    for (uint32_t block = 0; block <= 65535; block++) {
        uint32_t path[13];
        uint32_t length = own_path(block, path);
        wrong += path_length(block) != length;
        compared++;
        for (uint32_t k = 0; k <= 14; k++) {
            wrong += path_key(block, k) != (k < length ? path[k] : NO_PATH_KEY);
            compared++;
        }
    }
    for (unsigned i = 0; i < sizeof far / sizeof far[0]; i++) {
        wrong += path_key(4095, far[i]) != NO_PATH_KEY;
        wrong += path_key(4096, far[i]) != NO_PATH_KEY;
        compared += 2;
    }
    for (unsigned i = 0; i < sizeof above / sizeof above[0]; i++) {
        wrong += path_length(above[i]) != 0;
        compared++;
        for (uint32_t k = 0; k <= 14; k++) {
            wrong += path_key(above[i], k) != NO_PATH_KEY;
            compared++;
        }
    }
    printf("driver: %lu answers compared, %lu wrong\n", compared, wrong);
    return wrong != 0;
}
