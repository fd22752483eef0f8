/* The look-up path of a block, for a driver that reads the key table itself.
 *
 * Link with target/staticlib/libextents.a (driver/run builds it). */
#ifndef HIVSKALTE_PATHS_H
#define HIVSKALTE_PATHS_H

#include <stdint.h>

/* What path_key answers where there is no such key. */
#define NO_PATH_KEY 65536u

/* How many keys the look-up of a block may try; 0 for a block above 65,535. */
uint32_t path_length(uint32_t block);

/* The k-th key that the look-up of a block tries, k counting from 0; NO_PATH_KEY where there is none. */
uint32_t path_key(uint32_t block, uint32_t k);

#endif
