/* The one call that is not of the proved code: it is compiled for each processor for which the library is built. */
#include "fuota.h"

uint32_t fuota_pointer_bits(void) { return 8 * sizeof(void *); }
