/* As stdint.h here. */
#ifndef FUOTA_STDBOOL_H
#define FUOTA_STDBOOL_H

#define bool _Bool

#endif
