/* The listing of a session file, for C. */
#ifndef TRAMUSQUET_H
#define TRAMUSQUET_H

#include <stddef.h>
#include <stdint.h>

#ifdef __cplusplus
extern "C" {
#endif

/* Lists the session file of `file_length` bytes at `file` into the first bytes at `out`, and answers how many these are. Nothing behind them
   is changed. Where the `out_length` bytes at `out` are too few it answers 0 and changes nothing; no listing is empty. 94,232 bytes are
   always enough. The listing is text in lines, and no byte 0 ends it. The two ranges of memory must not overlap, and nothing else may write
   to them during the call. */
size_t tramusquet_list(const uint8_t *file, size_t file_length, uint8_t *out, size_t out_length);

#ifdef __cplusplus
}
#endif

#endif
