/* Records what the atomic accesses of a program did, as a log for `tsobench log`. README.md says how. */
#ifndef RECORD_H
#define RECORD_H

#include <stddef.h>

#ifdef __cplusplus
extern "C" {
#endif

/* From here on accesses are recorded. Call it once, while no other thread makes an access; what memory holds now are the log's
   first values. */
void record_begin(void);

/* Ends the recording and writes the log; else the end of the program does. */
void record_end(void);

/* Says that these 1, 2, 4 or 8 bytes have their first value now, before any access to them: for memory that was mapped after
   `record_begin` and that code without accesses on record wrote, as a file's or a device's. */
void record_first(const volatile void *address, size_t width);

#ifdef __cplusplus
}
#endif

#endif
