/* The archive's structs as bytes in memory, without udx.h: raw.c finds where each number is, boundary.c compares that with offsetof. */
#include <stddef.h>

#ifdef __cplusplus
extern "C" {
#endif

/* The place of number n (1 to 34) in udx_layout_step's step, or -1; the bytes that the archive wrote; the bytes of a decoded header. */
int raw_step_place(int n);
int raw_step_end(void);
int raw_decoded_end(void);

#ifdef __cplusplus
}
#endif
