/* Messages for people, on the standard error stream. */
#ifndef RTP_RECORD_MESSAGE_H
#define RTP_RECORD_MESSAGE_H

#include <stdint.h>

#if defined(__GNUC__)
#define PRINTF_LIKE(text, first) __attribute__((__format__(__printf__, text, first)))
#else
#define PRINTF_LIKE(text, first)
#endif

/* Something failed: it is said, and counted. */
void complain(const char *format, ...) PRINTF_LIKE(1, 2);

/* Prints a remark: something that helps the user and is not a failure. */
void remark(const char *format, ...) PRINTF_LIKE(1, 2);

/* How many times something failed. */
unsigned long complaints(void);

/* Whether remarks are said (the default), and progress lines, which are for terminals alone. */
void messages_quiet(void);

/* Replaces the line that shows the progress, at most twice a second. `size` is the size of the capture, or 0 if unknown. */
void progress(uint64_t bytes, uint64_t size, uint64_t packets);

/* Clears that line. */
void progress_end(void);

#endif
