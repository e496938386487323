/* Prints the streams and files, as text and as JSON. */
#ifndef RTP_RECORD_REPORT_H
#define RTP_RECORD_REPORT_H

#include "streams.h"

/* A table of the streams that are valid, and a line of what else came. */
void report_table(const streams *it);

/* The same with all counts, as JSON. */
void report_json(const streams *it);

#endif
