/* The command line. */
#ifndef RTP_RECORD_OPTIONS_H
#define RTP_RECORD_OPTIONS_H

#include "sdp.h"
#include "streams.h"

typedef struct {
    const char *capture;   /* a file, or `-` */
    const char *interface; /* or an interface */
    const char *filter;
    bool json;
    signalling known;
    streams_output output;
} options;

typedef enum { OPTIONS_RUN, OPTIONS_DONE, OPTIONS_WRONG } options_answer;

/* Reads the words of the command line. OPTIONS_DONE: help or the version was printed. OPTIONS_WRONG: the error was printed. */
options_answer options_read(options *it, int count, char **words);

#endif
