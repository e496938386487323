/* A guess at the codec of a stream that nothing was signalled of. */
#ifndef RTP_RECORD_GUESS_H
#define RTP_RECORD_GUESS_H

#include "streams.h"

/* Guesses the codec from the kept packets. Video: one of the packets starts a keyframe with a picture size. Opus: the timestamps
 * advance by the packets' durations. Otherwise the codec is unknown. A guess is marked as such. */
codec_use guess_codec(const stream *it);

#endif
