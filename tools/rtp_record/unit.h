/* Facts about units of a codec: sizes, durations, the frames in them, and the configuration for containers. */
#ifndef RTP_RECORD_UNIT_H
#define RTP_RECORD_UNIT_H

#include "codec.h"
#include <stdbool.h>
#include <stddef.h>
#include <stdint.h>

enum { UNIT_CONFIGURATION = 512 }; /* the most bytes of a configuration */

typedef struct {
    bool video;
    uint32_t width; /* in pixels, 0 if the frame does not have them */
    uint32_t height;
    int64_t duration; /* of audio, in ticks of the RTP clock */
} unit_facts;

typedef struct {
    const uint8_t *bytes;
    size_t size;
} unit_part;

/* The parts of a unit that are left. */
typedef struct {
    const codec_use *use;
    const uint8_t *bytes;
    size_t size;
    size_t at;
    int64_t duration; /* of a part, in ticks of the RTP clock */
} unit_parts;

/* Reads the facts of a unit. false: it is malformed. */
bool unit_look(const codec_use *use, const uint8_t *bytes, size_t size, unit_facts *facts);

/* Writes the codec's configuration for a container, from the first unit, and returns its size in bytes; 0: none. */
size_t unit_configuration(const codec_use *use, const uint8_t *bytes, size_t size, uint8_t configuration[UNIT_CONFIGURATION]);

/* The parts of a unit that a file stores as packets: the whole unit, or each frame of AMR-WB. */
void unit_split(unit_parts *parts, const codec_use *use, const uint8_t *bytes, size_t size);
bool unit_next(unit_parts *parts, unit_part *part);

/* Gives 20 ms without sound: a "no data" frame of AMR-WB, or silence of G.711. false: another codec. */
bool unit_silence(const codec_use *use, unit_part *part, int64_t *duration);

#endif
