//! What AV1's temporal units, OBUs and sequence headers say, as ffmpeg's encoders and the standard's bits have them.

mod av1c;
mod obu;
mod operating_points;
mod sequence_header;
mod temporal_unit;
