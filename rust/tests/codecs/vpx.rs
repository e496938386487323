//! The headers of VP8 and VP9 frames. `tests/media/media_frames.sh` makes the frames with ffmpeg's encoders; the expected values
//! are those of ffprobe and ffmpeg's `trace_headers`.

mod vp8;
mod vp9;
