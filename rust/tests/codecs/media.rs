//! The headers of encoders' frames. `tests/media/media_frames.sh` makes the frames with ffmpeg's encoders; the expected values are those of
//! ffprobe and ffmpeg's `trace_headers`.

mod amr_wb;
mod av1;
mod frame_info;
mod opus;
