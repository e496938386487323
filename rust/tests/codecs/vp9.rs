//! The worked examples of VP9, and its descriptor under all flag bytes.

mod depacketizer;
mod descriptor;
mod keyframe;
mod packetizer;
