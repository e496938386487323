//! Whole runs of a sender and a receiver whose datagrams are lost, duplicated or reordered: the popped units are the sent ones.

mod come_back;
mod forwarded;
mod forwarded_again;
mod forwarded_ids;
mod forwarded_left_out;
mod in_time;
mod losses;
mod own_codec;
mod red;
mod red_pops;
mod red_resent;
mod resent;
mod restarted;
mod rows;
mod served;
mod served_again;
mod served_left_out;
mod sides;
mod switched;
mod switched_back;
mod with_ids;
mod witness_answers;
mod witness_fec;
mod witness_runs;
mod witnesses;

/// Why a test fails.
pub type Fail = Box<dyn std::error::Error>;
