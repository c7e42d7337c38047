//! An independent cross-check of the reservation program `frames`.

pub mod by_holds;
pub mod call_records;
pub mod compared;
pub mod dijkstra;
pub mod inputs;
pub mod least_holds;
pub mod lent;
pub mod library;
pub mod listing;
pub mod model;
pub mod network_file;
pub mod networks;
pub mod quoted_routes;
pub mod quotes;
pub mod random;
pub mod route;
pub mod running_sums;
pub mod runs;
pub mod sorts;
pub mod stack;
pub mod stand_in;
pub mod state_calls;
pub mod survivors;
pub mod taken;
pub mod tried;
pub mod way_calls;
pub mod ways;
pub mod widths;
pub mod windows;
pub mod writing;
pub mod wrong;
pub mod wrong_least;
pub mod wrong_numbers;
pub mod wrong_runs;
pub mod wrong_state;
pub mod wrong_ways;
pub mod wrong_windows;
pub mod wrong_writing;

#[cfg(test)]
mod question_four;
