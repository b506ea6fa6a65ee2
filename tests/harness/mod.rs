//! What the comparisons share: chance, hex, outputs, the words of the command line, what is held to what, what fails made short, and the
//! lines of a report.

pub mod chance;
pub mod fewest;
pub mod hex;
pub mod options;
pub mod output;
pub mod report;
pub mod same;
