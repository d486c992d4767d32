// A second implementation of document 01 and of document 02's landed requests, written from the papers alone and sharing
// nothing with the product.
// Where both are run on the same bytes, a misreading in either shows up as a difference.

pub mod arguments;
pub mod bench;
pub mod bytes;
pub mod calls;
pub mod cases;
pub mod count;
pub mod drift;
pub mod drift_cases;
pub mod eval;
pub mod examples;
pub mod graph;
pub mod kinds;
pub mod log;
pub mod log_cases;
pub mod machine;
pub mod memory;
pub mod odometer;
#[cfg(feature = "product")]
pub mod product;
pub mod random;
pub mod sheet;
pub mod small;
pub mod surrounded;
pub mod table;
pub mod tag_cases;
pub mod tag_memory;
pub mod tags;
pub mod tally;
pub mod tidy;
pub mod tidy_cases;
pub mod timing;
pub mod value;
