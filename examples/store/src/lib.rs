// SPDX-License-Identifier: Apache-2.0
//! A durable store of keys and values, with threads, on the pool of pages.
//!
//! ```no_run
//! use store::{BatchOp, Options, Store};
//!
//! # fn main() -> Result<(), store::Error> {
//! let store = Store::open("animals", &Options::default())?;
//! let legs = store.tree("legs")?;
//! store.put(legs, b"spider", b"8")?;                        // on the disk, once it is answered
//! store.batch(&[BatchOp::Put(legs, b"ant", b"6"), BatchOp::Delete(legs, b"spider")])?;
//! assert_eq!(store.get(legs, b"ant")?, Some(b"6".to_vec()));
//! for (key, value) in store.scan(legs, b"a", Some(b"c"), 100)? {
//!     println!("{key:?}: {value:?}");
//! }
//! store.close()
//! # }
//! ```
#![deny(unsafe_code, unsafe_op_in_unsafe_fn)]
#![warn(missing_docs)]

mod batch;
mod c_face;
mod change;
mod check;
mod checkpoint;
pub mod crash;
mod device;
mod error;
mod header;
mod layout;
mod log;
mod medium;
mod node;
mod numbers;
mod opening;
mod path;
mod plans;
mod recovery;
mod space;
mod store;
mod sum;
mod tree;

pub use batch::MOST_OF_A_BATCH;
pub use check::{check, Report};
pub use error::Error;
pub use layout::Layout;
pub use medium::{Disk, Medium, Part, StoreFile};
pub use plans::{text_of as plan_text, Job};
pub use store::{BatchOp, Options, Store, Tree};
pub use tree::Entry;
