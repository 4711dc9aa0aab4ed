#![doc = include_str!("../README.md")]
#![warn(missing_docs, missing_debug_implementations, clippy::undocumented_unsafe_blocks)]

mod base;
mod bulk;
mod filled;
mod frame;
mod heap;
mod items;
mod layout;
mod local;
mod numbered;
mod stack;
mod steps;
mod sys;
mod tail;
mod texts;
mod threads;
mod walks;

pub use bulk::{Array, Bytes, Text};
pub use filled::Fields;
pub use frame::Frame;
pub use heap::{BadSizes, Counts, Error, Global, Heap, Kept, Pace, Sizes};
pub use items::Items;
pub use layout::{Any, Bits, Layout, Pointer, Weak, Word};
pub use local::{Local, Name, Nil, Source, Value, Var};
pub use stack::Stack;
pub use steps::{Moved, Steps};
pub use tail::{Pointers, Tail, Tailed, Words};
pub use threads::{Seat, Shared};
pub use walks::{Holder, Holders, Object, Objects};
