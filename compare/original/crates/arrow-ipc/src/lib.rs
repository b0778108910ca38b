//! The crate `arrow-ipc`, as far as its writer needs it.
//!
//! Unchanged, copied by `build`: `writer.rs`, `gen/Message.rs`.
//! Stand-ins: this root (src/lib.rs's constants and re-exports, without `reader`), `compression`,
//! `convert`, `gen/{Schema,File,Tensor,SparseTensor}.rs`.
#![allow(dead_code, unused_imports, unused_mut, unused_variables, mismatched_lifetime_syntaxes, deprecated)]

pub mod convert;
pub mod reach;

// writer.rs may not be edited, yet `write_to_sink`, `Buffers`, `write_eos` and the tracker's fields
// are private to it. Its only `debug_assert_eq!` stands as a statement in a function body. This
// textually scoped macro of that name comes before the prelude's: it makes the same assertion and
// declares a module there, which is a descendant of `writer` and so may name its private items. The
// module only implements the trait `reach::Reach`; it changes nothing in `writer`.
macro_rules! debug_assert_eq {
    ($($t:tt)*) => {
        ::std::debug_assert_eq!($($t)*);
        mod reach_impl { include!(concat!(env!("CARGO_MANIFEST_DIR"), "/src/reach_impl.rs")); }
    };
}
pub mod writer;

mod compression;

#[allow(non_camel_case_types, non_snake_case, clippy::all)]
pub mod r#gen;

pub use self::r#gen::File::*;
pub use self::r#gen::Message::*;
pub use self::r#gen::Schema::*;
pub use self::r#gen::SparseTensor::*;
pub use self::r#gen::Tensor::*;

const ARROW_MAGIC: [u8; 6] = *b"ARROW1";
const CONTINUATION_MARKER: [u8; 4] = [0xff; 4];
