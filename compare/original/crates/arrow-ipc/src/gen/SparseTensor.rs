//! Stand-in: names only.
use flatbuffers::{Follow, InvalidFlatbuffer, Table, Verifiable, Verifier};
crate::r#gen::Schema::table!(SparseTensor);
