//! Stand-in for the generated Schema.rs: MetadataVersion, Buffer, Schema, KeyValue.
use flatbuffers::{EndianScalar, Follow, InvalidFlatbuffer, Push, Table, Verifiable, Verifier};
#[derive(Clone, Copy, PartialEq, Eq, PartialOrd, Ord, Hash, Default, Debug)]
#[repr(transparent)]
pub struct MetadataVersion(pub i16);
impl MetadataVersion {
    pub const V1: Self = Self(0);
    pub const V2: Self = Self(1);
    pub const V3: Self = Self(2);
    pub const V4: Self = Self(3);
    pub const V5: Self = Self(4);
}
impl Push for MetadataVersion { type Output = MetadataVersion; unsafe fn push(&self, d: &mut [u8], _: usize) { d.copy_from_slice(&self.0.to_le_bytes()) } }
impl<'a> Follow<'a> for MetadataVersion { type Inner = Self; unsafe fn follow(_b: &'a [u8], _l: usize) -> Self { unimplemented!() } }
impl Verifiable for MetadataVersion { fn run_verifier(_v: &mut Verifier, _p: usize) -> Result<(), InvalidFlatbuffer> { unimplemented!() } }
/// struct Buffer { offset: long; length: long; }
#[repr(transparent)]
#[derive(Clone, Copy, PartialEq, Debug)]
pub struct Buffer(pub [u8; 16]);
impl Buffer {
    pub fn new(offset: i64, length: i64) -> Self { let mut s = [0; 16]; s[..8].copy_from_slice(&offset.to_le_bytes()); s[8..].copy_from_slice(&length.to_le_bytes()); Self(s) }
}
impl Push for Buffer { type Output = Buffer; unsafe fn push(&self, d: &mut [u8], _: usize) { d.copy_from_slice(&self.0) } }
macro_rules! table { ($($n:ident),*) => {$(
    #[derive(Copy, Clone, PartialEq, Debug)]
    pub struct $n<'a> { pub _tab: Table<'a> }
    impl<'a> $n<'a> { pub unsafe fn init_from_table(table: Table<'a>) -> Self { Self { _tab: table } } }
    impl<'a> Follow<'a> for $n<'a> { type Inner = $n<'a>; unsafe fn follow(b: &'a [u8], l: usize) -> Self { Self { _tab: unsafe { Table::new(b, l) } } } }
    impl Verifiable for $n<'_> { fn run_verifier(_v: &mut Verifier, _p: usize) -> Result<(), InvalidFlatbuffer> { unimplemented!() } }
)*}}
table!(Schema, KeyValue);
pub(crate) use table;
