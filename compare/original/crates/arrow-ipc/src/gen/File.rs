//! Stand-in: footers are left out by the rules; names only, slots are recorded.
use crate::r#gen::Schema::*;
use flatbuffers::{Allocator, FlatBufferBuilder, ForwardsUOffset, Push, TableUnfinishedWIPOffset, Vector, WIPOffset};
#[derive(Clone, Copy, PartialEq, Debug)]
pub struct Block(pub [u8; 24]);
impl Block {
    pub fn new(offset: i64, meta: i32, body: i64) -> Self { let mut s = [0; 24]; s[..8].copy_from_slice(&offset.to_le_bytes()); s[8..12].copy_from_slice(&meta.to_le_bytes()); s[16..].copy_from_slice(&body.to_le_bytes()); Self(s) }
}
impl Push for Block { type Output = Block; unsafe fn push(&self, d: &mut [u8], _: usize) { d.copy_from_slice(&self.0) } }
pub struct Footer;
pub struct FooterBuilder<'a: 'b, 'b, A: Allocator + 'a> { fbb_: &'b mut FlatBufferBuilder<'a, A>, start_: WIPOffset<TableUnfinishedWIPOffset> }
impl<'a: 'b, 'b, A: Allocator + 'a> FooterBuilder<'a, 'b, A> {
    pub fn new(fbb: &'b mut FlatBufferBuilder<'a, A>) -> Self { let s = fbb.start_table(); Self { fbb_: fbb, start_: s } }
    pub fn add_version(&mut self, v: MetadataVersion) { self.fbb_.push_slot(4, v, MetadataVersion::V1) }
    pub fn add_schema(&mut self, s: WIPOffset<Schema<'b>>) { self.fbb_.push_slot_always(6, s) }
    pub fn add_dictionaries(&mut self, d: WIPOffset<Vector<'b, Block>>) { self.fbb_.push_slot_always(8, d) }
    pub fn add_recordBatches(&mut self, d: WIPOffset<Vector<'b, Block>>) { self.fbb_.push_slot_always(10, d) }
    pub fn add_custom_metadata(&mut self, d: WIPOffset<Vector<'b, ForwardsUOffset<KeyValue<'b>>>>) { self.fbb_.push_slot_always(12, d) }
    pub fn finish(self) -> WIPOffset<Footer> { let o = self.fbb_.end_table(self.start_); WIPOffset::new(o.value()) }
}
