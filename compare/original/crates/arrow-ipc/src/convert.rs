//! Stand-in: schemas are left out by the rules. The encoder only takes as many ids as
//! `reach::SCHEMA_IDS` says (the driver's `id` calls), writes an empty Schema table.
use crate::writer::DictionaryTracker;
use arrow_schema::{Metadata, Schema};
use flatbuffers::{FlatBufferBuilder, ForwardsUOffset, Vector, WIPOffset};
#[derive(Debug, Default)]
pub struct IpcSchemaEncoder<'a> { tracker: Option<&'a mut DictionaryTracker> }
impl<'a> IpcSchemaEncoder<'a> {
    pub fn new() -> Self { Self { tracker: None } }
    pub fn with_dictionary_tracker(mut self, t: &'a mut DictionaryTracker) -> Self { self.tracker = Some(t); self }
    pub fn schema_to_fb_offset<'b>(&mut self, fbb: &mut FlatBufferBuilder<'b>, _s: &Schema) -> WIPOffset<crate::Schema<'b>> {
        if let Some(t) = self.tracker.as_mut() { for _ in 0..crate::reach::SCHEMA_IDS.get() { t.next_dict_id(); } }
        let s = fbb.start_table();
        let o = fbb.end_table(s);
        WIPOffset::new(o.value())
    }
}
pub fn metadata_to_fb<'a>(_fbb: &mut FlatBufferBuilder<'a>, _m: &Metadata) -> WIPOffset<Vector<'a, ForwardsUOffset<crate::KeyValue<'a>>>> { unimplemented!("stand-in: footers") }
