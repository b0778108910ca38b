//! Stand-in: compression is left out by the rules; only the reused builder matters.
use arrow_schema::ArrowError;
use flatbuffers::FlatBufferBuilder;
#[derive(Debug, Default)]
pub struct IpcWriteContext { fbb: FlatBufferBuilder<'static>, scratch_capacity: usize }
#[deprecated(note = "stand-in of the deprecated name")]
pub type CompressionContext = IpcWriteContext;
impl IpcWriteContext {
    pub(crate) fn mut_fbb(&mut self) -> &mut FlatBufferBuilder<'static> { &mut self.fbb }
    pub(crate) fn scratch(&mut self) -> Vec<u8> { Vec::with_capacity(self.scratch_capacity) }
    pub(crate) fn reserve_scratch_with_capacity(&mut self, n: usize) { self.scratch_capacity = n }
}
#[derive(Debug, Clone, Copy)]
pub enum CompressionCodec {}
impl CompressionCodec {
    pub(crate) fn try_new_with_compression_level(_c: crate::CompressionType, _l: i32) -> Result<Self, ArrowError> { Err(ArrowError::InvalidArgumentError("stand-in: no compression".into())) }
    pub(crate) fn compress_to_vec(&self, _i: &[u8], _o: &mut Vec<u8>, _c: &mut IpcWriteContext) -> Result<usize, ArrowError> { match *self {} }
}
impl TryFrom<crate::CompressionType> for CompressionCodec {
    type Error = ArrowError;
    fn try_from(_c: crate::CompressionType) -> Result<Self, ArrowError> { Err(ArrowError::InvalidArgumentError("stand-in: no compression".into())) }
}
