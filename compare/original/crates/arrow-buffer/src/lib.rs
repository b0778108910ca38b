//! Stand-in for `arrow-buffer`: Arc-backed `Buffer`, `MutableBuffer`, `BooleanBuffer`, `NullBuffer`.
use std::any::Any;
use std::fmt::Debug;
use std::sync::Arc;

pub trait ArrowNativeType: Debug + Send + Sync + Copy + PartialOrd + Default + 'static {
    fn from_usize(v: usize) -> Option<Self>;
    fn as_usize(self) -> usize;
    fn usize_as(i: usize) -> Self;
}
macro_rules! native { ($($t:ty),*) => {$(
    impl ArrowNativeType for $t {
        #[inline] fn from_usize(v: usize) -> Option<Self> { v.try_into().ok() }
        #[inline] fn as_usize(self) -> usize { self as usize }
        #[inline] fn usize_as(i: usize) -> Self { i as $t }
    }
)*}}
native!(i8, i16, i32, i64, u8, u16, u32, u64);

pub trait ToByteSlice {
    fn to_byte_slice(&self) -> &[u8];
}
impl<T: ArrowNativeType> ToByteSlice for [T] {
    fn to_byte_slice(&self) -> &[u8] {
        unsafe { std::slice::from_raw_parts(self.as_ptr() as *const u8, std::mem::size_of_val(self)) }
    }
}
impl<T: ArrowNativeType> ToByteSlice for T {
    fn to_byte_slice(&self) -> &[u8] {
        unsafe { std::slice::from_raw_parts(self as *const T as *const u8, std::mem::size_of::<T>()) }
    }
}

#[derive(Clone)]
pub struct Buffer {
    owner: Arc<dyn Any + Send + Sync>,
    ptr: *const u8,
    len: usize,
}
unsafe impl Send for Buffer {}
unsafe impl Sync for Buffer {}
impl Debug for Buffer {
    fn fmt(&self, f: &mut std::fmt::Formatter<'_>) -> std::fmt::Result {
        write!(f, "Buffer{:02x?}", self.as_slice())
    }
}
impl Buffer {
    pub fn from_vec<T: ArrowNativeType>(v: Vec<T>) -> Self {
        let ptr = v.as_ptr() as *const u8;
        let len = v.len() * std::mem::size_of::<T>();
        Buffer {
            owner: Arc::new(v),
            ptr,
            len,
        }
    }
    /// stand-in only: a copy of `b` that starts on 8 bytes, so that `typed_data` may look at it
    pub fn aligned(b: &[u8]) -> Self {
        let mut v = vec![0u64; b.len().div_ceil(8)];
        unsafe { std::ptr::copy_nonoverlapping(b.as_ptr(), v.as_mut_ptr() as *mut u8, b.len()) };
        let mut x = Self::from_vec(v);
        x.len = b.len();
        x
    }
    /// stand-in only: memory of somebody else's, which has to stay
    /// # Safety
    /// `ptr` has `len` readable bytes for as long as a buffer is used
    pub unsafe fn lent(ptr: *const u8, len: usize) -> Self {
        Buffer {
            owner: Arc::new(()),
            ptr,
            len,
        }
    }
    #[inline]
    pub fn len(&self) -> usize {
        self.len
    }
    #[inline]
    pub fn is_empty(&self) -> bool {
        self.len == 0
    }
    #[inline]
    pub fn as_ptr(&self) -> *const u8 {
        self.ptr
    }
    #[inline]
    pub fn as_slice(&self) -> &[u8] {
        unsafe { std::slice::from_raw_parts(self.ptr, self.len) }
    }
    pub fn ptr_eq(&self, o: &Self) -> bool {
        self.ptr == o.ptr && self.len == o.len
    }
    pub fn slice_with_length(&self, offset: usize, length: usize) -> Self {
        assert!(
            offset.saturating_add(length) <= self.len,
            "the offset of the new Buffer cannot exceed the existing length"
        );
        Buffer {
            owner: self.owner.clone(),
            ptr: unsafe { self.ptr.add(offset) },
            len: length,
        }
    }
    /// as arrow-buffer: no prefix and no suffix allowed
    pub fn typed_data<T: ArrowNativeType>(&self) -> &[T] {
        let (p, m, s) = unsafe { self.as_slice().align_to::<T>() };
        assert!(p.is_empty() && s.is_empty());
        m
    }
    /// the rules: unchanged if they start on a byte, else shifted down with spare bits 0
    /// (word by word, as arrow-buffer's BitChunks does)
    pub fn bit_slice(&self, offset: usize, len: usize) -> Self {
        if offset % 8 == 0 {
            return self.slice_with_length(offset / 8, len.div_ceil(8));
        }
        let src = &self.as_slice()[offset / 8..(offset + len).div_ceil(8)];
        let s = (offset % 8) as u32;
        let words = len / 64;
        let nbytes = len.div_ceil(8);
        // the shape of arrow-buffer's bitwise_unary_op_helper: zeroed words, filled from unaligned chunks
        let mut out: Vec<u8> = vec![0; words * 8];
        out.reserve_exact(nbytes - words * 8);
        for (w, res) in out.chunks_exact_mut(8).enumerate() {
            // offset % 8 > 0, so a full word always has a byte after its eight
            let (cur, next) = unsafe {
                let p = src.as_ptr().add(8 * w);
                ((p as *const u64).read_unaligned().to_le(), *p.add(8) as u64)
            };
            res.copy_from_slice(&((cur >> s) | (next << (64 - s))).to_le_bytes());
        }
        let rem = len % 64;
        if rem > 0 {
            let mut v: u128 = 0;
            for (i, b) in src[8 * words..].iter().enumerate() {
                v |= (*b as u128) << (8 * i)
            }
            let v = ((v >> s) & ((1u128 << rem) - 1)) as u64;
            out.extend_from_slice(&v.to_le_bytes()[..rem.div_ceil(8)]);
        }
        debug_assert_eq!(out.len(), nbytes);
        Self::from_vec(out)
    }
}
impl PartialEq for Buffer {
    fn eq(&self, o: &Self) -> bool {
        self.as_slice() == o.as_slice()
    }
}
impl From<&[u8]> for Buffer {
    fn from(b: &[u8]) -> Self {
        Self::from_vec(b.to_vec())
    }
}
impl<T: ArrowNativeType> From<Vec<T>> for Buffer {
    fn from(v: Vec<T>) -> Self {
        Self::from_vec(v)
    }
}
impl From<MutableBuffer> for Buffer {
    fn from(m: MutableBuffer) -> Self {
        Self::from_vec(m.0)
    }
}
impl<T: ArrowNativeType> FromIterator<T> for Buffer {
    fn from_iter<I: IntoIterator<Item = T>>(i: I) -> Self {
        Self::from_vec(Vec::from_iter(i))
    }
}

pub struct MutableBuffer(Vec<u8>);
impl MutableBuffer {
    pub fn new(capacity: usize) -> Self {
        Self(Vec::with_capacity(capacity))
    }
    pub fn extend_from_slice<T: ArrowNativeType>(&mut self, items: &[T]) {
        self.0.extend_from_slice(items.to_byte_slice())
    }
}

#[derive(Debug, Clone)]
pub struct BooleanBuffer {
    buffer: Buffer,
    offset: usize,
    len: usize,
}
impl BooleanBuffer {
    pub fn new(buffer: Buffer, offset: usize, len: usize) -> Self {
        assert!(offset + len <= buffer.len() * 8, "buffer not large enough");
        Self { buffer, offset, len }
    }
    pub fn offset(&self) -> usize {
        self.offset
    }
    pub fn len(&self) -> usize {
        self.len
    }
    pub fn is_empty(&self) -> bool {
        self.len == 0
    }
    pub fn inner(&self) -> &Buffer {
        &self.buffer
    }
    pub fn value(&self, i: usize) -> bool {
        assert!(i < self.len);
        let k = self.offset + i;
        self.buffer.as_slice()[k / 8] >> (k % 8) & 1 == 1
    }
    pub fn slice(&self, offset: usize, len: usize) -> Self {
        assert!(
            offset.saturating_add(len) <= self.len,
            "the length + offset of the sliced BooleanBuffer cannot exceed the existing length"
        );
        Self {
            buffer: self.buffer.clone(),
            offset: self.offset + offset,
            len,
        }
    }
    pub fn sliced(&self) -> Buffer {
        self.buffer.bit_slice(self.offset, self.len)
    }
    pub fn count_set_bits(&self) -> usize {
        let (mut n, mut i) = (0usize, 0usize);
        let b = self.buffer.as_slice();
        while i < self.len && (self.offset + i) % 8 != 0 {
            n += self.value(i) as usize;
            i += 1
        }
        while i + 64 <= self.len {
            let k = (self.offset + i) / 8;
            n += u64::from_le_bytes(b[k..k + 8].try_into().unwrap()).count_ones() as usize;
            i += 64
        }
        while i < self.len {
            n += self.value(i) as usize;
            i += 1
        }
        n
    }
    pub fn ptr_eq(&self, o: &Self) -> bool {
        self.buffer.as_ptr() == o.buffer.as_ptr() && self.offset == o.offset && self.len == o.len
    }
}
/// null_count is counted when the window is made, as arrow-buffer does
#[derive(Debug, Clone)]
pub struct NullBuffer {
    buffer: BooleanBuffer,
    null_count: usize,
}
impl NullBuffer {
    pub fn new(buffer: BooleanBuffer) -> Self {
        let null_count = buffer.len() - buffer.count_set_bits();
        Self { buffer, null_count }
    }
    pub fn inner(&self) -> &BooleanBuffer {
        &self.buffer
    }
    pub fn null_count(&self) -> usize {
        self.null_count
    }
    pub fn is_null(&self, i: usize) -> bool {
        !self.buffer.value(i)
    }
    pub fn slice(&self, offset: usize, len: usize) -> Self {
        Self::new(self.buffer.slice(offset, len))
    }
}
