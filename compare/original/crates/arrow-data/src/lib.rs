//! Stand-in for `arrow-data`: `ArrayData` with Arrow's layout.
//!
//! `slice`, `==` follow the rules (window rules; equality of values row for row, with kinds,
//! marks, used sizes and nesting). the rules' kind, mark, size and node number ride beside the Arrow
//! layout in `shape`/`tag`; the writer never sees them.
use arrow_buffer::{ArrowNativeType, Buffer, NullBuffer};
use arrow_schema::DataType;

#[derive(Debug, Clone, Copy, PartialEq, Eq, Default)]
pub struct Shape {
    pub kind: u64,
    pub mark: u64,
    pub size: u64,
}

#[derive(Debug, Clone)]
pub struct ArrayData {
    data_type: DataType,
    len: usize,
    offset: usize,
    buffers: Vec<Buffer>,
    child_data: Vec<ArrayData>,
    nulls: Option<NullBuffer>,
    shape: Shape,
    tag: u64,
}
impl ArrayData {
    #[allow(clippy::too_many_arguments)]
    pub fn of_parts(
        data_type: DataType,
        len: usize,
        offset: usize,
        buffers: Vec<Buffer>,
        child_data: Vec<ArrayData>,
        nulls: Option<NullBuffer>,
        shape: Shape,
        tag: u64,
    ) -> Self {
        if let Some(n) = &nulls {
            assert_eq!(n.inner().len(), len)
        }
        Self {
            data_type,
            len,
            offset,
            buffers,
            child_data,
            nulls,
            shape,
            tag,
        }
    }
    pub fn new_empty(_dt: &DataType) -> Self {
        unimplemented!("stand-in: run-end arrays")
    }
    #[inline]
    pub fn data_type(&self) -> &DataType {
        &self.data_type
    }
    #[inline]
    pub fn len(&self) -> usize {
        self.len
    }
    #[inline]
    pub fn is_empty(&self) -> bool {
        self.len == 0
    }
    #[inline]
    pub fn offset(&self) -> usize {
        self.offset
    }
    #[inline]
    pub fn buffers(&self) -> &[Buffer] {
        &self.buffers
    }
    #[inline]
    pub fn child_data(&self) -> &[ArrayData] {
        &self.child_data
    }
    #[inline]
    pub fn nulls(&self) -> Option<&NullBuffer> {
        self.nulls.as_ref()
    }
    /// number of 0 bits in the window
    #[inline]
    pub fn null_count(&self) -> usize {
        self.nulls.as_ref().map(|x| x.null_count()).unwrap_or(0)
    }
    pub fn shape(&self) -> Shape {
        self.shape
    }
    pub fn tag(&self) -> u64 {
        self.tag
    }
    pub fn set_shape(&mut self, s: Shape) {
        self.shape = s
    }

    /// the rules: a window (a, n) is n rows from row a; a Struct passes (a, n) to each child; a List's
    /// and a Dictionary's child keep theirs (the writer cuts the List's, by its offsets).
    pub fn slice(&self, a: usize, n: usize) -> ArrayData {
        assert!(a.saturating_add(n) <= self.len, "slice past the rows");
        let mut x = self.clone();
        x.len = n;
        x.offset = self.offset + a;
        x.nulls = self.nulls.as_ref().map(|b| b.slice(a, n));
        if matches!(self.data_type, DataType::Struct(_)) {
            x.child_data = self.child_data.iter().map(|c| c.slice(a, n)).collect();
        }
        x
    }
    /// same memory, same window
    pub fn ptr_eq(&self, o: &Self) -> bool {
        self.data_type == o.data_type
            && self.shape == o.shape
            && self.len == o.len
            && self.offset == o.offset
            && match (&self.nulls, &o.nulls) {
                (Some(a), Some(b)) => a.inner().ptr_eq(b.inner()),
                (None, None) => true,
                _ => false,
            }
            && self.buffers.len() == o.buffers.len()
            && self.buffers.iter().zip(&o.buffers).all(|(a, b)| a.ptr_eq(b))
            && self.child_data.len() == o.child_data.len()
            && self.child_data.iter().zip(&o.child_data).all(|(a, b)| a.ptr_eq(b))
    }
    fn same_shape(&self, o: &Self) -> bool {
        self.shape == o.shape
            && self.child_data.len() == o.child_data.len()
            && self.child_data.iter().zip(&o.child_data).all(|(a, b)| a.same_shape(b))
    }
    fn int(&self, b: usize, width: u64, i: usize) -> i64 {
        let s = self.buffers[b].as_slice();
        let w = width as usize;
        let mut v = [0u8; 8];
        v[..w].copy_from_slice(&s[i * w..i * w + w]);
        let sh = 64 - 8 * width as u32;
        i64::from_le_bytes(v) << sh >> sh
    }
    /// the row a value stands in, through dictionaries; none is null
    fn resolve(&self, r: usize) -> Option<(&ArrayData, usize)> {
        if self.shape.kind == 0 || self.nulls.as_ref().is_some_and(|n| n.is_null(r)) {
            return None;
        }
        if self.shape.kind == 8 {
            return self.child_data[0].resolve(self.int(0, self.shape.size, self.offset + r) as usize);
        }
        Some((self, r))
    }
    fn range(&self, r: usize) -> (usize, usize) {
        let w = if matches!(self.shape.kind, 3 | 5) { 4 } else { 8 };
        (
            self.int(0, w, self.offset + r) as usize,
            self.int(0, w, self.offset + r + 1) as usize,
        )
    }
    fn row_eq(&self, i: usize, o: &ArrayData, j: usize) -> bool {
        let (a, i, b, j) = match (self.resolve(i), o.resolve(j)) {
            (None, None) => return true,
            (Some((a, i)), Some((b, j))) => (a, i, b, j),
            _ => return false,
        };
        match a.shape.kind {
            1 => {
                let f = |x: &ArrayData, r: usize| {
                    let k = x.offset + r;
                    x.buffers[0].as_slice()[k / 8] >> (k % 8) & 1
                };
                f(a, i) == f(b, j)
            }
            2 => {
                let w = a.shape.size as usize;
                let f = |x: &ArrayData, r: usize| {
                    let k = (x.offset + r) * w;
                    (k, k + w)
                };
                let (p, q) = (f(a, i), f(b, j));
                a.buffers[0].as_slice()[p.0..p.1] == b.buffers[0].as_slice()[q.0..q.1]
            }
            3 | 4 => {
                let (p, q) = (a.range(i), b.range(j));
                a.buffers[1].as_slice()[p.0..p.1] == b.buffers[1].as_slice()[q.0..q.1]
            }
            5 | 6 => {
                let (p, q) = (a.range(i), b.range(j));
                p.1 - p.0 == q.1 - q.0
                    && (0..p.1 - p.0).all(|k| a.child_data[0].row_eq(p.0 + k, &b.child_data[0], q.0 + k))
            }
            7 => a.child_data.iter().zip(&b.child_data).all(|(c, d)| c.row_eq(i, d, j)),
            k => panic!("no value of kind {k}"),
        }
    }
}
/// the rules: kinds, marks, used sizes and nesting agree throughout, and n and the values row for row
impl PartialEq for ArrayData {
    fn eq(&self, o: &Self) -> bool {
        self.same_shape(o) && self.len == o.len && (0..self.len).all(|r| self.row_eq(r, o, r))
    }
}

pub struct ArrayDataBuilder {
    data_type: DataType,
    len: usize,
    buffers: Vec<Buffer>,
    child_data: Vec<ArrayData>,
}
impl ArrayDataBuilder {
    pub fn new(data_type: DataType) -> Self {
        Self {
            data_type,
            len: 0,
            buffers: vec![],
            child_data: vec![],
        }
    }
    pub fn len(mut self, n: usize) -> Self {
        self.len = n;
        self
    }
    pub fn add_buffer(mut self, b: Buffer) -> Self {
        self.buffers.push(b);
        self
    }
    pub fn add_child_data(mut self, c: ArrayData) -> Self {
        self.child_data.push(c);
        self
    }
    /// # Safety
    /// stand-in
    pub unsafe fn build_unchecked(self) -> ArrayData {
        ArrayData::of_parts(
            self.data_type,
            self.len,
            0,
            self.buffers,
            self.child_data,
            None,
            Shape::default(),
            0,
        )
    }
}

#[derive(Debug, Clone, PartialEq, Eq)]
pub enum BufferSpec {
    FixedWidth { byte_width: usize, alignment: usize },
    VariableWidth,
    BitMap,
    AlwaysNull,
}
#[derive(Debug, Clone, PartialEq, Eq)]
pub struct DataTypeLayout {
    pub buffers: Vec<BufferSpec>,
}
pub fn layout(dt: &DataType) -> DataTypeLayout {
    use DataType::*;
    let w = match dt {
        Int8 | UInt8 => 1,
        Int16 | UInt16 => 2,
        Int32 | UInt32 | Float32 | Date32 => 4,
        Int64 | UInt64 | Float64 | Timestamp => 8,
        Decimal128(_, _) => 16,
        Decimal256(_, _) => 32,
        FixedSizeBinary(n) => *n as usize,
        Dictionary(k, _) => return layout(k),
        d => unimplemented!("stand-in layout of {d}"),
    };
    DataTypeLayout {
        buffers: vec![BufferSpec::FixedWidth {
            byte_width: w,
            alignment: w,
        }],
    }
}
#[allow(dead_code)]
fn _used<T: ArrowNativeType>() {}
