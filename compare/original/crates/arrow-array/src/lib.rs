//! Stand-in for `arrow-array`: arrays are thin cloths over `ArrayData`.
use arrow_buffer::ArrowNativeType;
use arrow_data::ArrayData;
use arrow_schema::{ArrowError, DataType, SchemaRef};
use std::any::Any;
use std::cell::Cell;
use std::fmt::Debug;
use std::marker::PhantomData;
use std::ops::Sub;
use std::sync::Arc;

thread_local! {
    /// node number of the array whose data_type()/to_data() was asked last: when the collecting
    /// stops with an error, that is the array it concerns
    pub static TOUCHED: Cell<u64> = const { Cell::new(u64::MAX) };
}
pub trait Array: Debug + Send + Sync {
    fn as_any(&self) -> &dyn Any;
    fn data(&self) -> &ArrayData;
    fn to_data(&self) -> ArrayData {
        TOUCHED.set(self.data().tag());
        self.data().clone()
    }
    fn into_data(self) -> ArrayData
    where
        Self: Sized,
    {
        self.to_data()
    }
    fn data_type(&self) -> &DataType {
        TOUCHED.set(self.data().tag());
        self.data().data_type()
    }
    fn len(&self) -> usize {
        self.data().len()
    }
    fn is_empty(&self) -> bool {
        self.len() == 0
    }
    fn slice(&self, a: usize, n: usize) -> ArrayRef {
        make_array(self.data().slice(a, n))
    }
}
pub type ArrayRef = Arc<dyn Array>;
impl Array for ArrayRef {
    fn as_any(&self) -> &dyn Any {
        self.as_ref().as_any()
    }
    fn data(&self) -> &ArrayData {
        self.as_ref().data()
    }
}
macro_rules! cloth { ($($n:ident),*) => {$(
    #[derive(Debug, Clone)]
    pub struct $n { data: ArrayData, kids: Vec<ArrayRef> }
    impl Array for $n { fn as_any(&self) -> &dyn Any { self } fn data(&self) -> &ArrayData { &self.data } }
)*}}
cloth!(
    PlainArray,
    StructArray,
    ListArray,
    LargeListArray,
    MapArray,
    UnionArray,
    FixedSizeListArray
);
impl StructArray {
    pub fn columns(&self) -> &[ArrayRef] {
        &self.kids
    }
}
impl ListArray {
    pub fn values(&self) -> &ArrayRef {
        &self.kids[0]
    }
}
impl LargeListArray {
    pub fn values(&self) -> &ArrayRef {
        &self.kids[0]
    }
}
impl FixedSizeListArray {
    pub fn values(&self) -> &ArrayRef {
        &self.kids[0]
    }
}
impl MapArray {
    pub fn keys(&self) -> &ArrayRef {
        cast::as_struct_array(&self.kids[0]).columns().first().unwrap()
    }
    pub fn values(&self) -> &ArrayRef {
        &cast::as_struct_array(&self.kids[0]).columns()[1]
    }
}
impl UnionArray {
    pub fn child(&self, _t: i8) -> &ArrayRef {
        unimplemented!("stand-in")
    }
}
#[derive(Debug, Clone)]
pub struct GenericListViewArray<O: OffsetSizeTrait> {
    kids: Vec<ArrayRef>,
    _p: PhantomData<O>,
}
impl<O: OffsetSizeTrait> GenericListViewArray<O> {
    pub fn values(&self) -> &ArrayRef {
        &self.kids[0]
    }
}

pub fn make_array(data: ArrayData) -> ArrayRef {
    // arrow-array makes child arrays of nested types; a dictionary's values are made on demand
    let kids: Vec<ArrayRef> = match data.data_type() {
        DataType::Struct(_) | DataType::List(_) | DataType::LargeList(_) | DataType::Map(_, _) => {
            data.child_data().iter().map(|c| make_array(c.clone())).collect()
        }
        _ => vec![],
    };
    match data.data_type() {
        DataType::Struct(_) => Arc::new(StructArray { data, kids }),
        DataType::List(_) => Arc::new(ListArray { data, kids }),
        DataType::LargeList(_) => Arc::new(LargeListArray { data, kids }),
        DataType::Map(_, _) => Arc::new(MapArray { data, kids }),
        _ => Arc::new(PlainArray { data, kids }),
    }
}

pub trait OffsetSizeTrait: ArrowNativeType + Sub<Output = Self> {
    const IS_LARGE: bool;
}
impl OffsetSizeTrait for i32 {
    const IS_LARGE: bool = false;
}
impl OffsetSizeTrait for i64 {
    const IS_LARGE: bool = true;
}
pub trait ArrowNativeTypeOp: ArrowNativeType {
    fn sub_wrapping(self, rhs: Self) -> Self;
}
macro_rules! op { ($($t:ty),*) => {$( impl ArrowNativeTypeOp for $t { fn sub_wrapping(self, r: Self) -> Self { self.wrapping_sub(r) } } )*}}
op!(i16, i32, i64);
pub mod types {
    use super::*;
    pub trait ArrowPrimitiveType: 'static {
        type Native: ArrowNativeTypeOp;
        const DATA_TYPE: DataType;
    }
    pub trait RunEndIndexType: ArrowPrimitiveType {}
    macro_rules! ty { ($($n:ident $t:ty, $d:ident);*) => {$(
        #[derive(Debug)] pub struct $n;
        impl ArrowPrimitiveType for $n { type Native = $t; const DATA_TYPE: DataType = DataType::$d; }
        impl RunEndIndexType for $n {}
    )*}}
    ty!(Int16Type i16, Int16; Int32Type i32, Int32; Int64Type i64, Int64);
}
/// run-end arrays are left out by the rules: names only
pub struct RunArray<R: types::RunEndIndexType> {
    data: ArrayData,
    _p: PhantomData<R>,
}
pub struct RunEndBuffer<N>(PhantomData<N>);
impl<N> RunEndBuffer<N> {
    pub fn offset(&self) -> usize {
        unimplemented!()
    }
    pub fn max_value(&self) -> usize {
        unimplemented!()
    }
    pub fn len(&self) -> usize {
        unimplemented!()
    }
    pub fn is_empty(&self) -> bool {
        unimplemented!()
    }
    pub fn get_start_physical_index(&self) -> usize {
        unimplemented!()
    }
    pub fn get_end_physical_index(&self) -> usize {
        unimplemented!()
    }
    pub fn values(&self) -> &[N] {
        unimplemented!()
    }
}
impl<R: types::RunEndIndexType> RunArray<R> {
    pub fn is_empty(&self) -> bool {
        self.data.is_empty()
    }
    pub fn len(&self) -> usize {
        self.data.len()
    }
    pub fn data_type(&self) -> &DataType {
        self.data.data_type()
    }
    pub fn run_ends(&self) -> &RunEndBuffer<R::Native> {
        unimplemented!()
    }
    pub fn values(&self) -> &ArrayRef {
        unimplemented!()
    }
    pub fn into_data(self) -> ArrayData {
        self.data
    }
}
impl<R: types::RunEndIndexType> From<ArrayData> for RunArray<R> {
    fn from(data: ArrayData) -> Self {
        Self { data, _p: PhantomData }
    }
}

pub mod cast {
    use super::*;
    pub fn as_struct_array(a: &dyn Array) -> &StructArray {
        a.as_any().downcast_ref().expect("Unable to downcast to StructArray")
    }
    pub fn as_list_array(a: &dyn Array) -> &ListArray {
        a.as_any().downcast_ref().expect("Unable to downcast to list array")
    }
    pub fn as_large_list_array(a: &dyn Array) -> &LargeListArray {
        a.as_any().downcast_ref().expect("Unable to downcast to list array")
    }
    pub fn as_map_array(a: &dyn Array) -> &MapArray {
        a.as_any().downcast_ref().expect("Unable to downcast to MapArray")
    }
    pub fn as_union_array(a: &dyn Array) -> &UnionArray {
        a.as_any().downcast_ref().expect("Unable to downcast to UnionArray")
    }
    pub trait AsArray {
        fn as_list_view<O: OffsetSizeTrait>(&self) -> &GenericListViewArray<O>;
    }
    impl AsArray for ArrayRef {
        fn as_list_view<O: OffsetSizeTrait>(&self) -> &GenericListViewArray<O> {
            unimplemented!("stand-in")
        }
    }
}

#[derive(Debug, Clone)]
pub struct RecordBatch {
    schema: SchemaRef,
    columns: Vec<ArrayRef>,
    row_count: usize,
}
impl RecordBatch {
    pub fn try_new_with_rows(schema: SchemaRef, columns: Vec<ArrayRef>, row_count: usize) -> Result<Self, ArrowError> {
        if columns.iter().any(|c| c.len() != row_count) {
            return Err(ArrowError::InvalidArgumentError(
                "all columns in a record batch must have the specified row count".to_string(),
            ));
        }
        Ok(Self {
            schema,
            columns,
            row_count,
        })
    }
    pub fn schema(&self) -> SchemaRef {
        self.schema.clone()
    }
    pub fn column(&self, i: usize) -> &ArrayRef {
        &self.columns[i]
    }
    pub fn columns(&self) -> &[ArrayRef] {
        &self.columns
    }
    pub fn num_rows(&self) -> usize {
        self.row_count
    }
}
pub trait RecordBatchWriter {
    fn write(&mut self, batch: &RecordBatch) -> Result<(), ArrowError>;
    fn close(self) -> Result<(), ArrowError>;
}
