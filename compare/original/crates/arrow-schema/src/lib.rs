//! Stand-in for `arrow-schema`.
use std::collections::HashMap;
use std::fmt;
use std::ops::Deref;
use std::sync::Arc;

#[derive(Debug)]
pub enum ArrowError {
    InvalidArgumentError(String),
    IpcError(String),
    MemoryError(String),
    IoError(String, std::io::Error),
}
impl fmt::Display for ArrowError {
    fn fmt(&self, f: &mut fmt::Formatter<'_>) -> fmt::Result {
        match self {
            ArrowError::InvalidArgumentError(d) => write!(f, "Invalid argument error: {d}"),
            ArrowError::IpcError(d) => write!(f, "Ipc error: {d}"),
            ArrowError::MemoryError(d) => write!(f, "Memory error: {d}"),
            ArrowError::IoError(d, _) => write!(f, "Io error: {d}"),
        }
    }
}
impl std::error::Error for ArrowError {}
impl From<std::io::Error> for ArrowError {
    fn from(e: std::io::Error) -> Self {
        ArrowError::IoError(e.to_string(), e)
    }
}

pub type Metadata = HashMap<String, String>;
pub type FieldRef = Arc<Field>;
#[derive(Debug, Clone, PartialEq)]
pub struct Fields(Arc<[FieldRef]>);
impl Deref for Fields {
    type Target = [FieldRef];
    fn deref(&self) -> &[FieldRef] {
        &self.0
    }
}
impl From<Vec<Field>> for Fields {
    fn from(v: Vec<Field>) -> Self {
        Self(v.into_iter().map(Arc::new).collect())
    }
}
#[derive(Debug, Clone, PartialEq)]
pub struct UnionFields(Vec<(i8, FieldRef)>);
impl UnionFields {
    pub fn iter(&self) -> impl Iterator<Item = (i8, &FieldRef)> + '_ {
        self.0.iter().map(|x| (x.0, &x.1))
    }
}
#[derive(Debug, Clone, Copy, PartialEq, Eq)]
pub enum UnionMode {
    Sparse,
    Dense,
}

#[derive(Debug, Clone, PartialEq)]
pub enum DataType {
    Null,
    Boolean,
    Int8,
    Int16,
    Int32,
    Int64,
    UInt8,
    UInt16,
    UInt32,
    UInt64,
    Float32,
    Float64,
    Timestamp,
    Date32,
    Decimal128(u8, i8),
    Decimal256(u8, i8),
    Binary,
    FixedSizeBinary(i32),
    LargeBinary,
    BinaryView,
    Utf8,
    LargeUtf8,
    Utf8View,
    List(FieldRef),
    ListView(FieldRef),
    FixedSizeList(FieldRef, i32),
    LargeList(FieldRef),
    LargeListView(FieldRef),
    Struct(Fields),
    Union(UnionFields, UnionMode),
    Dictionary(Box<DataType>, Box<DataType>),
    Map(FieldRef, bool),
    RunEndEncoded(FieldRef, FieldRef),
}
impl DataType {
    pub fn is_numeric(&self) -> bool {
        use DataType::*;
        matches!(
            self,
            Int8 | Int16
                | Int32
                | Int64
                | UInt8
                | UInt16
                | UInt32
                | UInt64
                | Float32
                | Float64
                | Decimal128(_, _)
                | Decimal256(_, _)
        )
    }
    pub fn is_temporal(&self) -> bool {
        matches!(self, DataType::Timestamp | DataType::Date32)
    }
}
impl fmt::Display for DataType {
    fn fmt(&self, f: &mut fmt::Formatter<'_>) -> fmt::Result {
        write!(f, "{self:?}")
    }
}

#[derive(Debug, Clone, PartialEq)]
pub struct Field {
    name: String,
    data_type: DataType,
    nullable: bool,
}
impl Field {
    pub fn new(name: impl Into<String>, data_type: DataType, nullable: bool) -> Self {
        Self {
            name: name.into(),
            data_type,
            nullable,
        }
    }
    pub fn name(&self) -> &String {
        &self.name
    }
    pub fn data_type(&self) -> &DataType {
        &self.data_type
    }
    pub fn is_nullable(&self) -> bool {
        self.nullable
    }
}
#[derive(Debug, Clone, PartialEq)]
pub struct Schema {
    fields: Fields,
}
pub type SchemaRef = Arc<Schema>;
impl Schema {
    pub fn new(fields: Vec<Field>) -> Self {
        Self { fields: fields.into() }
    }
    pub fn empty() -> Self {
        Self::new(vec![])
    }
    pub fn fields(&self) -> &Fields {
        &self.fields
    }
    /// only its length is used (a capacity)
    pub fn flattened_fields(&self) -> Vec<&Field> {
        self.fields.iter().map(|f| f.as_ref()).collect()
    }
}
