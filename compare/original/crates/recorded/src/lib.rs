//! Arrays of the original from a recording's nodes.
use arrow_array::{ArrayRef, RecordBatch, make_array};
use arrow_buffer::{BooleanBuffer, Buffer, NullBuffer};
use arrow_data::{ArrayData, Shape};
use arrow_schema::{DataType, Field, Schema};
use std::sync::Arc;

#[derive(Debug, Clone, Copy)]
pub struct Node {
    pub kind: u64,
    pub mark: u64,
    pub size: u64,
    pub rows: u64,
    pub from: u64,
    pub bitmap: u64,
    pub slots: u64,
    pub data: u64,
    pub extent: u64,
    pub span: u64,
}
impl Node {
    pub fn of(b: &[u8]) -> Node {
        let n: Vec<u64> = b
            .chunks_exact(8)
            .map(|x| u64::from_le_bytes(x.try_into().unwrap()))
            .collect();
        Node {
            kind: n[0],
            mark: n[1],
            size: n[2],
            rows: n[3],
            from: n[4],
            bitmap: n[5],
            slots: n[6],
            data: n[7],
            extent: n[8],
            span: n[9],
        }
    }
}
/// a buffer of the bytes from a place on
pub type Cut<'a> = &'a dyn Fn(usize, usize) -> Buffer;

fn children(nodes: &[Node], i: usize) -> Vec<usize> {
    let (mut v, mut p) = (vec![], i + 1);
    while p < i + nodes[i].span as usize {
        v.push(p);
        p += nodes[p].span as usize
    }
    v
}
fn fixed(size: u64, mark: u64) -> DataType {
    match (size, mark % 2) {
        (1, 0) => DataType::Int8,
        (1, _) => DataType::UInt8,
        (2, 0) => DataType::Int16,
        (2, _) => DataType::UInt16,
        (4, 0) => DataType::Int32,
        (4, _) => DataType::Date32,
        (8, 0) => DataType::Int64,
        (8, _) => DataType::Timestamp,
        (16, 0) => DataType::Decimal128(38, 0),
        (32, 0) => DataType::Decimal256(76, 0),
        (n, _) => DataType::FixedSizeBinary(n as i32),
    }
}
fn key(size: u64) -> DataType {
    match size {
        1 => DataType::Int8,
        2 => DataType::Int16,
        4 => DataType::Int32,
        8 => DataType::Int64,
        s => panic!("key of {s}"),
    }
}

/// The array of a node. Buffers start at slot 0 and end behind the last slot; the array's offset is the node's.
/// A List of mark 5 over a Struct of two is a Map.
pub fn array(nodes: &[Node], i: usize, cut: Cut) -> ArrayData {
    let n = nodes[i];
    let (rows, from) = (n.rows as usize, n.from as usize);
    let used = from + rows;
    let below: Vec<ArrayData> = children(nodes, i).into_iter().map(|c| array(nodes, c, cut)).collect();
    let field = |c: &ArrayData| Arc::new(Field::new("f", c.data_type().clone(), true));
    let dt = match n.kind {
        0 => DataType::Null,
        1 => DataType::Boolean,
        2 => fixed(n.size, n.mark),
        3 => {
            if n.mark % 2 == 0 {
                DataType::Utf8
            } else {
                DataType::Binary
            }
        }
        4 => {
            if n.mark % 2 == 0 {
                DataType::LargeUtf8
            } else {
                DataType::LargeBinary
            }
        }
        5 => {
            if n.mark == 5 && matches!(below[0].data_type(), DataType::Struct(f) if f.len() == 2) {
                DataType::Map(field(&below[0]), false)
            } else {
                DataType::List(field(&below[0]))
            }
        }
        6 => DataType::LargeList(field(&below[0])),
        7 => DataType::Struct(
            below
                .iter()
                .map(|c| Field::new("f", c.data_type().clone(), true))
                .collect::<Vec<_>>()
                .into(),
        ),
        8 => DataType::Dictionary(Box::new(key(n.size)), Box::new(below[0].data_type().clone())),
        k => panic!("kind {k}"),
    };
    let (slots, data) = (n.slots as usize, n.data as usize);
    let buffers = match n.kind {
        1 => vec![cut(slots, used.div_ceil(8))],
        2 | 8 => vec![cut(slots, used * n.size as usize)],
        3 => vec![offsets(rows, used, 4, slots, cut), cut(data, n.extent as usize)],
        4 => vec![offsets(rows, used, 8, slots, cut), cut(data, n.extent as usize)],
        5 => vec![offsets(rows, used, 4, slots, cut)],
        6 => vec![offsets(rows, used, 8, slots, cut)],
        _ => vec![],
    };
    let nulls = (n.kind != 0 && n.bitmap != 0).then(|| {
        NullBuffer::new(BooleanBuffer::new(
            cut(n.bitmap as usize - 1, used.div_ceil(8)),
            from,
            rows,
        ))
    });
    let size = if matches!(n.kind, 2 | 8) { n.size } else { 0 };
    ArrayData::of_parts(
        dt,
        rows,
        from,
        buffers,
        below,
        nulls,
        Shape {
            kind: n.kind,
            mark: n.mark,
            size,
        },
        i as u64,
    )
}
/// a node without rows needs no offsets
fn offsets(rows: usize, used: usize, width: usize, slots: usize, cut: Cut) -> Buffer {
    if rows == 0 {
        Buffer::from_vec(Vec::<u64>::new())
    } else {
        cut(slots, (used + 1) * width)
    }
}
pub fn batch(columns: Vec<ArrayData>, rows: usize) -> RecordBatch {
    let fields: Vec<Field> = columns
        .iter()
        .map(|c| Field::new("c", c.data_type().clone(), true))
        .collect();
    let columns: Vec<ArrayRef> = columns.into_iter().map(make_array).collect();
    RecordBatch::try_new_with_rows(Arc::new(Schema::new(fields)), columns, rows).unwrap()
}
