//! The way in: header forms, the log of messages, and a trait that the module inside
//! `writer` implements.
use crate::writer::*;
use arrow_array::{ArrayRef, RecordBatch};
use arrow_buffer::Buffer;
use arrow_data::ArrayData;
use arrow_schema::ArrowError;
use flatbuffers::Obj;
use std::cell::{Cell, RefCell};
use std::io::Write;

thread_local! {
    pub static SCHEMA_IDS: Cell<usize> = const { Cell::new(0) };
    static STATE: RefCell<State> = RefCell::new(State::default());
}

/// what the real builders put into the tables of one message
#[derive(Debug, Clone, PartialEq)]
pub struct Description {
    /// 0 batch, 1 dictionary, 2 delta
    pub kind: u64,
    pub id: i64,
    pub rows: i64,
    pub body: i64,
    pub fields: Vec<(i64, i64)>,
    pub buffers: Vec<(i64, i64)>,
}
impl Description {
    /// the rules' Numbers
    pub fn numbers(&self) -> Vec<u8> {
        let mut v: Vec<i64> = vec![
            self.kind as i64,
            self.id,
            self.rows,
            self.body,
            self.fields.len() as i64,
        ];
        v.extend(self.fields.iter().flat_map(|p| [p.0, p.1]));
        v.push(self.buffers.len() as i64);
        v.extend(self.buffers.iter().flat_map(|p| [p.0, p.1]));
        v.iter().flat_map(|x| x.to_le_bytes()).collect()
    }
}
#[derive(Debug, Clone)]
pub enum Form {
    Supplied(Vec<Vec<u8>>),
    Numbers,
}
impl Form {
    pub fn header(&self, ordinal: u64, d: &Description) -> Option<Vec<u8>> {
        let h = match self {
            Form::Supplied(v) => usize::try_from(ordinal).ok().and_then(|i| v.get(i)).cloned()?,
            Form::Numbers => d.numbers(),
        };
        (1..=65536).contains(&h.len()).then_some(h)
    }
}
#[derive(Default)]
struct State {
    form: Option<Form>,
    ordinal: u64,
    log: Vec<Description>,
    missing: bool,
}

pub const SCHEMA_METADATA: &[u8] = b"SCHEMA--";

fn on_finish(objs: &[Obj], root: u32) -> Vec<u8> {
    use crate::{DictionaryBatch as D, Message as M, MessageHeader as H, RecordBatch as R};
    let m = &objs[root as usize];
    assert_eq!(m.i16(M::VT_VERSION), crate::MetadataVersion::V5.0);
    let head = m.r(M::VT_HEADER).map(|h| &objs[h as usize]);
    let of = |r: &Obj, kind, id| {
        assert!(r.slot(R::VT_COMPRESSION).is_none() && r.slot(R::VT_VARIADICBUFFERCOUNTS).is_none());
        Description {
            kind,
            id,
            rows: r.i64(R::VT_LENGTH),
            body: m.i64(M::VT_BODYLENGTH),
            fields: objs[r.r(R::VT_NODES).unwrap() as usize].pairs(),
            buffers: objs[r.r(R::VT_BUFFERS).unwrap() as usize].pairs(),
        }
    };
    let d = match H(m.u8(M::VT_HEADER_TYPE)) {
        H::Schema => {
            assert_eq!(m.i64(M::VT_BODYLENGTH), 0);
            return SCHEMA_METADATA.to_vec();
        }
        H::RecordBatch => of(head.unwrap(), 0, 0),
        H::DictionaryBatch => {
            let x = head.unwrap();
            of(
                &objs[x.r(D::VT_DATA).unwrap() as usize],
                1 + x.u8(D::VT_ISDELTA) as u64,
                x.i64(D::VT_ID),
            )
        }
        h => panic!("header type {h:?}"),
    };
    STATE.with(|s| {
        let mut s = s.borrow_mut();
        let h = s.form.as_ref().expect("form").header(s.ordinal, &d);
        s.ordinal += 1;
        s.log.push(d);
        match h {
            Some(h) => h,
            None => {
                s.missing = true;
                vec![]
            }
        }
    })
}
/// messages finished from now on are logged; their headers are the form's from `ordinal` on
pub fn begin(form: &Form, ordinal: u64) {
    flatbuffers::set_finish_hook(Some(on_finish));
    STATE.with(|s| {
        *s.borrow_mut() = State {
            form: Some(form.clone()),
            ordinal,
            log: vec![],
            missing: false,
        }
    });
}
/// the descriptions logged since `begin`, and whether the form had none for one of them
pub fn end() -> (Vec<Description>, bool) {
    STATE.with(|s| {
        let mut s = s.borrow_mut();
        (std::mem::take(&mut s.log), s.missing)
    })
}

pub struct Access;
/// implemented in reach_impl.rs, inside `writer`
pub trait Reach {
    fn clone_tracker(&self, t: &DictionaryTracker) -> DictionaryTracker;
    fn kept(&self, t: &DictionaryTracker) -> Vec<(i64, ArrayData)>;
    fn set_kept(&self, t: &mut DictionaryTracker, k: Vec<(i64, ArrayData)>);
    fn ids(&self, t: &DictionaryTracker) -> Vec<i64>;
    /// `write_to_sink` on a `Write`; (header length, body length) for each message in order
    fn batch_to_bytes<W: Write>(
        &self,
        b: &RecordBatch,
        t: &mut DictionaryTracker,
        o: &IpcWriteOptions,
        c: &mut IpcWriteContext,
        w: &mut W,
    ) -> Result<Vec<(usize, usize)>, ArrowError>;
    /// `write_to_sink` on `Buffers`
    fn batch_to_buffers(
        &self,
        b: &RecordBatch,
        t: &mut DictionaryTracker,
        o: &IpcWriteOptions,
        c: &mut IpcWriteContext,
        out: &mut Vec<Buffer>,
    ) -> Result<Vec<(usize, usize)>, ArrowError>;
    fn eos_to_bytes<W: Write>(&self, o: &IpcWriteOptions, w: &mut W) -> Result<(), ArrowError>;
    fn eos_to_buffers(&self, o: &IpcWriteOptions, out: &mut Vec<Buffer>) -> Result<(), ArrowError>;
}
