//! What bench/planning.c calls to time the original: the message of a batch, written to memory that is there.
use arrow_array::RecordBatch;
use arrow_buffer::Buffer;
use arrow_ipc::reach::{Access, Form, Reach, begin, end};
use arrow_ipc::writer::{DictionaryTracker, IpcWriteContext, IpcWriteOptions};
use recorded::{Node, array, batch};

/// With ORIGINAL_MAKES set, the arrays are made anew for each frame, so that nulls are counted in it, as a plan counts them.
pub struct Prepared {
    again: Option<Box<dyn Fn() -> RecordBatch>>,
    batch: RecordBatch,
    options: IpcWriteOptions,
    context: IpcWriteContext,
    tracker: DictionaryTracker,
    form: Form,
}

/// # Safety
/// the memories are readable, and stay as long as what is answered
#[unsafe(no_mangle)]
pub unsafe extern "C" fn original_batch(
    nodes: *const u8,
    node_bytes: usize,
    bytes: *const u8,
    count: usize,
    node: usize,
    rows: u64,
) -> *mut Prepared {
    unsafe { original_columns(nodes, node_bytes, bytes, count, node, 1, rows) }
}
/// # Safety
/// the memories are readable, and stay as long as what is answered
#[unsafe(no_mangle)]
pub unsafe extern "C" fn original_columns(
    nodes: *const u8,
    node_bytes: usize,
    bytes: *const u8,
    count: usize,
    node: usize,
    columns: u64,
    rows: u64,
) -> *mut Prepared {
    let nodes: Vec<Node> = unsafe { std::slice::from_raw_parts(nodes, node_bytes) }
        .chunks_exact(80)
        .map(Node::of)
        .collect();
    let cut = move |place: usize, len: usize| {
        assert!(place + len <= count);
        unsafe { Buffer::lent(bytes.add(place), len) }
    };
    let mut places = vec![];
    let mut at = node;
    for _ in 0..columns {
        places.push(at);
        at += nodes[at].span as usize
    }
    let arrays = move || places.iter().map(|&i| array(&nodes, i, &cut)).collect::<Vec<_>>();
    let made = arrays();
    if made.iter().any(|c| c.len() as u64 != rows) {
        return std::ptr::null_mut();
    }
    let form = if std::env::var_os("ORIGINAL_NUMBERS").is_some() {
        Form::Numbers
    } else {
        Form::Supplied(vec![vec![0x4d; 200]])
    };
    Box::into_raw(Box::new(Prepared {
        batch: batch(made, rows as usize),
        again: std::env::var_os("ORIGINAL_MAKES")
            .is_some()
            .then(|| Box::new(move || batch(arrays(), rows as usize)) as Box<dyn Fn() -> RecordBatch>),
        options: IpcWriteOptions::default(),
        context: IpcWriteContext::default(),
        tracker: DictionaryTracker::new(false),
        form,
    }))
}
/// # Safety
/// `p` is prepared, `out` has `len` bytes
#[unsafe(no_mangle)]
pub unsafe extern "C" fn original_frame(p: *mut Prepared, out: *mut u8, len: usize) -> usize {
    let p = unsafe { &mut *p };
    let mut w: &mut [u8] = unsafe { std::slice::from_raw_parts_mut(out, len) };
    begin(&p.form, 0);
    if let Some(again) = &p.again {
        p.batch = again()
    }
    match Access.batch_to_bytes(&p.batch, &mut p.tracker, &p.options, &mut p.context, &mut w) {
        Ok(_) => len - w.len(),
        Err(_) => 0,
    }
}
/// # Safety
/// `p` is prepared, and not used again
#[unsafe(no_mangle)]
pub unsafe extern "C" fn original_drop(p: *mut Prepared) {
    drop(unsafe { Box::from_raw(p) });
    let _ = end();
}
