//! Stand-in for the `flatbuffers` crate.
//!
//! It encodes nothing. `FlatBufferBuilder` records every vector and table slot that the generated
//! `*Builder`s push; `finish` hands the record to a thread-local hook (set by `arrow_ipc::reach`)
//! which logs the message's description and answers the bytes that `finished_data` returns.
use std::cell::RefCell;
use std::marker::PhantomData;

pub type VOffsetT = u16;
pub type UOffsetT = u32;

// ---------- what a builder recorded ----------
#[derive(Debug, Clone)]
pub enum Obj {
    Vector {
        elem: usize,
        count: usize,
        bytes: Vec<u8>,
    },
    /// slot -> pushed bytes; a slot equal to its default is absent, as in flatbuffers
    Table {
        slots: Vec<(VOffsetT, Vec<u8>)>,
    },
}
impl Obj {
    pub fn slot(&self, s: VOffsetT) -> Option<&[u8]> {
        match self {
            Obj::Table { slots } => slots.iter().find(|x| x.0 == s).map(|x| x.1.as_slice()),
            _ => panic!("not a table"),
        }
    }
    pub fn i64(&self, s: VOffsetT) -> i64 {
        self.slot(s)
            .map(|b| i64::from_le_bytes(b.try_into().unwrap()))
            .unwrap_or(0)
    }
    pub fn u8(&self, s: VOffsetT) -> u8 {
        self.slot(s).map(|b| b[0]).unwrap_or(0)
    }
    pub fn i16(&self, s: VOffsetT) -> i16 {
        self.slot(s)
            .map(|b| i16::from_le_bytes(b.try_into().unwrap()))
            .unwrap_or(0)
    }
    pub fn r(&self, s: VOffsetT) -> Option<u32> {
        self.slot(s).map(|b| u32::from_le_bytes(b.try_into().unwrap()))
    }
    pub fn pairs(&self) -> Vec<(i64, i64)> {
        match self {
            Obj::Vector { elem: 16, count, bytes } => (0..*count)
                .map(|i| {
                    let b = &bytes[16 * i..16 * i + 16];
                    (
                        i64::from_le_bytes(b[..8].try_into().unwrap()),
                        i64::from_le_bytes(b[8..].try_into().unwrap()),
                    )
                })
                .collect(),
            _ => panic!("not a vector of pairs"),
        }
    }
}
pub type Hook = fn(objs: &[Obj], root: u32) -> Vec<u8>;
thread_local! { static HOOK: RefCell<Option<Hook>> = const { RefCell::new(None) }; }
pub fn set_finish_hook(h: Option<Hook>) {
    HOOK.with(|x| *x.borrow_mut() = h);
}

// ---------- the builder ----------
pub trait Allocator {}
#[derive(Debug, Default, Clone, Copy)]
pub struct DefaultAllocator;
impl Allocator for DefaultAllocator {}

#[derive(Debug)]
pub struct FlatBufferBuilder<'fbb, A: Allocator + 'fbb = DefaultAllocator> {
    objs: Vec<Obj>,
    open: Option<Vec<(VOffsetT, Vec<u8>)>>,
    finished: Option<Vec<u8>>,
    _p: PhantomData<(&'fbb (), A)>,
}
impl<'fbb> FlatBufferBuilder<'fbb, DefaultAllocator> {
    pub fn new() -> Self {
        Self {
            objs: vec![],
            open: None,
            finished: None,
            _p: PhantomData,
        }
    }
}
impl<'fbb> Default for FlatBufferBuilder<'fbb, DefaultAllocator> {
    fn default() -> Self {
        Self::new()
    }
}
impl<'fbb, A: Allocator + 'fbb> FlatBufferBuilder<'fbb, A> {
    pub fn reset(&mut self) {
        self.objs.clear();
        self.open = None;
        self.finished = None;
    }
    pub fn create_vector<'a: 'b, 'b, T: Push + 'b>(&'a mut self, items: &'b [T]) -> WIPOffset<Vector<'fbb, T::Output>> {
        assert!(
            self.open.is_none() && self.finished.is_none(),
            "vector inside a table or after finish"
        );
        let elem = T::size();
        let mut bytes = vec![0u8; elem * items.len()];
        for (i, x) in items.iter().enumerate() {
            unsafe { x.push(&mut bytes[i * elem..(i + 1) * elem], 0) }
        }
        self.objs.push(Obj::Vector {
            elem,
            count: items.len(),
            bytes,
        });
        WIPOffset::new(self.objs.len() as u32 - 1)
    }
    pub fn start_table(&mut self) -> WIPOffset<TableUnfinishedWIPOffset> {
        assert!(
            self.open.is_none() && self.finished.is_none(),
            "nested table or after finish"
        );
        self.open = Some(vec![]);
        WIPOffset::new(0)
    }
    pub fn end_table(&mut self, _s: WIPOffset<TableUnfinishedWIPOffset>) -> WIPOffset<TableFinishedWIPOffset> {
        let slots = self.open.take().expect("no open table");
        self.objs.push(Obj::Table { slots });
        WIPOffset::new(self.objs.len() as u32 - 1)
    }
    pub fn push_slot<X: Push + PartialEq>(&mut self, slot: VOffsetT, x: X, default: X) {
        if x != default {
            self.push_slot_always(slot, x)
        }
    }
    pub fn push_slot_always<X: Push>(&mut self, slot: VOffsetT, x: X) {
        let mut b = vec![0u8; X::size()];
        unsafe { x.push(&mut b, 0) };
        let t = self.open.as_mut().expect("no open table");
        assert!(t.iter().all(|s| s.0 != slot), "slot pushed twice");
        t.push((slot, b));
    }
    pub fn finish<T>(&mut self, root: WIPOffset<T>, _file_identifier: Option<&str>) {
        assert!(self.open.is_none());
        let h = HOOK.with(|x| *x.borrow());
        self.finished = Some(match h {
            Some(h) => h(&self.objs, root.value()),
            None => vec![0; 8],
        });
    }
    pub fn finish_size_prefixed<T>(&mut self, root: WIPOffset<T>, f: Option<&str>) {
        self.finish(root, f)
    }
    pub fn finished_data(&self) -> &[u8] {
        self.finished.as_deref().expect("builder is not finished")
    }
}

// ---------- offsets ----------
pub struct WIPOffset<T>(u32, PhantomData<T>);
impl<T> Copy for WIPOffset<T> {}
impl<T> Clone for WIPOffset<T> {
    fn clone(&self) -> Self {
        *self
    }
}
impl<T> PartialEq for WIPOffset<T> {
    fn eq(&self, o: &Self) -> bool {
        self.0 == o.0
    }
}
impl<T> WIPOffset<T> {
    pub fn new(o: u32) -> Self {
        Self(o, PhantomData)
    }
    pub fn value(self) -> u32 {
        self.0
    }
    pub fn as_union_value(self) -> WIPOffset<UnionWIPOffset> {
        WIPOffset::new(self.0)
    }
}
pub struct TableUnfinishedWIPOffset;
pub struct TableFinishedWIPOffset;
pub struct UnionWIPOffset;
#[derive(Debug, Clone, Copy)]
pub struct ForwardsUOffset<T>(u32, PhantomData<T>);
impl<T> Push for WIPOffset<T> {
    type Output = ForwardsUOffset<T>;
    unsafe fn push(&self, dst: &mut [u8], _: usize) {
        dst.copy_from_slice(&self.0.to_le_bytes())
    }
    fn size() -> usize {
        4
    }
}

// ---------- traits the generated code implements ----------
pub struct PushAlignment(pub usize);
impl PushAlignment {
    pub fn new(x: usize) -> Self {
        Self(x)
    }
}
pub trait Push: Sized {
    type Output;
    /// # Safety
    /// stand-in
    unsafe fn push(&self, dst: &mut [u8], written_len: usize);
    fn size() -> usize {
        std::mem::size_of::<Self::Output>()
    }
    fn alignment() -> PushAlignment {
        PushAlignment::new(Self::size())
    }
}
pub trait EndianScalar: Sized + PartialEq + Copy {
    type Scalar: Copy;
    fn to_little_endian(self) -> Self::Scalar;
    fn from_little_endian(v: Self::Scalar) -> Self;
}
pub trait Follow<'buf> {
    type Inner;
    /// # Safety
    /// stand-in
    unsafe fn follow(buf: &'buf [u8], loc: usize) -> Self::Inner;
}
pub trait SimpleToVerifyInSlice {}
pub trait Verifiable {
    fn run_verifier(v: &mut Verifier, pos: usize) -> Result<(), InvalidFlatbuffer>;
}
#[derive(Debug, Clone)]
pub struct InvalidFlatbuffer;
#[derive(Debug, Clone, Default)]
pub struct VerifierOptions;
pub struct Verifier;
pub struct TableVerifier<'v>(pub &'v mut Verifier);
const NOT: &str = "stand-in flatbuffers: reading is not available";
impl Verifier {
    pub fn in_buffer<T>(&mut self, _pos: usize) -> Result<(), InvalidFlatbuffer> {
        unimplemented!("{NOT}")
    }
    pub fn visit_table(&mut self, _pos: usize) -> Result<TableVerifier<'_>, InvalidFlatbuffer> {
        unimplemented!("{NOT}")
    }
    pub fn verify_union_variant<T: Verifiable>(
        &mut self,
        _n: &'static str,
        _pos: usize,
    ) -> Result<(), InvalidFlatbuffer> {
        unimplemented!("{NOT}")
    }
}
impl<'v> TableVerifier<'v> {
    pub fn visit_field<T: Verifiable>(
        self,
        _n: &'static str,
        _f: VOffsetT,
        _r: bool,
    ) -> Result<Self, InvalidFlatbuffer> {
        Ok(self)
    }
    pub fn visit_union<K, F>(
        self,
        _kn: &'static str,
        _kf: VOffsetT,
        _vn: &'static str,
        _vf: VOffsetT,
        _r: bool,
        _v: F,
    ) -> Result<Self, InvalidFlatbuffer>
    where
        F: FnOnce(K, &mut Verifier, usize) -> Result<(), InvalidFlatbuffer>,
    {
        Ok(self)
    }
    pub fn finish(self) {}
}
#[derive(Debug, Clone, Copy, PartialEq)]
pub struct Table<'a> {
    pub buf: &'a [u8],
    pub loc: usize,
}
impl<'a> Table<'a> {
    /// # Safety
    /// stand-in
    pub unsafe fn new(buf: &'a [u8], loc: usize) -> Self {
        Self { buf, loc }
    }
    /// # Safety
    /// stand-in
    pub unsafe fn get<T: Follow<'a> + 'a>(&self, _slot: VOffsetT, _default: Option<T::Inner>) -> Option<T::Inner> {
        unimplemented!("{NOT}")
    }
}
impl<'a> Follow<'a> for Table<'a> {
    type Inner = Table<'a>;
    unsafe fn follow(buf: &'a [u8], loc: usize) -> Self {
        Self { buf, loc }
    }
}
pub struct Vector<'a, T: 'a>(&'a [u8], PhantomData<T>);
impl<'a, T> std::fmt::Debug for Vector<'a, T> {
    fn fmt(&self, f: &mut std::fmt::Formatter<'_>) -> std::fmt::Result {
        f.write_str("Vector")
    }
}
impl<'a, T: 'a> Follow<'a> for Vector<'a, T> {
    type Inner = Vector<'a, T>;
    unsafe fn follow(_b: &'a [u8], _l: usize) -> Self {
        unimplemented!("{NOT}")
    }
}
impl<'a, T> Verifiable for Vector<'a, T> {
    fn run_verifier(_v: &mut Verifier, _p: usize) -> Result<(), InvalidFlatbuffer> {
        unimplemented!("{NOT}")
    }
}
impl<'a, T: Follow<'a>> Follow<'a> for ForwardsUOffset<T> {
    type Inner = T::Inner;
    unsafe fn follow(_b: &'a [u8], _l: usize) -> T::Inner {
        unimplemented!("{NOT}")
    }
}
impl<T: Verifiable> Verifiable for ForwardsUOffset<T> {
    fn run_verifier(_v: &mut Verifier, _p: usize) -> Result<(), InvalidFlatbuffer> {
        unimplemented!("{NOT}")
    }
}

macro_rules! scalar { ($($t:ty),*) => {$(
    impl EndianScalar for $t { type Scalar = $t; fn to_little_endian(self) -> $t { self.to_le() } fn from_little_endian(v: $t) -> $t { <$t>::from_le(v) } }
    impl Push for $t { type Output = $t; unsafe fn push(&self, dst: &mut [u8], _: usize) { dst.copy_from_slice(&self.to_le_bytes()) } }
    impl<'a> Follow<'a> for $t { type Inner = $t; unsafe fn follow(b: &'a [u8], l: usize) -> $t { <$t>::from_le_bytes(b[l..l + std::mem::size_of::<$t>()].try_into().unwrap()) } }
    impl Verifiable for $t { fn run_verifier(_v: &mut Verifier, _p: usize) -> Result<(), InvalidFlatbuffer> { unimplemented!("{NOT}") } }
)*}}
scalar!(i8, u8, i16, u16, i32, u32, i64, u64);
impl Push for bool {
    type Output = bool;
    unsafe fn push(&self, dst: &mut [u8], _: usize) {
        dst[0] = *self as u8
    }
}
impl<'a> Follow<'a> for bool {
    type Inner = bool;
    unsafe fn follow(b: &'a [u8], l: usize) -> bool {
        b[l] != 0
    }
}
impl Verifiable for bool {
    fn run_verifier(_v: &mut Verifier, _p: usize) -> Result<(), InvalidFlatbuffer> {
        unimplemented!("{NOT}")
    }
}

/// # Safety
/// stand-in
pub unsafe fn read_scalar_at<T: EndianScalar>(_b: &[u8], _l: usize) -> T {
    unimplemented!("{NOT}")
}
/// # Safety
/// stand-in: writes the scalar's little-endian bytes
pub unsafe fn emplace_scalar<T: EndianScalar>(dst: &mut [u8], x: T) {
    let v = x.to_little_endian();
    unsafe {
        std::ptr::copy_nonoverlapping(
            &v as *const T::Scalar as *const u8,
            dst.as_mut_ptr(),
            std::mem::size_of::<T::Scalar>(),
        )
    }
}
/// # Safety
/// stand-in
pub unsafe fn follow_cast_ref<'a, T: Sized + 'a>(b: &'a [u8], l: usize) -> &'a T {
    unsafe { &*(b[l..].as_ptr() as *const T) }
}
pub fn root<'b, T: 'b + Follow<'b> + Verifiable>(_d: &'b [u8]) -> Result<T::Inner, InvalidFlatbuffer> {
    unimplemented!("{NOT}")
}
pub fn root_with_opts<'o, 'b, T: 'b + Follow<'b> + Verifiable>(
    _o: &'o VerifierOptions,
    _d: &'b [u8],
) -> Result<T::Inner, InvalidFlatbuffer> {
    unimplemented!("{NOT}")
}
pub fn size_prefixed_root<'b, T: 'b + Follow<'b> + Verifiable>(_d: &'b [u8]) -> Result<T::Inner, InvalidFlatbuffer> {
    unimplemented!("{NOT}")
}
pub fn size_prefixed_root_with_opts<'o, 'b, T: 'b + Follow<'b> + Verifiable>(
    _o: &'o VerifierOptions,
    _d: &'b [u8],
) -> Result<T::Inner, InvalidFlatbuffer> {
    unimplemented!("{NOT}")
}
/// # Safety
/// stand-in
pub unsafe fn root_unchecked<'b, T: Follow<'b> + 'b>(_d: &'b [u8]) -> T::Inner {
    unimplemented!("{NOT}")
}
/// # Safety
/// stand-in
pub unsafe fn size_prefixed_root_unchecked<'b, T: Follow<'b> + 'b>(_d: &'b [u8]) -> T::Inner {
    unimplemented!("{NOT}")
}
