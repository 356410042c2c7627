//! The library's functions, and all that is `unsafe` in this crate.
//!
//! [`Prepared`] is what makes them safe. The functions that are called for a text require that the model check accepts the columns and that the
//! two derived rows are those that `varitmol_prepare` wrote for the same columns. `Prepared::new` calls `varitmol_prepare`, which tests the
//! whole model, and gives a `Prepared` only if that answers 0. The fields are private to this module, nothing here changes them, and a `Cow`
//! of plain numbers cannot change without a `&mut` to it: so both hold as long as the value exists.

use crate::tables::Tables;

const ADJACENCY_LEN: usize = 1024;
const INDEX_LEN: usize = 169_032;

/// The index has the number of the raw path here, 0 for none.
const RAW_PATH: usize = 1;

/// What a call answers, as the library lays it out.
#[repr(C)]
#[derive(Debug, Clone, Copy)]
pub(crate) struct Answer {
    pub(crate) number: u32,
    pub(crate) place: usize,
    pub(crate) written: usize,
    pub(crate) drops: usize,
    pub(crate) skips: usize,
}

/// Declares functions that take the model's columns first, in the order of `include/varitmol.h`.
macro_rules! declare {
    ($(fn $name:ident($($own:ident: $kind:ty),*);)*) => {
        unsafe extern "C" {
            $(fn $name(
                piece_bytes: *const u8, piece_bytes_len: usize,
                piece_offsets: *const u32, piece_offsets_len: usize,
                lookup: *const u32, lookup_len: usize,
                fallback: *const u32, fallback_len: usize,
                left: *const u32, left_len: usize,
                right: *const u32, right_len: usize,
                result: *const u32, result_len: usize,
                rank: *const u32, rank_len: usize,
                first_bytes: *const u8, first_bytes_len: usize,
                first_offsets: *const u32, first_offsets_len: usize,
                first_ids: *const u32, first_ids_len: usize,
                first_lstrip: *const bool, first_lstrip_len: usize,
                first_rstrip: *const bool, first_rstrip_len: usize,
                second_bytes: *const u8, second_bytes_len: usize,
                second_offsets: *const u32, second_offsets_len: usize,
                second_ids: *const u32, second_ids_len: usize,
                second_lstrip: *const bool, second_lstrip_len: usize,
                second_rstrip: *const bool, second_rstrip_len: usize,
                step_bytes: *const u8, step_bytes_len: usize,
                step_kinds: *const u8, step_kinds_len: usize,
                step_spans: *const u32, step_spans_len: usize,
                metaspace: u8, split: u8,
                $($own: $kind),*
            ) -> Answer;)*
        }
    };
}

declare! {
    fn varitmol_normalise_checked(
        text: *const u8, text_len: usize, first: bool, out: *mut u8, out_len: usize,
        scratch_a: *mut u8, scratch_a_len: usize, scratch_b: *mut u8, scratch_b_len: usize);
    fn varitmol_prepare(adjacency: *mut u64, adjacency_len: usize, index: *mut u32, index_len: usize);
    fn varitmol_encode_prepared(
        adjacency: *const u64, adjacency_len: usize, index: *const u32, index_len: usize,
        text: *const u8, text_len: usize, continuation: bool, out: *mut u32, out_len: usize,
        scratch_a: *mut u8, scratch_a_len: usize, scratch_b: *mut u8, scratch_b_len: usize);
    fn varitmol_fragments_prepared(
        adjacency: *const u64, adjacency_len: usize, index: *const u32, index_len: usize,
        text: *const u8, text_len: usize, target: usize, out: *mut u32, out_len: usize);
    fn varitmol_decode_checked(ids: *const u32, ids_len: usize, out: *mut u8, out_len: usize);
}

/// Calls such a function with the columns of a `Prepared` and what else it takes.
macro_rules! call {
    ($name:ident, $model:expr, $($own:expr),*) => {{
        let Prepared { tables: t, step_kinds, step_spans, metaspace, split, .. } = $model;
        $name(
            t.piece_bytes.as_ptr(), t.piece_bytes.len(),
            t.piece_offsets.as_ptr(), t.piece_offsets.len(),
            t.lookup.as_ptr(), t.lookup.len(),
            t.fallback.as_ptr(), t.fallback.len(),
            t.left.as_ptr(), t.left.len(),
            t.right.as_ptr(), t.right.len(),
            t.result.as_ptr(), t.result.len(),
            t.rank.as_ptr(), t.rank.len(),
            t.first.bytes.as_ptr(), t.first.bytes.len(),
            t.first.offsets.as_ptr(), t.first.offsets.len(),
            t.first.ids.as_ptr(), t.first.ids.len(),
            t.first.lstrip.as_ptr(), t.first.lstrip.len(),
            t.first.rstrip.as_ptr(), t.first.rstrip.len(),
            t.second.bytes.as_ptr(), t.second.bytes.len(),
            t.second.offsets.as_ptr(), t.second.offsets.len(),
            t.second.ids.as_ptr(), t.second.ids.len(),
            t.second.lstrip.as_ptr(), t.second.lstrip.len(),
            t.second.rstrip.as_ptr(), t.second.rstrip.len(),
            t.step_bytes.as_ptr(), t.step_bytes.len(),
            step_kinds.as_ptr(), step_kinds.len(),
            step_spans.as_ptr(), step_spans.len(),
            *metaspace, *split,
            $($own),*
        )
    }};
}

/// Tables that the check accepts, with what is derived of them.
#[derive(Clone)]
pub(crate) struct Prepared<'a> {
    tables: Tables<'a>,
    step_kinds: Box<[u8]>,
    step_spans: Box<[u32]>,
    metaspace: u8,
    split: u8,
    adjacency: Box<[u64]>,
    index: Box<[u32]>,
}

impl<'a> Prepared<'a> {
    pub(crate) fn new(tables: Tables<'a>) -> Result<Self, Answer> {
        let (metaspace, split) = tables.metaspace_numbers();
        let mut adjacency = vec![0; ADJACENCY_LEN].into_boxed_slice();
        let mut index = vec![0; INDEX_LEN].into_boxed_slice();
        let made = Prepared {
            step_kinds: tables.steps.iter().map(|step| step.kind()).collect(),
            step_spans: tables.steps.iter().flat_map(|step| step.numbers()).collect(),
            metaspace,
            split,
            tables,
            adjacency: Box::default(),
            index: Box::default(),
        };
        // SAFETY: the call takes any columns; pointers and lengths are those of slices, and the two rows are borrowed by nothing else.
        let answer = unsafe { call!(varitmol_prepare, &made, adjacency.as_mut_ptr(), adjacency.len(), index.as_mut_ptr(), index.len()) };
        if answer.number == 0 { Ok(Prepared { adjacency, index, ..made }) } else { Err(answer) }
    }

    pub(crate) fn tables(&self) -> &Tables<'a> {
        &self.tables
    }

    pub(crate) fn has_raw_path(&self) -> bool {
        self.index[RAW_PATH] != 0
    }

    pub(crate) fn encode(&self, text: &[u8], continuation: bool, out: &mut [u32], scratch: [&mut [u8]; 2]) -> Answer {
        let [a, b] = scratch;
        // SAFETY: a Prepared meets the call's duty; pointers and lengths are those of slices, and what it writes is borrowed mutably, each apart.
        unsafe {
            call!(
                varitmol_encode_prepared,
                self,
                self.adjacency.as_ptr(),
                self.adjacency.len(),
                self.index.as_ptr(),
                self.index.len(),
                text.as_ptr(),
                text.len(),
                continuation,
                out.as_mut_ptr(),
                out.len(),
                a.as_mut_ptr(),
                a.len(),
                b.as_mut_ptr(),
                b.len()
            )
        }
    }

    pub(crate) fn fragments(&self, text: &[u8], target: usize, out: &mut [u32]) -> Answer {
        // SAFETY: a Prepared meets the call's duty; pointers and lengths are those of slices, and what it writes is borrowed mutably.
        unsafe {
            call!(
                varitmol_fragments_prepared,
                self,
                self.adjacency.as_ptr(),
                self.adjacency.len(),
                self.index.as_ptr(),
                self.index.len(),
                text.as_ptr(),
                text.len(),
                target,
                out.as_mut_ptr(),
                out.len()
            )
        }
    }

    pub(crate) fn normalise(&self, text: &[u8], first: bool, out: &mut [u8], scratch: [&mut [u8]; 2]) -> Answer {
        let [a, b] = scratch;
        // SAFETY: a Prepared meets the call's duty; pointers and lengths are those of slices, and what it writes is borrowed mutably, each apart.
        unsafe {
            call!(
                varitmol_normalise_checked,
                self,
                text.as_ptr(),
                text.len(),
                first,
                out.as_mut_ptr(),
                out.len(),
                a.as_mut_ptr(),
                a.len(),
                b.as_mut_ptr(),
                b.len()
            )
        }
    }

    pub(crate) fn decode(&self, ids: &[u32], out: &mut [u8]) -> Answer {
        // SAFETY: a Prepared meets the call's duty; pointers and lengths are those of slices, and what it writes is borrowed mutably.
        unsafe { call!(varitmol_decode_checked, self, ids.as_ptr(), ids.len(), out.as_mut_ptr(), out.len()) }
    }
}
