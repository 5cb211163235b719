//! The static library's C interface, thin wrappers, and calls whose buffers are guarded.

use crate::call::Call;
use crate::comparing::CompareCall;
use crate::form::FormCall;
use crate::frame::Frame;
use crate::quick::QuickCall;
use crate::random::Random;
use crate::range::RangeCall;
use crate::reading::ReadCall;
use crate::revise::ReviseCall;
use crate::sheet::SheetCall;
use crate::view::{Reader, ViewCall};
use crate::writing::WriteCall;

extern "C" {
    fn plates_check(outline: *const u8, outline_len: usize, place: *mut u32) -> u32;
    fn plates_find(outline: *const u8, outline_len: usize, plate: u32) -> u32;
    fn plates_choose(
        outline: *const u8,
        outline_len: usize,
        count: u32,
        way: u32,
        marks: *mut u8,
        marks_len: usize,
        curve: *mut u32,
        curve_len: usize,
        work: *mut u64,
        work_len: usize,
        answer: *mut u32,
    ) -> u32;
    fn plates_read(
        text: *const u8,
        text_len: usize,
        pairs: *const u32,
        pairs_len: usize,
        outline: *mut u8,
        outline_len: usize,
        answer: *mut u32,
    ) -> u32;
    fn plates_write(
        outline: *const u8,
        outline_len: usize,
        text: *mut u8,
        text_len: usize,
        pairs: *mut u32,
        pairs_len: usize,
        answer: *mut u32,
    ) -> u32;
    fn plates_sheet(
        outline: *const u8,
        outline_len: usize,
        way: u32,
        marks: *const u8,
        marks_len: usize,
        sheet: *mut u32,
        sheet_len: usize,
        answer: *mut u32,
    ) -> u32;
    fn plates_view_house(
        outline: *const u8,
        outline_len: usize,
        view: *mut u8,
        view_len: usize,
        answer: *mut u32,
    ) -> u32;
    fn plates_view_buyer(
        outline: *const u8,
        outline_len: usize,
        view: *mut u8,
        view_len: usize,
        answer: *mut u32,
    ) -> u32;
    fn plates_quick(
        outline: *const u8,
        outline_len: usize,
        count: u32,
        picks: u32,
        marks: *mut u8,
        marks_len: usize,
        answer: *mut u32,
        ceiling: *mut u64,
    ) -> u32;
    fn plates_house_form(
        outline: *const u8,
        outline_len: usize,
        form: *mut u8,
        form_len: usize,
        answer: *mut u32,
    ) -> u32;
    fn plates_compare(
        a: *const u8,
        a_len: usize,
        b: *const u8,
        b_len: usize,
        form_a: *mut u8,
        form_a_len: usize,
        form_b: *mut u8,
        form_b_len: usize,
        answer: *mut u32,
        order: *mut i32,
    ) -> u32;
    fn plates_revise(
        outline: *const u8,
        outline_len: usize,
        record: u32,
        length: u32,
        count: u32,
        way: u32,
        marks: *mut u8,
        marks_len: usize,
        curve: *mut u32,
        curve_len: usize,
        work: *mut u64,
        work_len: usize,
        answer: *mut u32,
        moved: *mut i64,
    ) -> u32;
    fn plates_range(
        low: *const u8,
        low_len: usize,
        high: *const u8,
        high_len: usize,
        count: u32,
        way: u32,
        marks: *mut u8,
        marks_len: usize,
        curve: *mut u32,
        curve_len: usize,
        work: *mut u64,
        work_len: usize,
        answer: *mut u32,
        roof: *mut u32,
    ) -> u32;
}

/// The work numbers needed for `records` records and a page count.
pub fn work_len(records: usize, count: u32) -> usize {
    4 * (records + 2) * (count as usize + 1)
}

/// The six numbers of the answer: number, place, diversity, cost, taxa, spare.
pub fn choose(
    outline: &[u8],
    count: u32,
    way: u32,
    marks: &mut [u8],
    curve: &mut [u32],
    work: &mut [u64],
) -> [u32; 6] {
    let mut answer = [0; 6];
    // SAFETY: every pointer comes with the length of the slice it was taken from, and no two slices overlap.
    unsafe {
        plates_choose(
            outline.as_ptr(),
            outline.len(),
            count,
            way,
            marks.as_mut_ptr(),
            marks.len(),
            curve.as_mut_ptr(),
            curve.len(),
            work.as_mut_ptr(),
            work.len(),
            answer.as_mut_ptr(),
        );
    }
    answer
}

/// Number and place.
pub fn check(outline: &[u8]) -> [u32; 2] {
    let mut place = 0;
    // SAFETY: pointer and length are those of one slice, and place is a variable of its own.
    let number = unsafe { plates_check(outline.as_ptr(), outline.len(), &mut place) };
    [number, place]
}

/// The three numbers of the answer: number, place, records.
pub fn read(text: &[u8], pairs: &[u32], outline: &mut [u8]) -> [u32; 3] {
    let mut answer = [0; 3];
    // SAFETY: every pointer comes with the length of the slice it was taken from, and what is written overlaps nothing else.
    unsafe {
        plates_read(
            text.as_ptr(),
            text.len(),
            pairs.as_ptr(),
            pairs.len(),
            outline.as_mut_ptr(),
            outline.len(),
            answer.as_mut_ptr(),
        );
    }
    answer
}

/// The four numbers of the answer: number, place, bytes, pairs.
pub fn write(outline: &[u8], text: &mut [u8], pairs: &mut [u32]) -> [u32; 4] {
    let mut answer = [0; 4];
    // SAFETY: every pointer comes with the length of the slice it was taken from, and no two slices overlap.
    unsafe {
        plates_write(
            outline.as_ptr(),
            outline.len(),
            text.as_mut_ptr(),
            text.len(),
            pairs.as_mut_ptr(),
            pairs.len(),
            answer.as_mut_ptr(),
        );
    }
    answer
}

/// The five buffers of a choosing call with their guards.
#[derive(Clone, Debug)]
pub struct Buffers {
    pub outline: Frame<u8>,
    pub marks: Frame<u8>,
    pub curve: Frame<u32>,
    pub work: Frame<u64>,
    pub answer: Frame<u32>,
}

impl Buffers {
    pub fn random(call: &Call, rng: &mut Random) -> Self {
        Buffers {
            outline: Frame::holding(&call.outline, rng),
            marks: Frame::random(call.marks, rng),
            curve: Frame::random(call.curve, rng),
            work: Frame::random(call.work, rng),
            answer: Frame::random(6, rng),
        }
    }
}

/// What a choosing call returned and did to its buffers.
#[derive(Clone, Debug)]
pub struct ChooseObserved {
    pub returned: u32,
    pub before: Buffers,
    pub after: Buffers,
}

impl ChooseObserved {
    /// The marks of so many records.
    pub fn marks(&self, records: usize) -> &[u8] {
        &self.after.marks.content()[..records]
    }
}

pub fn guarded_choose(call: &Call, rng: &mut Random) -> ChooseObserved {
    choose_in(call.count, call.way, Buffers::random(call, rng))
}

/// The library's function on buffers as they are.
pub fn choose_in(count: u32, way: u32, before: Buffers) -> ChooseObserved {
    let mut after = before.clone();
    // SAFETY: each frame's buffer has the length given here, and the frames are separate allocations.
    let returned = unsafe {
        plates_choose(
            after.outline.pointer(),
            after.outline.len,
            count,
            way,
            after.marks.pointer(),
            after.marks.len,
            after.curve.pointer(),
            after.curve.len,
            after.work.pointer(),
            after.work.len,
            after.answer.pointer(),
        )
    };
    ChooseObserved {
        returned,
        before,
        after,
    }
}

/// What a check returned and did to its buffers.
#[derive(Clone, Debug)]
pub struct CheckObserved {
    pub returned: u32,
    pub outline_before: Frame<u8>,
    pub outline_after: Frame<u8>,
    pub place_before: Frame<u32>,
    pub place_after: Frame<u32>,
}

pub fn guarded_check(outline: &[u8], rng: &mut Random) -> CheckObserved {
    let outline_before = Frame::holding(outline, rng);
    let place_before = Frame::random(1, rng);
    let mut outline_after = outline_before.clone();
    let mut place_after = place_before.clone();
    // SAFETY: the frame's buffer has the length given here; the place has room for one number.
    let returned = unsafe {
        plates_check(
            outline_after.pointer(),
            outline_after.len,
            place_after.pointer(),
        )
    };
    CheckObserved {
        returned,
        outline_before,
        outline_after,
        place_before,
        place_after,
    }
}

/// What a search for a plate returned and did to the outline.
#[derive(Clone, Debug)]
pub struct FindObserved {
    pub returned: u32,
    pub outline_before: Frame<u8>,
    pub outline_after: Frame<u8>,
}

pub fn guarded_find(outline: &[u8], plate: u32, rng: &mut Random) -> FindObserved {
    let outline_before = Frame::holding(outline, rng);
    let mut outline_after = outline_before.clone();
    // SAFETY: the frame's buffer has the length given here.
    let returned = unsafe { plates_find(outline_after.pointer(), outline_after.len, plate) };
    FindObserved {
        returned,
        outline_before,
        outline_after,
    }
}

/// What a reading call is handed, with its guards.
#[derive(Clone, Debug)]
pub struct ReadBuffers {
    pub text: Frame<u8>,
    pub pairs: Frame<u32>,
    pub outline: Frame<u8>,
    pub answer: Frame<u32>,
}

impl ReadBuffers {
    pub fn random(call: &ReadCall, rng: &mut Random) -> Self {
        ReadBuffers {
            text: Frame::holding(&call.text, rng),
            pairs: Frame::holding(&call.pairs, rng),
            outline: Frame::random(call.outline, rng),
            answer: Frame::random(3, rng),
        }
    }
}

/// What a reading call returned and did to its buffers.
#[derive(Clone, Debug)]
pub struct ReadObserved {
    pub returned: u32,
    pub before: ReadBuffers,
    pub after: ReadBuffers,
}

pub fn guarded_read(call: &ReadCall, rng: &mut Random) -> ReadObserved {
    let before = ReadBuffers::random(call, rng);
    let mut after = before.clone();
    // SAFETY: each frame's buffer has the length given here, and the frames are separate allocations.
    let returned = unsafe {
        plates_read(
            after.text.pointer(),
            after.text.len,
            after.pairs.pointer(),
            after.pairs.len,
            after.outline.pointer(),
            after.outline.len,
            after.answer.pointer(),
        )
    };
    ReadObserved {
        returned,
        before,
        after,
    }
}

/// What a writing call is handed, with its guards.
#[derive(Clone, Debug)]
pub struct WriteBuffers {
    pub outline: Frame<u8>,
    pub text: Frame<u8>,
    pub pairs: Frame<u32>,
    pub answer: Frame<u32>,
}

impl WriteBuffers {
    pub fn random(call: &WriteCall, rng: &mut Random) -> Self {
        WriteBuffers {
            outline: Frame::holding(&call.outline, rng),
            text: Frame::random(call.text, rng),
            pairs: Frame::random(call.pairs, rng),
            answer: Frame::random(4, rng),
        }
    }
}

/// What a writing call returned and did to its buffers.
#[derive(Clone, Debug)]
pub struct WriteObserved {
    pub returned: u32,
    pub before: WriteBuffers,
    pub after: WriteBuffers,
}

pub fn guarded_write(call: &WriteCall, rng: &mut Random) -> WriteObserved {
    let before = WriteBuffers::random(call, rng);
    let mut after = before.clone();
    // SAFETY: each frame's buffer has the length given here, and the frames are separate allocations.
    let returned = unsafe {
        plates_write(
            after.outline.pointer(),
            after.outline.len,
            after.text.pointer(),
            after.text.len,
            after.pairs.pointer(),
            after.pairs.len,
            after.answer.pointer(),
        )
    };
    WriteObserved {
        returned,
        before,
        after,
    }
}

/// What a listing call is handed, with its guards.
#[derive(Clone, Debug)]
pub struct SheetBuffers {
    pub outline: Frame<u8>,
    pub marks: Frame<u8>,
    pub sheet: Frame<u32>,
    pub answer: Frame<u32>,
}

impl SheetBuffers {
    pub fn random(call: &SheetCall, rng: &mut Random) -> Self {
        SheetBuffers {
            outline: Frame::holding(&call.outline, rng),
            marks: Frame::holding(&call.marks, rng),
            sheet: Frame::random(call.sheet, rng),
            answer: Frame::random(5, rng),
        }
    }
}

/// What a listing call returned and did to its buffers.
#[derive(Clone, Debug)]
pub struct SheetObserved {
    pub returned: u32,
    pub before: SheetBuffers,
    pub after: SheetBuffers,
}

/// Marks that are a part of the outline's own memory are handed over from there.
pub fn guarded_sheet(call: &SheetCall, rng: &mut Random) -> SheetObserved {
    let before = SheetBuffers::random(call, rng);
    let mut after = before.clone();
    let outline = after.outline.pointer();
    let marks = call.within.map_or(after.marks.pointer(), |at| {
        assert_eq!(call.outline[at..][..call.marks.len()], call.marks);
        outline.wrapping_add(at)
    });
    // SAFETY: each frame's buffer has the length given here, and the frames are separate allocations; marks inside the outline
    // end inside it, and neither is written to.
    let returned = unsafe {
        plates_sheet(
            outline,
            after.outline.len,
            call.way,
            marks,
            after.marks.len,
            after.sheet.pointer(),
            after.sheet.len,
            after.answer.pointer(),
        )
    };
    SheetObserved {
        returned,
        before,
        after,
    }
}

/// What a showing call is handed, with its guards.
#[derive(Clone, Debug)]
pub struct ViewBuffers {
    pub outline: Frame<u8>,
    pub view: Frame<u8>,
    pub answer: Frame<u32>,
}

impl ViewBuffers {
    pub fn random(call: &ViewCall, rng: &mut Random) -> Self {
        ViewBuffers {
            outline: Frame::holding(&call.outline, rng),
            view: Frame::random(call.view, rng),
            answer: Frame::random(2, rng),
        }
    }
}

/// What a showing call returned and did to its buffers.
#[derive(Clone, Debug)]
pub struct ViewObserved {
    pub returned: u32,
    pub before: ViewBuffers,
    pub after: ViewBuffers,
}

/// A program that shows outlines: the library, or in tests a wrong one.
pub type Viewer<'a> = &'a dyn Fn(Reader, ViewBuffers) -> ViewObserved;

pub fn guarded_view(call: &ViewCall, rng: &mut Random) -> ViewObserved {
    view(call.reader, ViewBuffers::random(call, rng))
}

/// The library's function for this reader on buffers as they are.
pub fn view(reader: Reader, before: ViewBuffers) -> ViewObserved {
    let mut after = before.clone();
    let shown = match reader {
        Reader::House => plates_view_house,
        Reader::Buyer => plates_view_buyer,
    };
    // SAFETY: each frame's buffer has the length given here, and the frames are separate allocations.
    let returned = unsafe {
        shown(
            after.outline.pointer(),
            after.outline.len,
            after.view.pointer(),
            after.view.len,
            after.answer.pointer(),
        )
    };
    ViewObserved {
        returned,
        before,
        after,
    }
}

/// What a quick choice is handed, with its guards.
#[derive(Clone, Debug)]
pub struct QuickBuffers {
    pub outline: Frame<u8>,
    pub marks: Frame<u8>,
    pub answer: Frame<u32>,
    pub ceiling: Frame<u64>,
}

impl QuickBuffers {
    pub fn random(call: &QuickCall, rng: &mut Random) -> Self {
        QuickBuffers {
            outline: Frame::holding(&call.outline, rng),
            marks: Frame::random(call.marks, rng),
            answer: Frame::random(5, rng),
            ceiling: Frame::random(1, rng),
        }
    }
}

/// What a quick choice returned and did to its buffers.
#[derive(Clone, Debug)]
pub struct QuickObserved {
    pub returned: u32,
    pub before: QuickBuffers,
    pub after: QuickBuffers,
}

impl QuickObserved {
    /// The diversity that was given.
    pub fn diversity(&self) -> u32 {
        self.after.answer.content()[2]
    }

    pub fn ceiling(&self) -> u64 {
        self.after.ceiling.content()[0]
    }
}

/// A program that chooses quickly for a page count with so many picks: the library, or in tests a wrong one.
pub type Picker<'a> = &'a dyn Fn(u32, u32, QuickBuffers) -> QuickObserved;

pub fn guarded_quick(call: &QuickCall, rng: &mut Random) -> QuickObserved {
    quick(call.count, call.picks, QuickBuffers::random(call, rng))
}

/// The library's function on buffers as they are.
pub fn quick(count: u32, picks: u32, before: QuickBuffers) -> QuickObserved {
    let mut after = before.clone();
    // SAFETY: each frame's buffer has the length given here, and the frames are separate allocations; the answer has room for
    // five numbers and the ceiling for one.
    let returned = unsafe {
        plates_quick(
            after.outline.pointer(),
            after.outline.len,
            count,
            picks,
            after.marks.pointer(),
            after.marks.len,
            after.answer.pointer(),
            after.ceiling.pointer(),
        )
    };
    QuickObserved {
        returned,
        before,
        after,
    }
}

/// What a call for a house form is handed, with its guards.
#[derive(Clone, Debug)]
pub struct FormBuffers {
    pub outline: Frame<u8>,
    pub form: Frame<u8>,
    pub answer: Frame<u32>,
}

impl FormBuffers {
    pub fn random(call: &FormCall, rng: &mut Random) -> Self {
        FormBuffers {
            outline: Frame::holding(&call.outline, rng),
            form: Frame::random(call.form, rng),
            answer: Frame::random(2, rng),
        }
    }
}

/// What a call for a house form returned and did to its buffers.
#[derive(Clone, Debug)]
pub struct FormObserved {
    pub returned: u32,
    pub before: FormBuffers,
    pub after: FormBuffers,
}

/// A program that writes house forms: the library, or in tests a wrong one.
pub type Former<'a> = &'a dyn Fn(FormBuffers) -> FormObserved;

pub fn guarded_form(call: &FormCall, rng: &mut Random) -> FormObserved {
    form(FormBuffers::random(call, rng))
}

/// The library's function on buffers as they are.
pub fn form(before: FormBuffers) -> FormObserved {
    let mut after = before.clone();
    // SAFETY: each frame's buffer has the length given here, and the frames are separate allocations.
    let returned = unsafe {
        plates_house_form(
            after.outline.pointer(),
            after.outline.len,
            after.form.pointer(),
            after.form.len,
            after.answer.pointer(),
        )
    };
    FormObserved {
        returned,
        before,
        after,
    }
}

/// What a call that compares two trees is handed, with its guards.
#[derive(Clone, Debug)]
pub struct CompareBuffers {
    pub outlines: [Frame<u8>; 2],
    pub within: Option<usize>,
    pub forms: [Frame<u8>; 2],
    pub answer: Frame<u32>,
    pub order: Frame<i32>,
}

impl CompareBuffers {
    pub fn random(call: &CompareCall, rng: &mut Random) -> Self {
        let [one, other] = &call.outlines;
        CompareBuffers {
            outlines: [one, other].map(|outline| Frame::holding(outline, rng)),
            within: call.within,
            forms: call.forms.map(|form| Frame::random(form, rng)),
            answer: Frame::random(2, rng),
            order: Frame::random(1, rng),
        }
    }
}

/// What a call that compares two trees returned and did to its buffers.
#[derive(Clone, Debug)]
pub struct CompareObserved {
    pub returned: u32,
    pub before: CompareBuffers,
    pub after: CompareBuffers,
}

impl CompareObserved {
    pub fn order(&self) -> i32 {
        self.after.order.content()[0]
    }

    /// As many bytes of each form as the outline has.
    pub fn forms(&self) -> [&[u8]; 2] {
        [0, 1].map(|which| {
            let form = self.after.forms[which].content();
            &form[..self.before.outlines[which].len]
        })
    }
}

/// A program that compares two trees: the library, or in tests a wrong one.
pub type Comparer<'a> = &'a dyn Fn(CompareBuffers) -> CompareObserved;

pub fn guarded_compare(call: &CompareCall, rng: &mut Random) -> CompareObserved {
    compare(CompareBuffers::random(call, rng))
}

/// The library's function on buffers as they are. A second outline that is a part of the first one's memory is handed over from
/// there.
pub fn compare(before: CompareBuffers) -> CompareObserved {
    let mut after = before.clone();
    let [one, other] = &mut after.outlines;
    let (lengths, first) = ([one.len, other.len], one.pointer());
    let second = before.within.map_or(other.pointer(), |at| {
        assert_eq!(one.content()[at..][..other.len], *other.content());
        first.wrapping_add(at)
    });
    let [form, other_form] = &mut after.forms;
    // SAFETY: each frame's buffer has the length given here, and the frames are separate allocations; an outline inside the other
    // ends inside it, and neither is written to; the answer has room for two numbers and the order for one.
    let returned = unsafe {
        plates_compare(
            first,
            lengths[0],
            second,
            lengths[1],
            form.pointer(),
            form.len,
            other_form.pointer(),
            other_form.len,
            after.answer.pointer(),
            after.order.pointer(),
        )
    };
    CompareObserved {
        returned,
        before,
        after,
    }
}

/// What a call that revises a length is handed, with its guards: the buffers of a choosing call, and those of the movement.
#[derive(Clone, Debug)]
pub struct ReviseBuffers {
    pub choice: Buffers,
    pub moved: Frame<i64>,
}

impl ReviseBuffers {
    pub fn random(call: &ReviseCall, rng: &mut Random) -> Self {
        ReviseBuffers {
            choice: Buffers::random(&call.given, rng),
            moved: Frame::random(2, rng),
        }
    }
}

/// What a call that revises a length returned and did to its buffers.
#[derive(Clone, Debug)]
pub struct ReviseObserved {
    pub chosen: ChooseObserved,
    pub moved_before: Frame<i64>,
    pub moved_after: Frame<i64>,
}

impl ReviseObserved {
    /// The best diversity and the length, each new minus old.
    pub fn moved(&self) -> [i64; 2] {
        let moved = self.moved_after.content();
        [moved[0], moved[1]]
    }
}

/// A program that revises a length: the library, or in tests a wrong one.
pub type Reviser<'a> = &'a dyn Fn(&ReviseCall, ReviseBuffers) -> ReviseObserved;

pub fn guarded_revise(call: &ReviseCall, rng: &mut Random) -> ReviseObserved {
    revise(call, ReviseBuffers::random(call, rng))
}

/// The library's function on buffers as they are.
pub fn revise(call: &ReviseCall, before: ReviseBuffers) -> ReviseObserved {
    let ReviseBuffers { choice, moved } = before;
    let (mut after, mut moved_after) = (choice.clone(), moved.clone());
    // SAFETY: each frame's buffer has the length given here, and the frames are separate allocations; the answer has room for six
    // numbers and the movement for two.
    let returned = unsafe {
        plates_revise(
            after.outline.pointer(),
            after.outline.len,
            call.record,
            call.length,
            call.given.count,
            call.given.way,
            after.marks.pointer(),
            after.marks.len,
            after.curve.pointer(),
            after.curve.len,
            after.work.pointer(),
            after.work.len,
            after.answer.pointer(),
            moved_after.pointer(),
        )
    };
    ReviseObserved {
        chosen: ChooseObserved {
            returned,
            before: choice,
            after,
        },
        moved_before: moved,
        moved_after,
    }
}

/// What a call for a range of prices is handed, with its guards: the buffers of a choosing call, whose outline is the one at high
/// prices, the outline at low prices and the roof.
#[derive(Clone, Debug)]
pub struct RangeBuffers {
    pub choice: Buffers,
    pub low: Frame<u8>,
    pub roof: Frame<u32>,
}

impl RangeBuffers {
    pub fn random(call: &RangeCall, rng: &mut Random) -> Self {
        RangeBuffers {
            choice: Buffers::random(&call.high, rng),
            low: Frame::holding(&call.low, rng),
            roof: Frame::random(1, rng),
        }
    }
}

/// What a call for a range of prices returned and did to its buffers.
#[derive(Clone, Debug)]
pub struct RangeObserved {
    pub chosen: ChooseObserved,
    pub low_before: Frame<u8>,
    pub low_after: Frame<u8>,
    pub roof_before: Frame<u32>,
    pub roof_after: Frame<u32>,
}

impl RangeObserved {
    pub fn roof(&self) -> u32 {
        self.roof_after.content()[0]
    }
}

/// A program that chooses for a range of prices: the library, or in tests a wrong one.
pub type Ranger<'a> = &'a dyn Fn(&RangeCall, RangeBuffers) -> RangeObserved;

pub fn guarded_range(call: &RangeCall, rng: &mut Random) -> RangeObserved {
    range(call, RangeBuffers::random(call, rng))
}

/// The outline at low prices where it stands: at times it is a part of the other one's memory.
fn low_pointer(call: &RangeCall, high: &mut Frame<u8>, low: &mut Frame<u8>) -> *const u8 {
    call.within.map_or(low.pointer(), |at| {
        assert_eq!(high.content()[at..][..low.len], *low.content());
        high.pointer().wrapping_add(at)
    })
}

/// The library's function on buffers as they are.
pub fn range(call: &RangeCall, before: RangeBuffers) -> RangeObserved {
    let RangeBuffers { choice, low, roof } = before;
    let (mut after, mut low_after, mut roof_after) = (choice.clone(), low.clone(), roof.clone());
    let at_low = low_pointer(call, &mut after.outline, &mut low_after);
    // SAFETY: each frame's buffer has the length given here, and the frames are separate allocations; an outline inside the other
    // ends inside it, and neither is written to; the answer has room for six numbers and the roof for one.
    let returned = unsafe {
        plates_range(
            at_low,
            low.len,
            after.outline.pointer(),
            after.outline.len,
            call.high.count,
            call.high.way,
            after.marks.pointer(),
            after.marks.len,
            after.curve.pointer(),
            after.curve.len,
            after.work.pointer(),
            after.work.len,
            after.answer.pointer(),
            roof_after.pointer(),
        )
    };
    RangeObserved {
        chosen: ChooseObserved {
            returned,
            before: choice,
            after,
        },
        low_before: low,
        low_after,
        roof_before: roof,
        roof_after,
    }
}

#[cfg(test)]
mod tests {
    use super::*;
    use crate::cases::tree_a;
    use crate::outline::bytes;

    #[test]
    fn wrapper_gives_tree_a() {
        let outline = bytes(&tree_a());
        let (mut marks, mut curve) = ([9; 5], [9; 12]);
        let mut work = vec![9; work_len(5, 5)];
        let answer = choose(&outline, 5, 0, &mut marks, &mut curve, &mut work);
        assert_eq!(answer, [0, 0, 12, 5, 2, 0]);
        assert_eq!(marks, [0, 0, 1, 0, 1]);
        assert_eq!(curve, [0, 0, 5, 1, 5, 1, 10, 3, 10, 3, 12, 5]);
        assert!(work.iter().all(|&number| number == 0));
    }

    #[test]
    fn wrapper_checks_tree_a() {
        let mut outline = bytes(&tree_a());
        assert_eq!(check(&outline), [0, 0]);
        outline[64] = 1;
        assert_eq!(check(&outline), [6, 5]);
    }

    #[test]
    fn wrapper_reads_tree_a() {
        let mut outline = [9; 81];
        let pairs = [11, 3, 12, 1, 13, 2];
        let answer = read(b"((11:4,12:2):3,13:5);", &pairs, &mut outline);
        assert_eq!(answer, [0, 0, 5]);
        assert_eq!(outline[..80], bytes(&tree_a()));
        assert_eq!(outline[80], 9);
    }

    #[test]
    fn wrapper_writes_tree_a() {
        let (mut text, mut pairs) = ([9; 24], [9; 7]);
        let answer = write(&bytes(&tree_a()), &mut text, &mut pairs);
        assert_eq!(answer, [0, 0, 23, 3]);
        assert_eq!(text, *b"((11:4,12:2):3,13:5):0;\x09");
        assert_eq!(pairs, [11, 3, 12, 1, 13, 2, 9]);
    }

    /// Record 3 has a length and a price whose bytes are 0, 0, 1, 0 and 1, 0, 0, 0.
    #[test]
    fn marks_are_taken_from_their_own_memory_or_from_the_outline() {
        let mut records = tree_a();
        (records[2].length, records[2].price) = (65_536, 1);
        let mut call = SheetCall {
            outline: bytes(&records),
            way: 0,
            marks: vec![0, 0, 1, 0, 1],
            within: None,
            sheet: 7,
        };
        for within in [None, Some(36)] {
            call.within = within;
            let observed = guarded_sheet(&call, &mut Random::new(1));
            let SheetBuffers { sheet, answer, .. } = observed.after;
            assert_eq!(observed.returned, 0);
            assert_eq!(answer.content(), [0, 0, 2, 3, 65_544]);
            assert_eq!(sheet.content()[..6], [11, 1, 65_539, 13, 2, 5]);
            assert_eq!(sheet.content()[6], observed.before.sheet.content()[6]);
        }
    }

    /// Record 3 of tree A has price 3 and is locked here.
    #[test]
    fn each_reader_has_a_function() {
        let mut outline = bytes(&tree_a());
        outline[47] = 128;
        for (reader, price, lock) in [(Reader::House, 3, 128), (Reader::Buyer, 0, 0)] {
            let call = ViewCall {
                outline: outline.clone(),
                reader,
                view: 81,
            };
            let observed = guarded_view(&call, &mut Random::new(1));
            let ViewBuffers { view, answer, .. } = observed.after;
            assert_eq!(observed.returned, 0);
            assert_eq!(answer.content(), [0, 0]);
            assert_eq!((view.content()[40], view.content()[47]), (price, lock));
            assert_eq!(view.content()[80], observed.before.view.content()[80]);
        }
    }

    #[test]
    fn wrapper_chooses_quickly_from_tree_a() {
        let call = QuickCall {
            outline: bytes(&tree_a()),
            count: 5,
            picks: 1,
            marks: 6,
        };
        let observed = guarded_quick(&call, &mut Random::new(1));
        assert_eq!(observed.returned, 0);
        assert_eq!((observed.diversity(), observed.ceiling()), (7, 14));
        let QuickBuffers { marks, answer, .. } = observed.after;
        assert_eq!(answer.content(), [0, 0, 7, 3, 1]);
        assert_eq!(marks.content()[..5], [0, 0, 1, 0, 0]);
        assert_eq!(marks.content()[5], observed.before.marks.content()[5]);
    }

    #[test]
    fn wrapper_writes_the_house_form_of_tree_a() {
        let mut records = tree_a();
        (records[2].plate, records[3].plate) = (12, 11);
        let call = FormCall {
            outline: bytes(&records),
            form: 81,
        };
        let observed = guarded_form(&call, &mut Random::new(1));
        assert_eq!(observed.returned, 0);
        let FormBuffers { form, answer, .. } = observed.after;
        assert_eq!(answer.content(), [0, 0]);
        assert_eq!([44, 60].map(|at| form.content()[at]), [11, 12]);
        assert_eq!(form.content()[80], observed.before.form.content()[80]);
    }

    /// Record 5 by itself is an outline too, and a lone taxon comes before a group.
    #[test]
    fn trees_are_taken_from_their_own_memory_or_one_from_the_other() {
        let outline = bytes(&tree_a());
        for (within, from, order) in [
            (None, 0, 0),
            (Some(0), 0, 0),
            (None, 64, 1),
            (Some(64), 64, 1),
        ] {
            let call = CompareCall {
                outlines: [outline.clone(), outline[from..].to_vec()],
                within,
                forms: [80, 81],
            };
            let observed = guarded_compare(&call, &mut Random::new(1));
            assert_eq!((observed.returned, observed.order()), (0, order));
            assert_eq!(observed.forms(), [&outline[..], &outline[from..]]);
            assert_eq!(observed.after.answer.content(), [0, 0]);
        }
    }
    /// Record 3 gets a length of 0, so that records 4 and 5 are chosen.
    #[test]
    fn wrapper_revises_tree_a() {
        let call = ReviseCall {
            given: Call {
                outline: bytes(&tree_a()),
                count: 5,
                way: 0,
                marks: 6,
                curve: 13,
                work: 169,
            },
            record: 3,
            length: 0,
        };
        let observed = guarded_revise(&call, &mut Random::new(1));
        assert_eq!(observed.moved(), [-2, -4]);
        let ChooseObserved {
            returned,
            before,
            after,
        } = observed.chosen;
        assert_eq!(returned, 0);
        assert_eq!(after.answer.content(), [0, 0, 10, 3, 2, 2]);
        assert_eq!(after.outline.content(), call.given.outline);
        assert_eq!(after.marks.content()[..5], [0, 0, 0, 1, 1]);
        assert_eq!(after.marks.content()[5], before.marks.content()[5]);
        let curve = [0, 0, 5, 1, 5, 1, 10, 3, 10, 3, 10, 3];
        assert_eq!(after.curve.content()[..12], curve);
        assert_eq!(after.work.content()[..168], [0; 168]);
    }

    /// Tree A, and at low prices record 3 for 2 quarters, so that all three fit.
    #[test]
    fn wrapper_chooses_for_a_range_of_prices() {
        let outline = bytes(&tree_a());
        let mut cheaper = outline.clone();
        cheaper[40] = 2;
        for (low, within, roof) in [
            (&cheaper, None, 14),
            (&outline, None, 12),
            (&outline, Some(0), 12),
        ] {
            let call = RangeCall {
                high: Call {
                    outline: outline.clone(),
                    count: 5,
                    way: 0,
                    marks: 6,
                    curve: 13,
                    work: 169,
                },
                low: low.clone(),
                within,
            };
            let observed = guarded_range(&call, &mut Random::new(1));
            assert_eq!((observed.chosen.returned, observed.roof()), (0, roof));
            let ChooseObserved { before, after, .. } = observed.chosen;
            assert_eq!(after.answer.content(), [0, 0, 12, 5, 2, 0]);
            assert_eq!(after.outline.content(), outline);
            assert_eq!(observed.low_after.content(), *low);
            assert_eq!(after.marks.content()[..5], [0, 0, 1, 0, 1]);
            assert_eq!(after.marks.content()[5], before.marks.content()[5]);
            let curve = [0, 0, 5, 1, 5, 1, 10, 3, 10, 3, 12, 5];
            assert_eq!(after.curve.content()[..12], curve);
            assert_eq!(after.work.content()[..168], [0; 168]);
        }
    }
}
