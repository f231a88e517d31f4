//! The functions of the static library as the linker knows them; `include/boomcrutch.h` says the same in C.

/// What reading answers: number 0 if the text was read, else the refusal and its place, the rest 0.
#[repr(C)]
#[derive(Clone, Copy, Debug, PartialEq, Eq)]
pub struct ReadAnswer {
    pub number: u64,
    pub place: u64,
    pub cells: u64,
    pub entries: u64,
    /// 1 if the divider is `/`, 0 if it is `.`.
    pub slash: u64,
    /// The time scale as a power of ten in femtoseconds.
    pub scale: u64,
    /// From, to of each of the header's texts; 0, 0 for a missing one.
    pub texts: [usize; 14],
}

/// What judging a sheet answers: number 0 or 10.
#[repr(C)]
#[derive(Clone, Copy, Debug, PartialEq, Eq)]
pub struct SheetAnswer {
    pub number: u64,
    pub place: u64,
    pub instances: u64,
    pub arcs: u64,
}

/// What annotating and patching answer.
#[repr(C)]
#[derive(Clone, Copy, Debug, PartialEq, Eq)]
pub struct ResultAnswer {
    pub number: u64,
    pub place: u64,
    /// 1 if the place is one of the incoming text.
    pub incoming: u64,
}

/// Declares each function, or, where its feature is off, one that stops the program.
macro_rules! exported {
    ($($feature:literal: fn $name:ident($($argument:ident: $type:ty),*) -> $answer:ty;)*) => {
        extern "C" {
            pub fn boomcrutch_count_tokens(text: *const u8, text_length: usize) -> usize;
            $(#[cfg(feature = $feature)] pub fn $name($($argument: $type),*) -> $answer;)*
        }
        $(#[cfg(not(feature = $feature))] pub unsafe fn $name($(_: $type),*) -> $answer {
            panic!("built without the proved functions of the group `{}`", $feature)
        })*
    };
}

exported! {
    "read": fn boomcrutch_read_file(
        text: *const u8, text_length: usize,
        cells: *mut u64, cells_length: usize, entries: *mut u64, entries_length: usize
    ) -> ReadAnswer;
    "cell": fn boomcrutch_read_cell(
        text: *const u8, text_length: usize, slash: u64, scale: u64,
        cells: *mut u64, cells_length: usize, entries: *mut u64, entries_length: usize
    ) -> ReadAnswer;
    "sheet": fn boomcrutch_check_sheet(sheet: *const u8, sheet_length: usize) -> SheetAnswer;
    "annotate": fn boomcrutch_annotate(
        start: *const u8, start_length: usize, text: *const u8, text_length: usize,
        cells: *mut u64, cells_length: usize, entries: *mut u64, entries_length: usize,
        out: *mut u8, out_length: usize
    ) -> ResultAnswer;
    "patch": fn boomcrutch_patch(
        start: *const u8, start_length: usize, file: *const u8, file_length: usize, number: u64,
        incoming: *const u8, incoming_length: usize, current: *mut u8, current_length: usize,
        cells: *mut u64, cells_length: usize, entries: *mut u64, entries_length: usize,
        incoming_cells: *mut u64, incoming_cells_length: usize,
        incoming_entries: *mut u64, incoming_entries_length: usize
    ) -> ResultAnswer;
}
