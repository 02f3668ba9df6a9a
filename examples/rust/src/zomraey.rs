//! The library's C interface, `include/zomraey.h`, behind safe functions over slices.

/// What a plan says; the fields are those of the header.
#[repr(C)]
#[derive(Clone, Copy, Debug)]
pub struct PlanAnswer {
    pub verdict: u8,
    pub refusal: u8,
    pub call: u8,
    pub target: u8,
    pub first: u8,
    pub second: u8,
    pub third: u8,
    pub in_move: bool,
    pub number: u8,
    pub moves: usize,
    pub time: u64,
    pub rounds: u64,
    pub byte: usize,
}

/// What a call says that writes a file; the fields are those of the header.
#[repr(C)]
#[derive(Clone, Copy, Debug)]
pub struct FileAnswer {
    pub ending: u8,
    pub refusal: u8,
    pub place: usize,
    pub length: usize,
    pub time: u64,
}

extern "C" {
    fn zomraey_plan(
        file: *const u8,
        file_length: usize,
        nodes: usize,
        sheet: *mut u8,
        sheet_length: usize,
    ) -> PlanAnswer;

    fn zomraey_perform(
        file: *const u8,
        file_length: usize,
        run: *const u8,
        run_length: usize,
        buffer: *mut u8,
        buffer_length: usize,
    ) -> FileAnswer;
}

/// The moves of a plan, its time and its rounds; or the whole answer where there is no way or a refusal.
pub fn plan<'a>(
    file: &[u8],
    nodes: usize,
    sheet: &'a mut [u8],
) -> Result<(&'a [u8], u64, u64), PlanAnswer> {
    // Pointers and lengths are those of slices that live through the call, and only one of them is written.
    let said = unsafe {
        zomraey_plan(
            file.as_ptr(),
            file.len(),
            nodes,
            sheet.as_mut_ptr(),
            sheet.len(),
        )
    };
    match said.verdict {
        0 => Ok((&sheet[..said.moves], said.time, said.rounds)),
        _ => Err(said),
    }
}

/// The file of what a run leaves, and how long it takes; or the whole answer where a file or a move is refused.
pub fn perform<'a>(
    file: &[u8],
    run: &[u8],
    buffer: &'a mut [u8],
) -> Result<(&'a [u8], u64), FileAnswer> {
    // As in `plan`.
    let done = unsafe {
        zomraey_perform(
            file.as_ptr(),
            file.len(),
            run.as_ptr(),
            run.len(),
            buffer.as_mut_ptr(),
            buffer.len(),
        )
    };
    match done.ending {
        0 => Ok((&buffer[..done.length], done.time)),
        _ => Err(done),
    }
}
