//! The calls of `borsh.h`. One that gives a number beside its answer returns both.

/// The code of bytes that end within a value.
pub const SHORT: u32 = 6;

/// A buffer of the library, which is freed when it is dropped.
#[repr(C)]
struct Buffer {
    data: *const u8,
    length: usize,
    path: *const u8,
    path_length: usize,
    offset: usize,
    has_offset: bool,
    block: *mut u8,
}

/// What a call returned: its code, what it filled its buffer with, and the place that it told.
pub struct Answer {
    pub code: u32,
    pub bytes: Vec<u8>,
    pub path: Option<Vec<u8>>,
    pub offset: Option<usize>,
}

extern "C" {
    fn borsh_free(buffer: *mut Buffer);
    // tools/calls.py writes: declarations
    fn borsh_valid(schema: *const u8, schema_length: usize, text: *mut Buffer) -> u32;
    fn borsh_size(
        schema: *const u8,
        schema_length: usize,
        size: *mut usize,
        text: *mut Buffer,
    ) -> u32;
    fn borsh_names(schema: *const u8, schema_length: usize, json: *mut Buffer) -> u32;
    fn borsh_member(
        schema: *const u8,
        schema_length: usize,
        value: *const u8,
        value_length: usize,
        text: *mut Buffer,
    ) -> u32;
    fn borsh_to_json(
        schema: *const u8,
        schema_length: usize,
        value: *const u8,
        value_length: usize,
        is_compact: bool,
        has_quoted_numbers: bool,
        json: *mut Buffer,
    ) -> u32;
    fn borsh_from_json(
        schema: *const u8,
        schema_length: usize,
        json: *const u8,
        json_length: usize,
        value: *mut Buffer,
    ) -> u32;
    fn borsh_records(
        schema: *const u8,
        schema_length: usize,
        bytes: *const u8,
        bytes_length: usize,
        lengths: *mut usize,
        lengths_room: usize,
        count: *mut usize,
        text: *mut Buffer,
    ) -> u32;
    fn borsh_json_lines(
        schema: *const u8,
        schema_length: usize,
        values: *const u8,
        values_length: usize,
        lengths: *const usize,
        lengths_count: usize,
        has_quoted_numbers: bool,
        count: *mut usize,
        lines: *mut Buffer,
    ) -> u32;
    fn borsh_compile(
        text: *const u8,
        text_length: usize,
        type_text: *const u8,
        type_text_length: usize,
        container: *mut Buffer,
    ) -> u32;
    fn borsh_compare(
        old_schema: *const u8,
        old_schema_length: usize,
        new_schema: *const u8,
        new_schema_length: usize,
        text: *mut Buffer,
    ) -> u32;
    // tools/calls.py: end
}

impl Drop for Buffer {
    fn drop(&mut self) {
        // SAFETY: the buffer is empty, or a call of the library filled it, and nothing else frees it.
        unsafe { borsh_free(self) }
    }
}

/// Makes a call with a buffer. The call has to fill it as `borsh.h` says.
fn call(fill: impl FnOnce(*mut Buffer) -> u32) -> Answer {
    let mut buffer = Buffer {
        data: std::ptr::null(),
        length: 0,
        path: std::ptr::null(),
        path_length: 0,
        offset: 0,
        has_offset: false,
        block: std::ptr::null_mut(),
    };
    let code = fill(&mut buffer);
    // SAFETY: each call of the library leaves the buffer with `length` bytes at `data`, which isn't null, and with `path_length`
    // bytes at `path` if that isn't null.
    let copy = |bytes, length| unsafe { std::slice::from_raw_parts(bytes, length) }.to_vec();
    Answer {
        code,
        bytes: copy(buffer.data, buffer.length),
        path: (!buffer.path.is_null()).then(|| copy(buffer.path, buffer.path_length)),
        offset: buffer.has_offset.then_some(buffer.offset),
    }
}

// SAFETY: each slice lies at its pointer, and the buffer is ours.
// tools/calls.py writes: calls
pub fn valid(schema: &[u8]) -> Answer {
    call(|out| unsafe { borsh_valid(schema.as_ptr(), schema.len(), out) })
}

pub fn size(schema: &[u8]) -> (usize, Answer) {
    let mut number = 0;
    let answer = call(|out| unsafe { borsh_size(schema.as_ptr(), schema.len(), &mut number, out) });
    (number, answer)
}

pub fn names(schema: &[u8]) -> Answer {
    call(|out| unsafe { borsh_names(schema.as_ptr(), schema.len(), out) })
}

pub fn member(schema: &[u8], value: &[u8]) -> Answer {
    call(|out| unsafe {
        borsh_member(
            schema.as_ptr(),
            schema.len(),
            value.as_ptr(),
            value.len(),
            out,
        )
    })
}

pub fn to_json(schema: &[u8], value: &[u8], is_compact: bool, has_quoted_numbers: bool) -> Answer {
    call(|out| unsafe {
        borsh_to_json(
            schema.as_ptr(),
            schema.len(),
            value.as_ptr(),
            value.len(),
            is_compact,
            has_quoted_numbers,
            out,
        )
    })
}

pub fn from_json(schema: &[u8], json: &[u8]) -> Answer {
    call(|out| unsafe {
        borsh_from_json(
            schema.as_ptr(),
            schema.len(),
            json.as_ptr(),
            json.len(),
            out,
        )
    })
}

pub fn records(schema: &[u8], bytes: &[u8], lengths: &mut [usize]) -> (usize, Answer) {
    let mut number = 0;
    let answer = call(|out| unsafe {
        borsh_records(
            schema.as_ptr(),
            schema.len(),
            bytes.as_ptr(),
            bytes.len(),
            lengths.as_mut_ptr(),
            lengths.len(),
            &mut number,
            out,
        )
    });
    (number, answer)
}

pub fn json_lines(
    schema: &[u8],
    values: &[u8],
    lengths: &[usize],
    has_quoted_numbers: bool,
) -> (usize, Answer) {
    let mut number = 0;
    let answer = call(|out| unsafe {
        borsh_json_lines(
            schema.as_ptr(),
            schema.len(),
            values.as_ptr(),
            values.len(),
            lengths.as_ptr(),
            lengths.len(),
            has_quoted_numbers,
            &mut number,
            out,
        )
    });
    (number, answer)
}

pub fn compile(text: &[u8], type_text: &[u8]) -> Answer {
    call(|out| unsafe {
        borsh_compile(
            text.as_ptr(),
            text.len(),
            type_text.as_ptr(),
            type_text.len(),
            out,
        )
    })
}

pub fn compare(old_schema: &[u8], new_schema: &[u8]) -> Answer {
    call(|out| unsafe {
        borsh_compare(
            old_schema.as_ptr(),
            old_schema.len(),
            new_schema.as_ptr(),
            new_schema.len(),
            out,
        )
    })
}
// tools/calls.py: end
