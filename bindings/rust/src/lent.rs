//! The library's calls with every buffer lent by the caller, the answer's too. Each writes an answer of 32 words into `out` (the report three into
//! `part`) and hands back whether that had room: a shorter one stays as it was. bindings/README.md has the words.

#[rustfmt::skip]
extern "C" {
    fn kind_compile(
        image: *const u8, image_len: usize,
        table: *mut u32, table_len: usize,
        out: *mut u32, out_len: usize,
    ) -> bool;

    fn kind_combine(
        table: *const u32, table_len: usize,
        rows: *const u32, rows_len: usize,
        twins: *mut u16, twins_len: usize,
        code: u8, left: u16, right: u16,
        out: *mut u32, out_len: usize,
    ) -> bool;

    fn kind_power(
        table: *const u32, table_len: usize,
        twins: *mut u16, twins_len: usize,
        base: u16, num: i32, den: u32,
        out: *mut u32, out_len: usize,
    ) -> bool;

    fn kind_power_inexact(
        table: *const u32, table_len: usize,
        twins: *mut u16, twins_len: usize,
        base: u16,
        out: *mut u32, out_len: usize,
    ) -> bool;

    fn kind_formula(
        table: *const u32, table_len: usize,
        rows: *const u32, rows_len: usize,
        twins: *mut u16, twins_len: usize,
        tokens: *const u8, tokens_len: usize,
        out: *mut u32, out_len: usize,
    ) -> bool;

    fn kind_report(
        image: *const u8, image_len: usize,
        word: *const u8, word_len: usize,
        is_kind: bool, kind: u16,
        part: *mut usize, part_len: usize,
    ) -> bool;
}

// Why each `unsafe` block is sound: the functions are proved to end and to read and write nothing but the slices that are lent, within their
// lengths, for every content; Rust's borrows keep the slices alive and apart for the call.

/// A catalog image compiled into a table of 9,296 words.
pub fn compile(image: &[u8], table: &mut [u32], out: &mut [u32]) -> bool {
    unsafe { kind_compile(image.as_ptr(), image.len(), table.as_mut_ptr(), table.len(), out.as_mut_ptr(), out.len()) }
}

/// Two kinds combined by the code of a token, 2 to 7.
#[rustfmt::skip]
pub fn combine(table: &[u32], rows: &[u32], twins: &mut [u16], code: u8, left: u16, right: u16, out: &mut [u32]) -> bool {
    unsafe {
        kind_combine(
            table.as_ptr(), table.len(),
            rows.as_ptr(), rows.len(),
            twins.as_mut_ptr(), twins.len(),
            code, left, right,
            out.as_mut_ptr(), out.len(),
        )
    }
}

/// A kind to the exponent `num / den`.
#[rustfmt::skip]
pub fn power(table: &[u32], twins: &mut [u16], base: u16, num: i32, den: u32, out: &mut [u32]) -> bool {
    unsafe {
        kind_power(
            table.as_ptr(), table.len(),
            twins.as_mut_ptr(), twins.len(),
            base, num, den,
            out.as_mut_ptr(), out.len(),
        )
    }
}

/// A kind to an exponent that is known inexactly.
#[rustfmt::skip]
pub fn power_inexact(table: &[u32], twins: &mut [u16], base: u16, out: &mut [u32]) -> bool {
    unsafe {
        kind_power_inexact(
            table.as_ptr(), table.len(),
            twins.as_mut_ptr(), twins.len(),
            base,
            out.as_mut_ptr(), out.len(),
        )
    }
}

/// A formula's tokens, 12 bytes each.
#[rustfmt::skip]
pub fn formula(table: &[u32], rows: &[u32], twins: &mut [u16], tokens: &[u8], out: &mut [u32]) -> bool {
    unsafe {
        kind_formula(
            table.as_ptr(), table.len(),
            rows.as_ptr(), rows.len(),
            twins.as_mut_ptr(), twins.len(),
            tokens.as_ptr(), tokens.len(),
            out.as_mut_ptr(), out.len(),
        )
    }
}

/// Where what is printed lies: in `part`, 1 for the image or 0 for the word, its first byte, its length.
#[rustfmt::skip]
pub fn report(image: &[u8], word: &[u8], is_kind: bool, kind: u16, part: &mut [usize]) -> bool {
    unsafe {
        kind_report(
            image.as_ptr(), image.len(),
            word.as_ptr(), word.len(),
            is_kind, kind,
            part.as_mut_ptr(), part.len(),
        )
    }
}
