// The C interface of the port: include/sinotayam.h.

mod c {
    extern "C" {
        pub fn sinotayam_read(book: *const u8, bl: usize, root: u16, message: *const u8, ml: usize, standard: u8, table: *mut u64, words: usize, position: *mut u64, need: *mut u64) -> u64;
        pub fn sinotayam_prepare(book: *const u8, bl: usize, index: *mut u32, il: usize) -> u8;
        pub fn sinotayam_read_prepared(
            book: *const u8,
            bl: usize,
            index: *const u32,
            il: usize,
            root: u16,
            message: *const u8,
            ml: usize,
            standard: u8,
            table: *mut u64,
            words: usize,
            position: *mut u64,
            need: *mut u64,
        ) -> u64;
    }
}

pub fn read(book: &[u8], root: u16, message: &[u8], standard: u8, table: &mut [u64]) -> u64 {
    let (mut position, mut need) = (0, 0);
    unsafe { c::sinotayam_read(book.as_ptr(), book.len(), root, message.as_ptr(), message.len(), standard, table.as_mut_ptr(), table.len(), &mut position, &mut need) }
}

pub fn prepare(book: &[u8], index: &mut [u32]) -> u8 {
    unsafe { c::sinotayam_prepare(book.as_ptr(), book.len(), index.as_mut_ptr(), index.len()) }
}

pub fn read_prepared(book: &[u8], index: &[u32], root: u16, message: &[u8], standard: u8, table: &mut [u64]) -> u64 {
    let (mut position, mut need) = (0, 0);
    unsafe {
        c::sinotayam_read_prepared(
            book.as_ptr(),
            book.len(),
            index.as_ptr(),
            index.len(),
            root,
            message.as_ptr(),
            message.len(),
            standard,
            table.as_mut_ptr(),
            table.len(),
            &mut position,
            &mut need,
        )
    }
}
