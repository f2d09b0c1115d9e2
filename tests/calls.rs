// The library's verdicts, on slices. For the tests that ask the archive.

extern "C" {
    fn zuwendryk_verdict(sheet: *const u8, sheet_len: usize, cut: u32, budget: u32, buffer: *mut u8, buffer_len: usize) -> u32;
    fn zuwendryk_quick_verdict(sheet: *const u8, sheet_len: usize, cut: u32, budget: u32, buffer: *mut u8, buffer_len: usize) -> u32;
    fn zuwendryk_limited_verdict(sheet: *const u8, sheet_len: usize, cut: u32, budget: u32, rules: u8, buffer: *mut u8, buffer_len: usize) -> u32;
}

// In each call both areas are slices, so neither pointer is null and they don't overlap.
pub fn verdict(s: &[u8], cut: u32, budget: u32, buffer: &mut [u8]) -> u32 {
    unsafe { zuwendryk_verdict(s.as_ptr(), s.len(), cut, budget, buffer.as_mut_ptr(), buffer.len()) }
}

pub fn quick(s: &[u8], cut: u32, budget: u32, buffer: &mut [u8]) -> u32 {
    unsafe { zuwendryk_quick_verdict(s.as_ptr(), s.len(), cut, budget, buffer.as_mut_ptr(), buffer.len()) }
}

pub fn limited(s: &[u8], cut: u32, budget: u32, rules: u8, buffer: &mut [u8]) -> u32 {
    unsafe { zuwendryk_limited_verdict(s.as_ptr(), s.len(), cut, budget, rules, buffer.as_mut_ptr(), buffer.len()) }
}
