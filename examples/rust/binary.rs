// Reads a binary strip, which needs no profile: three wrong bits are mended, four are not. ../c/binary.c is the same
// program; ../expected_binary is what both print.

extern "C" {
    /// include/gii.h says what it promises. Each slice is a pointer and a length.
    fn gii_decode_binary(strip: *const u8, strip_size: usize, out: *mut u8, out_size: usize) -> u8;
}

fn decode_binary(strip: &[u8], out: &mut [u8]) -> u8 {
    unsafe { gii_decode_binary(strip.as_ptr(), strip.len(), out.as_mut_ptr(), out.len()) }
}

fn main() {
    let bits = [1, 0, 1, 0, 1, 1, 0, 1, 1, 0, 0, 0, 0, 1, 0, 1, 1, 1, 0, 1, 1, 1, 0, 1, 1];
    let mut strip = bits;
    for p in [0, 9, 24] {
        strip[p] ^= 1;
    }
    let mut mended = [0; 25];
    let number = decode_binary(&strip, &mut mended);
    println!("binary strip {number}: {}", if mended == bits { "mended" } else { "not mended" });
    strip[3] ^= 1;
    let number = decode_binary(&strip, &mut mended);
    println!("refused {number}: a binary strip has more than three wrong bits");
}
