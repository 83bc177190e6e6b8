// Writes a block, damages it, reads it and its data back and fetches a strip. ../c/main.c is the same program;
// ../expected is what both print.

/// The functions of include/gii.h, which says what they promise. Each slice is a pointer and a length.
mod sys {
    extern "C" {
        pub fn gii_data_size(profile: *const u8, profile_size: usize) -> usize;
        pub fn gii_block_size(profile: *const u8, profile_size: usize) -> usize;
        pub fn gii_encode(
            profile: *const u8,
            profile_size: usize,
            data: *const u8,
            data_size: usize,
            out: *mut u8,
            out_size: usize,
        ) -> u8;
        pub fn gii_decode(
            profile: *const u8,
            profile_size: usize,
            input: *const u8,
            input_size: usize,
            out: *mut u8,
            out_size: usize,
            form: u8,
            report: *mut u8,
            report_size: usize,
        ) -> u16;
        pub fn gii_read(
            profile: *const u8,
            profile_size: usize,
            block: *const u8,
            block_size: usize,
            data: *mut u8,
            data_size: usize,
        ) -> u16;
        pub fn gii_fetch(profile: *const u8, profile_size: usize, block: *const u8, block_size: usize, i: usize) -> u8;
        pub fn gii_fetch_start(
            profile: *const u8,
            profile_size: usize,
            block: *const u8,
            block_size: usize,
            i: usize,
        ) -> usize;
        pub fn gii_fetch_size(
            profile: *const u8,
            profile_size: usize,
            block: *const u8,
            block_size: usize,
            i: usize,
        ) -> usize;
    }
}

/// The same with slices. A slice of Rust's is all that gii.h asks of a buffer, so each call is safe.
mod gii {
    use super::sys;

    pub const PROFILE_BYTES: usize = 7;
    pub const REPORT_BYTES: usize = 45;
    pub const PLAIN: u8 = 0;
    pub const LOOKAHEAD: u8 = 1;
    pub const SCALED: u8 = 2;

    /// A refusal: its number, and with 8 the stage after which reading ended.
    pub struct Refusal {
        pub number: u8,
        pub stage: u8,
    }

    fn answer(result: u16) -> Result<(), Refusal> {
        match result {
            0 => Ok(()),
            _ => Err(Refusal { number: (result & 255) as u8, stage: (result >> 8) as u8 }),
        }
    }

    pub fn data_size(profile: &[u8]) -> usize {
        unsafe { sys::gii_data_size(profile.as_ptr(), profile.len()) }
    }

    pub fn block_size(profile: &[u8]) -> usize {
        unsafe { sys::gii_block_size(profile.as_ptr(), profile.len()) }
    }

    pub fn encode(profile: &[u8], data: &[u8], out: &mut [u8]) -> u8 {
        unsafe {
            sys::gii_encode(profile.as_ptr(), profile.len(), data.as_ptr(), data.len(), out.as_mut_ptr(), out.len())
        }
    }

    pub fn read(profile: &[u8], block: &[u8], data: &mut [u8]) -> Result<(), Refusal> {
        answer(unsafe {
            sys::gii_read(
                profile.as_ptr(),
                profile.len(),
                block.as_ptr(),
                block.len(),
                data.as_mut_ptr(),
                data.len(),
            )
        })
    }

    pub fn decode(
        profile: &[u8],
        input: &[u8],
        out: &mut [u8],
        form: u8,
        report: &mut [u8],
    ) -> Result<(), Refusal> {
        answer(unsafe {
            sys::gii_decode(
                profile.as_ptr(),
                profile.len(),
                input.as_ptr(),
                input.len(),
                out.as_mut_ptr(),
                out.len(),
                form,
                report.as_mut_ptr(),
                report.len(),
            )
        })
    }

    /// The data of strip i, or the number of the refusal.
    pub fn fetch<'a>(profile: &[u8], block: &'a [u8], i: usize) -> Result<&'a [u8], u8> {
        let (p, n, b, s) = (profile.as_ptr(), profile.len(), block.as_ptr(), block.len());
        match unsafe { sys::gii_fetch(p, n, b, s, i) } {
            0 => {
                let start = unsafe { sys::gii_fetch_start(p, n, b, s, i) };
                let size = unsafe { sys::gii_fetch_size(p, n, b, s, i) };
                Ok(&block[start..start + size])
            }
            number => Err(number),
        }
    }
}

const PROFILE: [u8; gii::PROFILE_BYTES] = [8, 3, 255, 14, 16, 18, 24];

/// Changes the first `count` bytes of strip i.
fn damage(block: &mut [u8], i: usize, count: usize) {
    for p in 0..count {
        block[255 * i + p] ^= (p + 1) as u8;
    }
}

/// The number that two bytes of a report hold.
fn pair(report: &[u8], at: usize) -> u16 {
    u16::from_be_bytes([report[at], report[at + 1]])
}

/// Reads a damaged block, and says whether it is the one that was written.
fn read_back(damaged: &[u8], written: &[u8], form: u8) {
    let mut report = [0; gii::REPORT_BYTES];
    let mut out = vec![0; damaged.len()];
    if let Err(gii::Refusal { number, stage }) = gii::decode(&PROFILE, damaged, &mut out, form, &mut report) {
        let what = if number == 8 { "too many strips have too many changes" } else { "refused" };
        let kept = if report == [0; gii::REPORT_BYTES] { "as it was" } else { "changed" };
        println!("refused {number} after stage {stage}: {what}; the report is {kept}");
        return;
    }
    let (changed, bits) = (pair(&report, 1), pair(&report, 27));
    let same = if out == written { "as written" } else { "not as written" };
    println!("read: last stage {}, {changed} bytes changed, {bits} bits wrong, {same}", report[0]);
    for (i, line) in report[3..27].chunks(3).enumerate() {
        if line[0] == 1 {
            let bits = pair(&report, 29 + 2 * i);
            println!("  strip {i}: {} bytes changed, {bits} bits wrong, settled at stage {}", line[1], line[2]);
        }
    }
}

fn main() {
    let data_size = gii::data_size(&PROFILE);
    let size = gii::block_size(&PROFILE);
    println!("sizes {data_size} {size}");

    let data: Vec<u8> = (0..data_size).map(|k| (7 * k + 3) as u8).collect();
    let mut written = vec![0; size];
    println!("write {}", gii::encode(&PROFILE, &data, &mut written));

    let mut damaged = written.clone();
    damage(&mut damaged, 0, 5);
    damage(&mut damaged, 3, 16);
    damage(&mut damaged, 6, 20);
    read_back(&damaged, &written, gii::PLAIN);
    read_back(&damaged, &written, gii::LOOKAHEAD);
    read_back(&damaged, &written, gii::SCALED);
    let mut back = vec![0; data_size];
    let number = gii::read(&PROFILE, &damaged, &mut back).map_or_else(|refusal| refusal.number, |()| 0);
    println!("data {number}: {}", if back == data { "as given" } else { "not as given" });

    let before = gii::fetch(&PROFILE, &written, 0).map_or(0, |part| part.len());
    match gii::fetch(&PROFILE, &written, 1) {
        Ok(part) => {
            let start = part.as_ptr() as usize - written.as_ptr() as usize;
            let same = if part == &data[before..before + part.len()] { "the data" } else { "not the data" };
            println!("fetch 0: {} bytes from {start}, {same}", part.len());
        }
        Err(number) => println!("fetch {number}"),
    }

    // No bytes stand for this profile.
    let number = gii::encode(&[], &data, &mut damaged);
    let same = if damaged == written { "the same block" } else { "another block" };
    println!("no profile: sizes {} {}, write {number}, {same}", gii::data_size(&[]), gii::block_size(&[]));

    // An eighth byte names the first root: alpha^0 here. No first root is called 255.
    let (mut other, four, mut small) = ([2, 1, 5, 1, 2, 0, 0, 0], [10, 20, 30, 40], [0; 10]);
    let number = gii::encode(&other, &four, &mut small);
    print!("first root 0: write {number},");
    for byte in small {
        print!(" {byte}");
    }
    small[3] ^= 200;
    small[8] ^= 9;
    let number = gii::read(&other, &small, &mut back[..4]).map_or_else(|refusal| refusal.number, |()| 0);
    println!("; data {number}: {}", if back[..4] == four { "as given" } else { "not as given" });
    other[7] = 255;
    println!("refused {}: a first root of 255", gii::encode(&other, &four, &mut small));

    // Three strips with more changes than any strength: after stage 1 there may be two.
    damaged.copy_from_slice(&written);
    damage(&mut damaged, 1, 30);
    damage(&mut damaged, 2, 30);
    damage(&mut damaged, 4, 30);
    read_back(&damaged, &written, gii::PLAIN);

    if let Err(number) = gii::fetch(&PROFILE, &written, 8) {
        println!("refused {number}: no strip 8");
    }
    let number = gii::encode(&PROFILE[..6], &data, &mut written);
    println!("refused {number}: a profile of six bytes, size {}", gii::data_size(&PROFILE[..6]));
    let equal = [3, 2, 8, 1, 2, 2, 0];
    let number = gii::encode(&equal, &data[..14], &mut written[..24]);
    let stored = gii::data_size(&equal);
    println!("refused {number}: a block with equal strengths is not written; stored ones have {stored} data bytes");
    if let Err(refusal) = gii::decode(&[], &[], &mut [], gii::PLAIN, &mut []) {
        println!("refused {}: no profile, but no block either", refusal.number);
    }
}
