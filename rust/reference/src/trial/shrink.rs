//! Makes a failing file smaller while it still fails.

use std::time::{Duration, Instant};

use crate::region_file::RECORD_BYTES;

const FIELD_BYTES: usize = 4;

/// The search ends then even if more could be found. The first third of the
/// time is for a record alone, which has many to try in a long file.
const PATIENCE: Duration = Duration::from_secs(15);

/// A file for which `fails` still holds, as it does for the given one. A record
/// is taken alone if it fails so; then records are cut from the end and fields
/// are set to zero, until neither helps.
pub fn shrunk(mut file: Vec<u8>, fails: impl Fn(&[u8]) -> bool) -> Vec<u8> {
    let start = Instant::now();
    alone(&mut file, &|smaller: &[u8]| start.elapsed() < PATIENCE / 3 && fails(smaller));
    let fails_in_time = |smaller: &[u8]| start.elapsed() < PATIENCE && fails(smaller);
    loop {
        let before = file.clone();
        cut(&mut file, &fails_in_time);
        zero(&mut file, &fails_in_time);
        if file == before {
            return file;
        }
    }
}

/// Looks for a record that fails as the only one behind record 0. The chain
/// leads to it and ends there.
fn alone(file: &mut Vec<u8>, fails: &impl Fn(&[u8]) -> bool) {
    if file.len() <= 2 * RECORD_BYTES {
        return;
    }
    for record in file.chunks_exact(RECORD_BYTES).skip(1) {
        let mut two = [&file[..RECORD_BYTES], record].concat();
        two[..FIELD_BYTES].copy_from_slice(&[1, 0, 0, 0]);
        two[RECORD_BYTES..][..FIELD_BYTES].fill(0);
        if fails(&two) {
            *file = two;
            return;
        }
    }
}

/// Cuts whole records from the end, many at once first.
fn cut(file: &mut Vec<u8>, fails: &impl Fn(&[u8]) -> bool) {
    let mut records = file.len() / RECORD_BYTES;
    while records > 0 {
        let bytes = records * RECORD_BYTES;
        if bytes <= file.len() && fails(&file[..file.len() - bytes]) {
            file.truncate(file.len() - bytes);
        } else {
            records /= 2;
        }
    }
}

/// Sets fields to zero, many at once first. What is left of the last field in
/// a file that is not whole counts as a field.
fn zero(file: &mut [u8], fails: &impl Fn(&[u8]) -> bool) {
    let mut fields = (file.len() + FIELD_BYTES - 1) / FIELD_BYTES;
    while fields > 0 {
        let bytes = fields * FIELD_BYTES;
        for start in (0..file.len()).step_by(bytes) {
            let end = file.len().min(start + bytes);
            if file[start..end].iter().any(|&byte| byte != 0) {
                let kept = file[start..end].to_vec();
                file[start..end].fill(0);
                if !fails(file) {
                    file[start..end].copy_from_slice(&kept);
                }
            }
        }
        fields /= 2;
    }
}

#[cfg(test)]
mod tests {
    use super::*;

    #[test]
    fn only_the_failing_field_is_left() {
        let fails = |file: &[u8]| file.len() > 70 && file[70] == 9;
        let shrunk = shrunk(vec![9; 6_400], fails);
        assert_eq!(shrunk.len(), 96);
        let mut expected = vec![0; 96];
        expected[68..72].fill(9);
        assert_eq!(shrunk, expected);
    }

    #[test]
    fn failing_record_is_taken_alone() {
        let mut file = vec![5; 64 * RECORD_BYTES];
        file[40 * RECORD_BYTES + 12] = 77;
        let shrunk = shrunk(file, |file| file.contains(&77));
        assert_eq!(shrunk.len(), 2 * RECORD_BYTES);
        let fields = shrunk.chunks(FIELD_BYTES).filter(|field| field.iter().any(|&b| b != 0));
        assert_eq!(fields.collect::<Vec<_>>(), [[77, 5, 5, 5]]);
    }

    #[test]
    fn length_alone_leaves_zeros() {
        let fails = |file: &[u8]| file.len() % RECORD_BYTES == 7;
        assert_eq!(shrunk(vec![1; 1_031], fails), vec![0; 7]);
    }

    #[test]
    fn what_cannot_shrink_stays() {
        let file: Vec<u8> = (1..=64).collect();
        assert_eq!(shrunk(file.clone(), |smaller| smaller == file), file);
    }
}
