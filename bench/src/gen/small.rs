//! All small files: every one of up to 3 bytes, and those of 4 to 9 bytes
//! over the bytes that mean something at each place.

/// Lengths, tags, parameters and indices, their limits and neighbours.
const FULL: &[u8] = &[
    0, 1, 2, 3, 4, 5, 6, 7, 8, 9, 10, 11, 15, 16, 17, 18, 127, 128, 255,
];
const BRIEF: &[u8] = &[0, 1, 2, 3, 5, 6, 8, 17];
const KINDS: &[u8] = &[0, 1, 2, 3, 4, 5];
const ALL: [u8; 256] = {
    let mut all = [0; 256];
    let mut byte = 0;
    while byte < 256 {
        all[byte] = byte as u8;
        byte += 1;
    }
    all
};

/// Hands every file with one byte of each row to `each`, until it fails.
fn product<E>(rows: &[&[u8]], each: &mut impl FnMut(&[u8]) -> Result<(), E>) -> Result<(), E> {
    let mut turns = vec![0; rows.len()];
    let mut file: Vec<u8> = rows.iter().map(|row| row[0]).collect();
    loop {
        each(&file)?;
        // The last place turns fastest; a full turn carries to the one before.
        let Some(at) = (0..rows.len())
            .rev()
            .find(|&at| turns[at] + 1 < rows[at].len())
        else {
            return Ok(());
        };
        turns[at] += 1;
        turns[at + 1..].fill(0);
        for place in at..rows.len() {
            file[place] = rows[place][turns[place]];
        }
    }
}

/// All files of exactly `len` bytes.
pub fn every<E>(len: usize, each: &mut impl FnMut(&[u8]) -> Result<(), E>) -> Result<(), E> {
    product(&vec![&ALL[..]; len], each)
}

/// Files of 4 to 9 bytes: right front bytes before a wide choice, then all
/// mixtures of right and wrong front bytes before a narrow one.
pub fn meaningful<E>(brief: bool, each: &mut impl FnMut(&[u8]) -> Result<(), E>) -> Result<(), E> {
    for len in 4..=9_u8 {
        let after = usize::from(len) - 4;
        let body = [len - 3];
        let mut rows: Vec<&[u8]> = vec![&[1], &[0], &body, KINDS];
        rows.resize(4 + after, if brief { BRIEF } else { FULL });
        product(&rows, each)?;

        let bodies = [0, len - 4, len - 3, len - 2];
        let mut rows: Vec<&[u8]> = vec![&[0, 1, 2, 255], &[0, 1], &bodies, KINDS];
        rows.resize(4 + after, if brief { &[1, 2] } else { &[0, 1, 2, 3, 255] });
        product(&rows, each)?;
    }
    Ok(())
}
