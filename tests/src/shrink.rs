//! Makes an input smaller as long as it still fails: by lines, then by tokens, then by bytes.

/// Tries after which the input is small enough.
const TRIES: usize = 3000;

pub fn shrink(input: &[u8], fails: &dyn Fn(&[u8]) -> bool) -> Vec<u8> {
    let mut tries = TRIES;
    let mut small = input.to_vec();
    for split in [lines, tokens, bytes] {
        small = without_pieces(split(&small), fails, &mut tries);
    }
    small
}

/// Runs of at most this many pieces are tried at every place.
const SHORT: usize = 12;

/// Leaves out runs of pieces, long runs first.
fn without_pieces(mut pieces: Vec<Vec<u8>>, fails: &dyn Fn(&[u8]) -> bool, tries: &mut usize) -> Vec<u8> {
    let mut run = pieces.len().div_ceil(2);
    while run > 0 {
        let mut place = 0;
        while place < pieces.len() && *tries > 0 {
            *tries -= 1;
            let end = (place + run).min(pieces.len());
            let fewer = [&pieces[..place], &pieces[end..]].concat();
            if fails(&fewer.concat()) {
                pieces = fewer;
            } else {
                place += if run > SHORT { run } else { 1 };
            }
        }
        run = if run > SHORT { run / 2 } else { run - 1 };
    }
    pieces.concat()
}

fn lines(input: &[u8]) -> Vec<Vec<u8>> {
    input.split_inclusive(|byte| *byte == b'\n').map(<[u8]>::to_vec).collect()
}

/// Words and numbers whole, other bytes one by one.
fn tokens(input: &[u8]) -> Vec<Vec<u8>> {
    let word = |byte: &u8| byte.is_ascii_alphanumeric() || b"$_.".contains(byte);
    input.chunk_by(|left, right| word(left) && word(right)).map(<[u8]>::to_vec).collect()
}

fn bytes(input: &[u8]) -> Vec<Vec<u8>> {
    input.iter().map(|byte| vec![*byte]).collect()
}
