//! Where two outputs part, and a short input for which they do.

/// The number of the first line, from 0, that is not the same in both.
pub fn first_difference(ours: &[u8], theirs: &[u8]) -> Option<usize> {
    if ours == theirs {
        return None;
    }
    let same = ours.iter().zip(theirs).take_while(|(a, b)| a == b).count();
    Some(ours[..same].iter().filter(|&&byte| byte == b'\n').count())
}

pub fn line_of(output: &[u8], number: usize) -> String {
    let line = output.split_inclusive(|&byte| byte == b'\n').nth(number);
    line.map_or("(no such line)".into(), text_of)
}

/// A line without its line feed.
pub fn text_of(line: &[u8]) -> String {
    String::from_utf8_lossy(line).trim_end_matches('\n').into()
}

/// Removes chunks of pieces of an input, ever smaller ones, while it `differs`. It
/// is tried about so often at most, since a try may take its time.
pub fn shortest<'a>(
    mut pieces: Vec<&'a [u8]>,
    tries: usize,
    differs: &dyn Fn(&[&[u8]]) -> bool,
) -> Vec<&'a [u8]> {
    let mut left = tries;
    let mut chunk = pieces.len().div_ceil(2).max(1);
    loop {
        let length = pieces.len();
        pieces = without_chunks(pieces, chunk, &mut left, differs);
        if left == 0 || pieces.len() == length && chunk == 1 {
            return pieces;
        }
        chunk = chunk.div_ceil(2);
    }
}

/// From the end, so that what the difference needs is met last.
fn without_chunks<'a>(
    mut pieces: Vec<&'a [u8]>,
    chunk: usize,
    left: &mut usize,
    differs: &dyn Fn(&[&[u8]]) -> bool,
) -> Vec<&'a [u8]> {
    let mut end = pieces.len();
    while end > 0 && *left > 0 {
        let start = end.saturating_sub(chunk);
        let shorter = [&pieces[..start], &pieces[end..]].concat();
        if differs(&shorter) {
            pieces = shorter;
        }
        end = start;
        *left -= 1;
    }
    pieces
}
