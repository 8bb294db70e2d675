//! A sample crosses a program's buffer where the input is longer than the buffer, and a record lies across its end each time that it is full.

use std::io;

/// The starts of the records that lie across the buffer's end in a run, by the sizes of all records; refuses a run with an end that is a record's too.
pub fn crossed(buffer: usize, sizes: impl Iterator<Item = usize>) -> io::Result<Vec<usize>> {
    let (mut crossed, mut from, mut start) = (vec![], 0, 0);
    for size in sizes {
        if start == from + buffer {
            return Err(io::Error::other(format!(
                "a record ends with the program's input, at byte {start}: another seed"
            )));
        }
        if from + buffer < start + size {
            from = start;
            crossed.push(start);
        }
        start += size;
    }
    if crossed.is_empty() {
        return Err(io::Error::other(format!("the input has {start} bytes: it does not cross a buffer of {buffer}")));
    }
    Ok(crossed)
}
