//! Stub: not compared.

use crate::models::BgpElem;
use std::io::{self, Read};

pub struct TextDumpElemIterator<R>(R);

impl<R: Read> TextDumpElemIterator<R> {
    pub fn new(reader: R, _timestamp: f64) -> io::Result<Self> {
        Ok(TextDumpElemIterator(reader))
    }
}

impl<R> Iterator for TextDumpElemIterator<R> {
    type Item = BgpElem;
    fn next(&mut self) -> Option<BgpElem> {
        None
    }
}

pub fn detect_text_dump(_reader: &mut impl Read) -> io::Result<(bool, Vec<u8>)> {
    Ok((false, Vec::new()))
}

pub fn infer_timestamp_from_path(_path: &str) -> Option<f64> {
    None
}
