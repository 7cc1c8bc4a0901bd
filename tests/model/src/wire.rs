//! Lines in and bytes out, in blocks.

use std::io::{self, BufRead, BufReader, Read, Write};

const BLOCK: usize = 1 << 18;

/// How a line ended.
#[derive(Clone, Copy, Debug, PartialEq, Eq)]
pub enum Line {
    /// With its line feed.
    Whole,
    /// At the end of the input: "the last may lack it". It has at least a byte.
    Last,
    /// There was none.
    None,
}

pub struct Wire<'a> {
    reader: BufReader<&'a mut dyn Read>,
    output: &'a mut dyn Write,
    /// What is yet to be written.
    pub out: Vec<u8>,
}

impl<'a> Wire<'a> {
    pub fn new(input: &'a mut dyn Read, output: &'a mut dyn Write) -> Wire<'a> {
        Wire {
            reader: BufReader::with_capacity(BLOCK, input),
            output,
            out: Vec::with_capacity(2 * BLOCK),
        }
    }

    /// Writes what is yet to be written.
    pub fn send(&mut self) -> io::Result<()> {
        self.output.write_all(&self.out)?;
        self.out.clear();
        self.output.flush()
    }

    /// Reads a line without its line feed, and keeps its first bytes.
    #[inline(always)]
    pub fn next_line(&mut self, line: &mut Vec<u8>, longest: usize) -> io::Result<Line> {
        line.clear();
        let mut ended = Line::None;
        if self.out.len() >= BLOCK {
            self.send()?;
        }
        while !self.reader.buffer().is_empty() || self.has_more()? {
            ended = Line::Last;
            let block = self.reader.buffer();
            let end = block.iter().position(|&byte| byte == b'\n');
            let length = end.unwrap_or(block.len());
            let kept = length.min(longest - line.len());
            line.extend_from_slice(&block[..kept]);
            self.reader.consume(length + usize::from(end.is_some()));
            if end.is_some() {
                return Ok(Line::Whole);
            }
        }
        Ok(ended)
    }

    /// Waits for more input; what is yet to be written is written before. A read
    /// that fails ends the input there.
    fn has_more(&mut self) -> io::Result<bool> {
        self.send()?;
        loop {
            match self.reader.fill_buf() {
                Ok(block) => return Ok(!block.is_empty()),
                Err(error) if error.kind() == io::ErrorKind::Interrupted => continue,
                Err(_) => return Ok(false),
            }
        }
    }
}
