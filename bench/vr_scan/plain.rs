//! A straightforward scanner of command texts, and the same measurement.
use std::hint::black_box;
use std::time::Instant;

const LINES: usize = 200_000;
const TRIES: u64 = 20;

#[derive(Clone, Copy, PartialEq)]
enum Kind {
    Word,
    Characters,
    Hex,
    Compare,
    Open,
    Close,
    End,
}

struct Token {
    kind: Kind,
    start: usize,
    end: usize,
    line: u32,
    column: u32,
}

struct Tokens {
    bytes: Vec<u8>,
    tokens: Vec<Token>,
}

fn line(i: usize) -> &'static str {
    match i % 8 {
        0 => "  DEFINE CLUSTER (NAME(PAY.MASTER) -                                  00010000",
        1 => "    INDEXED KEYS(8 0) RECORDSIZE(80 80) -  /* THE SIZES */",
        2 => "    VOLUMES(VOL00) CYLINDERS(1 1) FREESPACE(20 10)) - ",
        3 => "    DATA (NAME(PAY.MASTER.DATA))",
        4 => "  /* WHAT FOLLOWS PRINTS A FEW RECORDS OF THE CLUSTER */",
        5 => "  print indataset(pay.master) character fromkey(C'O''NEIL') count(10)",
        6 => "  IF LASTCC >= 8 THEN SET MAXCC=12; ELSE -",
        _ => "  REPRO INFILE(CARDS) OUTDATASET(PAY.MA+",
    }
}

/// A character, or the end of a line that doesn't go on, with its place.
#[derive(Clone, Copy)]
struct Mark {
    byte: Option<u8>,
    line: u32,
    column: u32,
}

/// The characters of lines, one after another.
struct Reader<'a> {
    lines: &'a [(u32, &'a [u8])],
    next: usize,
    text: &'a [u8],
    at: usize,
    line: u32,
    end: Option<Option<u8>>,
    joined: bool,
}

impl Reader<'_> {
    fn next(&mut self) -> Result<Option<Mark>, ()> {
        loop {
            if self.at < self.text.len() {
                let mark = Mark { byte: Some(self.text[self.at]), line: self.line, column: self.at as u32 + 2 };
                self.at += 1;
                return Ok(Some(mark));
            }
            if let Some(byte) = self.end.take() {
                return Ok(Some(Mark { byte, line: self.line, column: self.at as u32 + 2 }));
            }
            let Some((number, line)) = self.lines.get(self.next) else { return Ok(None) };
            self.next += 1;
            let mut text = &line[line.len().min(1)..line.len().min(72)];
            while let [rest @ .., b' '] = text {
                text = rest;
            }
            self.line = *number;
            let joined = self.joined;
            self.joined = false;
            match text.last() {
                Some(sign @ (b'-' | b'+')) => {
                    if self.next == self.lines.len() {
                        return Err(());
                    }
                    text = &text[..text.len() - 1];
                    self.joined = *sign == b'+';
                    self.end = if self.joined { None } else { Some(Some(b' ')) };
                }
                _ => self.end = Some(None),
            }
            self.at = if joined { text.iter().take_while(|b| **b == b' ').count() } else { 0 };
            self.text = text;
        }
    }
}

struct Cursor<'a> {
    first: Option<Mark>,
    second: Option<Mark>,
    reader: Reader<'a>,
}

impl Cursor<'_> {
    fn advance(&mut self) -> Result<(), ()> {
        self.first = self.second;
        self.second = self.reader.next()?;
        Ok(())
    }

    fn byte(&self) -> Option<u8> {
        self.first.and_then(|mark| mark.byte)
    }

    fn after(&self) -> Option<u8> {
        self.second.and_then(|mark| mark.byte)
    }
}

fn is_special(byte: u8) -> bool {
    matches!(byte, b' ' | b',' | b';' | b'(' | b')' | b'=' | b'<' | b'>')
}

fn scan(lines: &[(u32, &[u8])]) -> Result<Tokens, ()> {
    let reader = Reader { lines, next: 0, text: &[], at: 0, line: 0, end: None, joined: false };
    let mut cursor = Cursor { first: None, second: None, reader };
    cursor.advance()?;
    cursor.advance()?;
    let mut out = Tokens { bytes: Vec::new(), tokens: Vec::new() };
    let mut begun = false;
    while let Some(mark) = cursor.first {
        let start = out.bytes.len();
        let kind = match (mark.byte, cursor.after()) {
            (None | Some(b';'), _) => {
                cursor.advance()?;
                if !begun {
                    continue;
                }
                Kind::End
            }
            (Some(b' ' | b','), _) => {
                cursor.advance()?;
                continue;
            }
            (Some(b'/'), Some(b'*')) => {
                cursor.advance()?;
                cursor.advance()?;
                while !(cursor.byte() == Some(b'*') && cursor.after() == Some(b'/')) {
                    if cursor.first.is_none() {
                        return Err(());
                    }
                    cursor.advance()?;
                }
                cursor.advance()?;
                cursor.advance()?;
                continue;
            }
            (Some(b'('), _) => {
                cursor.advance()?;
                Kind::Open
            }
            (Some(b')'), _) => {
                cursor.advance()?;
                Kind::Close
            }
            (Some(sign @ (b'=' | b'<' | b'>')), next) => {
                out.bytes.push(sign);
                cursor.advance()?;
                if sign != b'=' && next == Some(b'=') {
                    out.bytes.push(b'=');
                    cursor.advance()?;
                }
                Kind::Compare
            }
            (Some(b'C' | b'c'), Some(b'\'')) => {
                cursor.advance()?;
                cursor.advance()?;
                loop {
                    let byte = cursor.byte().ok_or(())?;
                    cursor.advance()?;
                    if byte == b'\'' {
                        if cursor.byte() != Some(b'\'') {
                            break;
                        }
                        cursor.advance()?;
                    }
                    out.bytes.push(byte);
                }
                Kind::Characters
            }
            (Some(b'X' | b'x'), Some(b'\'')) => {
                cursor.advance()?;
                cursor.advance()?;
                loop {
                    let high = cursor.byte().ok_or(())?;
                    cursor.advance()?;
                    if high == b'\'' {
                        break;
                    }
                    let low = cursor.byte().ok_or(())?;
                    cursor.advance()?;
                    let high = (high as char).to_digit(16).ok_or(())?;
                    let low = (low as char).to_digit(16).ok_or(())?;
                    out.bytes.push((16 * high + low) as u8);
                }
                Kind::Hex
            }
            (Some(_), _) => {
                while let Some(byte) = cursor.byte() {
                    if is_special(byte) || (byte == b'/' && cursor.after() == Some(b'*')) {
                        break;
                    }
                    out.bytes.push(byte.to_ascii_uppercase());
                    cursor.advance()?;
                }
                Kind::Word
            }
        };
        begun = kind != Kind::End;
        out.tokens.push(Token { kind, start, end: out.bytes.len(), line: mark.line, column: mark.column });
    }
    Ok(out)
}

fn main() {
    let mut lines: Vec<(u32, &[u8])> = Vec::new();
    for i in 0..LINES {
        lines.push((i as u32 + 1, line(i).as_bytes()));
    }
    lines.push((LINES as u32, b" )"));
    let mut least = u128::MAX;
    let mut read = (0, 0);
    for _ in 0..TRIES {
        let start = Instant::now();
        let tokens = scan(black_box(&lines)).expect("tokens");
        let bytes: usize = tokens.tokens.iter().map(|token| token.end - token.start).sum();
        black_box(tokens.tokens.iter().map(|token| token.line + token.column).max());
        read = (tokens.tokens.len(), bytes);
        drop(tokens);
        least = least.min(start.elapsed().as_nanos());
    }
    println!("read {} {} {}", read.0, read.1, least);
}
