//! From an expression text to its sheet, or to its first refusal in document 01's order.

use super::limits::*;
use super::sheet;

#[derive(Clone, Copy, Debug, PartialEq, Eq)]
pub struct Refusal {
    pub number: u8,
    pub place: usize,
}

fn refuse<T>(number: u8, place: usize) -> Result<T, Refusal> {
    Err(Refusal { number, place })
}

/// The sheet that a text stands for. Room for it (18) is the caller's affair.
pub fn sheet_of(text: &[u8]) -> Result<Vec<u8>, Refusal> {
    if text.len() > TEXT_MOST {
        return refuse(TEXT_LONG, TEXT_MOST);
    }
    let tokens = tokens(text)?;
    let nodes = nodes(&tokens, text.len())?;
    let leaves = leaves(&tokens)?;
    if nodes.len() > NODES_MOST {
        return refuse(NODES_MANY, text.len());
    }
    Ok(sheet::write(&leaves, &nodes))
}

#[derive(Clone, Copy)]
enum Kind {
    /// A byte with its repeat; without one it is repeated from 1 to 1.
    Literal {
        byte: u8,
        least: usize,
        most: usize,
    },
    Bar,
    Star,
    Open,
    Close,
}

struct Token {
    kind: Kind,
    place: usize,
}

/// The walk for 11 and 19.
fn tokens(text: &[u8]) -> Result<Vec<Token>, Refusal> {
    let mut found = Vec::new();
    let mut place = 0;
    while let Some(&byte) = text.get(place) {
        let (kind, after) = token_at(text, place, byte)?;
        found.push(Token { kind, place });
        place = after;
    }
    Ok(found)
}

fn token_at(text: &[u8], place: usize, byte: u8) -> Result<(Kind, usize), Refusal> {
    match byte {
        b'|' => Ok((Kind::Bar, place + 1)),
        b'*' => Ok((Kind::Star, place + 1)),
        b'(' => Ok((Kind::Open, place + 1)),
        b')' => Ok((Kind::Close, place + 1)),
        // A literal takes its repeat with it, so a brace met here follows no literal.
        b'{' | b'}' => refuse(REPEAT_FAULT, place),
        b'\\' => match text.get(place + 1) {
            Some(mark) if MARKS.contains(mark) => literal(text, *mark, place + 2),
            _ => refuse(TEXT_BYTE, place),
        },
        _ if LITERAL_BYTES.contains(&byte) => literal(text, byte, place + 1),
        _ => refuse(TEXT_BYTE, place),
    }
}

/// A literal whose own bytes end at `after`, with the repeat that may stand there.
fn literal(text: &[u8], byte: u8, after: usize) -> Result<(Kind, usize), Refusal> {
    let (least, most, end) = if text.get(after) == Some(&b'{') {
        match repeat(text, after + 1) {
            Some(repeat) => repeat,
            None => return refuse(REPEAT_FAULT, after),
        }
    } else {
        (1, 1, after)
    };
    Ok((Kind::Literal { byte, least, most }, end))
}

/// What stands after `{`: both numbers and the place after `}`.
fn repeat(text: &[u8], place: usize) -> Option<(usize, usize, usize)> {
    let (least, place) = number(text, place)?;
    let place = skip(text, place, b',')?;
    let (most, place) = number(text, place)?;
    let place = skip(text, place, b'}')?;
    (least <= most).then_some((least, most, place))
}

fn number(text: &[u8], place: usize) -> Option<(usize, usize)> {
    let digits = text
        .get(place..)?
        .iter()
        .take(REPEAT_DIGITS_MOST)
        .take_while(|byte| byte.is_ascii_digit());
    let (value, length) = digits.fold((0, 0), |(value, length), digit| {
        (value * 10 + usize::from(digit - b'0'), length + 1)
    });
    (length > 0).then_some((value, place + length))
}

fn skip(text: &[u8], place: usize, byte: u8) -> Option<usize> {
    (text.get(place) == Some(&byte)).then_some(place + 1)
}

/// The walk for 12 to 15, which writes the nodes as it goes.
fn nodes(tokens: &[Token], length: usize) -> Result<Vec<u8>, Refusal> {
    let mut writer = Writer::default();
    for token in tokens {
        writer.take(token)?;
    }
    writer.end(length)
}

/// What one level of parentheses has waiting, each already written in postorder:
/// the alternation so far, the sequence after its last `|`, and the last unit,
/// which is kept out of the sequence because a star may still follow.
#[derive(Default)]
struct Level {
    alternation: bool,
    sequence: bool,
    unit: bool,
}

#[derive(Default)]
struct Writer {
    nodes: Vec<u8>,
    level: Level,
    /// The levels around the one being read, outermost first.
    outer: Vec<Level>,
}

impl Writer {
    fn take(&mut self, token: &Token) -> Result<(), Refusal> {
        match token.kind {
            Kind::Literal { least, most, .. } => {
                self.join_unit();
                write_copies(&mut self.nodes, least, most);
                self.level.unit = true;
            }
            Kind::Star => {
                self.need_operand(token.place)?;
                self.nodes.push(NODE_STAR);
            }
            Kind::Bar => {
                self.need_operand(token.place)?;
                self.join_sequence();
            }
            Kind::Open => self.open(token.place)?,
            Kind::Close => self.close(token.place)?,
        }
        Ok(())
    }

    fn open(&mut self, place: usize) -> Result<(), Refusal> {
        if self.outer.len() == OPEN_MOST {
            return refuse(OPEN_DEEP, place);
        }
        self.join_unit();
        self.outer.push(std::mem::take(&mut self.level));
        Ok(())
    }

    fn close(&mut self, place: usize) -> Result<(), Refusal> {
        let outer = match self.outer.pop() {
            Some(outer) => outer,
            None => return refuse(CLOSE_UNOPENED, place),
        };
        // Nothing at all waits only where `)` stands directly after `(`.
        if self.level.unit || self.level.alternation {
            self.need_operand(place)?;
            self.join_sequence();
        } else {
            self.nodes.push(NODE_EMPTY);
        }
        self.level = outer;
        self.level.unit = true;
        Ok(())
    }

    fn end(mut self, length: usize) -> Result<Vec<u8>, Refusal> {
        if !self.outer.is_empty() {
            return refuse(OPEN_UNCLOSED, length);
        }
        self.need_operand(length)?;
        self.join_sequence();
        Ok(self.nodes)
    }

    fn need_operand(&self, place: usize) -> Result<(), Refusal> {
        if self.level.unit {
            Ok(())
        } else {
            refuse(OPERAND_MISSING, place)
        }
    }

    fn join_unit(&mut self) {
        if self.level.unit && self.level.sequence {
            self.nodes.push(NODE_CAT);
        }
        self.level.sequence |= self.level.unit;
        self.level.unit = false;
    }

    fn join_sequence(&mut self) {
        self.join_unit();
        if self.level.sequence && self.level.alternation {
            self.nodes.push(NODE_UNION);
        }
        self.level.alternation |= self.level.sequence;
        self.level.sequence = false;
    }
}

/// `least` copies, then optional ones up to `most`, concatenated from the left.
fn write_copies(nodes: &mut Vec<u8>, least: usize, most: usize) {
    if most == 0 {
        nodes.push(NODE_EMPTY);
    }
    for copy in 0..most {
        nodes.push(NODE_LEAF);
        if copy >= least {
            nodes.extend([NODE_EMPTY, NODE_UNION]);
        }
        if copy > 0 {
            nodes.push(NODE_CAT);
        }
    }
}

/// The literal bytes in order of position, copies included.
fn leaves(tokens: &[Token]) -> Result<Vec<u8>, Refusal> {
    let mut leaves = Vec::new();
    for token in tokens {
        if let Kind::Literal { byte, most, .. } = token.kind {
            leaves.resize(leaves.len() + most, byte);
            if leaves.len() > LEAVES_MOST {
                return refuse(LEAVES_MANY, token.place);
            }
        }
    }
    Ok(leaves)
}
