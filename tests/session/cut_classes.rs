//! Each kind of answer of the cutter that a run must meet.

use crate::ash::{read_header, Refusal, LENGTH_ESCAPED};
use crate::cutter::{Cut, Cutter, FRAME_MAX, HEADER};

/// What a piece of a line brought.
#[derive(Clone, Copy, Debug, PartialEq, Eq)]
pub enum Piece {
    ShortRoom,
    Empty,
    // All taken and no frame; the cutter stands there behind it.
    Between,
    Within,
    PassingOver,
    /// A frame that ends by its length.
    Whole(Form),
    /// One that began in an earlier piece.
    OverPieces,
    /// One with bytes of the piece left behind it.
    BytesLeft,
    BadHeader(Refusal),
    /// A byte between frames.
    Stray,
    // A frame that ends before a flag: the flag alone, in its header, behind it.
    FlagAlone,
    CutInHeader,
    CutBehindHeader,
}

#[derive(Clone, Copy, Debug, PartialEq, Eq)]
pub enum Form {
    NoPayload,
    Filled,
    LengthEscaped,
    Longest,
}

const PIECES: [Piece; 15] = [
    Piece::ShortRoom,
    Piece::Empty,
    Piece::Between,
    Piece::Within,
    Piece::PassingOver,
    Piece::Whole(Form::NoPayload),
    Piece::Whole(Form::Filled),
    Piece::Whole(Form::LengthEscaped),
    Piece::Whole(Form::Longest),
    Piece::OverPieces,
    Piece::BytesLeft,
    Piece::Stray,
    Piece::FlagAlone,
    Piece::CutInHeader,
    Piece::CutBehindHeader,
];

const HEADER_REFUSALS: [Refusal; 4] = [
    Refusal::ReservedBits,
    Refusal::NeedlessHeaderEscape,
    Refusal::MissingHeaderEscape,
    Refusal::LongPayload,
];

impl Piece {
    pub fn all() -> impl Iterator<Item = Piece> {
        let bad_headers = HEADER_REFUSALS.map(Piece::BadHeader);
        PIECES.into_iter().chain(bad_headers)
    }
}

/// The kinds of an answer of the cutter, by how it stood before the piece and stands behind it.
pub fn of_cut(
    before: &Cutter,
    piece: &[u8],
    cut: &Result<Cut, Refusal>,
    behind: &Cutter,
) -> Vec<Piece> {
    let Ok(cut) = cut else {
        return vec![Piece::ShortRoom];
    };
    let Some(frame) = &cut.frame else {
        return vec![match behind {
            _ if piece.is_empty() => Piece::Empty,
            Cutter::Between => Piece::Between,
            Cutter::Within(_) => Piece::Within,
            Cutter::PassingOver => Piece::PassingOver,
        }];
    };
    let mut pieces = vec![of_handed_on(frame, behind)];
    if matches!(before, Cutter::Within(_)) {
        pieces.push(Piece::OverPieces);
    }
    if cut.taken < piece.len() {
        pieces.push(Piece::BytesLeft);
    }
    pieces
}

/// Behind a whole frame the cutter stands between frames, behind a fault it passes over, and behind
/// a frame that a flag ended it is in the next one.
fn of_handed_on(frame: &[u8], behind: &Cutter) -> Piece {
    match (behind, frame) {
        (Cutter::Between, [_, escape, ..]) => Piece::Whole(match frame.len() {
            FRAME_MAX => Form::Longest,
            _ if escape & LENGTH_ESCAPED != 0 => Form::LengthEscaped,
            7 => Form::NoPayload,
            _ => Form::Filled,
        }),
        (Cutter::PassingOver, [_, escape, control, length]) => {
            let refusal = read_header(*escape, *control, *length);
            Piece::BadHeader(refusal.expect_err("a bad header"))
        }
        (Cutter::Within(_), [_]) => Piece::FlagAlone,
        (Cutter::Within(_), _) if frame.len() < HEADER => Piece::CutInHeader,
        (Cutter::Within(_), _) => Piece::CutBehindHeader,
        _ => Piece::Stray,
    }
}
