//! The ten kinds of record, and the two directions of a file: what a caller
//! says of a record that stands alone.

#[derive(Clone, Copy, PartialEq, Eq)]
pub enum Direction {
    Remittance,
    Return,
}

pub const DIRECTIONS: [Direction; 2] = [Direction::Remittance, Direction::Return];

impl Direction {
    pub fn code(self) -> u8 {
        match self {
            Direction::Remittance => b'1',
            Direction::Return => b'2',
        }
    }

    pub fn other(self) -> Direction {
        match self {
            Direction::Remittance => Direction::Return,
            Direction::Return => Direction::Remittance,
        }
    }

    pub fn boleto_service(self) -> &'static [u8] {
        match self {
            Direction::Remittance => b"03",
            Direction::Return => b"01",
        }
    }
}

#[derive(Clone, Copy, PartialEq, Eq)]
pub enum RecordKind {
    FileHeader,
    BatchHeader,
    A,
    B,
    J,
    J52,
    O,
    Z,
    BatchTrailer,
    FileTrailer,
}

pub const RECORD_KINDS: [RecordKind; 10] = [
    RecordKind::FileHeader,
    RecordKind::BatchHeader,
    RecordKind::A,
    RecordKind::B,
    RecordKind::J,
    RecordKind::J52,
    RecordKind::O,
    RecordKind::Z,
    RecordKind::BatchTrailer,
    RecordKind::FileTrailer,
];

impl RecordKind {
    pub fn record_type(self) -> &'static [u8] {
        match self {
            RecordKind::FileHeader => b"0",
            RecordKind::BatchHeader => b"1",
            RecordKind::BatchTrailer => b"5",
            RecordKind::FileTrailer => b"9",
            _ => b"3",
        }
    }

    /// Only details have a segment.
    pub fn segment(self) -> Option<&'static [u8]> {
        match self {
            RecordKind::A => Some(b"A"),
            RecordKind::B => Some(b"B"),
            RecordKind::J | RecordKind::J52 => Some(b"J"),
            RecordKind::O => Some(b"O"),
            RecordKind::Z => Some(b"Z"),
            _ => None,
        }
    }
}

#[derive(Clone, Copy, PartialEq, Eq)]
pub struct Subject {
    pub kind: RecordKind,
    pub direction: Direction,
}

impl Subject {
    pub fn in_the_other_direction(self) -> Subject {
        let direction = self.direction.other();
        Subject { direction, ..self }
    }
}

pub fn all_subjects() -> impl Iterator<Item = Subject> {
    let kinds = RECORD_KINDS.into_iter();
    kinds.flat_map(|kind| {
        let directions = DIRECTIONS.into_iter();
        directions.map(move |direction| Subject { kind, direction })
    })
}
