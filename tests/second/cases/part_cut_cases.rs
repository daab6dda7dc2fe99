//! The requests of files in parts that are made once: small files cut at every
//! place, files that come byte by byte, large ones, and what is no file.

use crate::asking::part_calls::{BYTES_BEFORE_A_PART, BYTES_OF_AN_END};
use crate::asking::probe::BYTES_LIMIT;
use crate::cases::file_cases::FileCases;
use crate::cases::large_file_cases::{large_sum, many_batches};
use crate::damage::line_flaws::{flaws_of, spoil_line, Flaw};
use crate::making::cuttings::{cut_at, in_lengths, FIVE_LINES_AND_A_HALF, NOTHING};
use crate::making::good_files::{any_file, file_of, BatchShape, MISSING_CENTS};
use crate::making::plain_files;
use crate::paper::file_state::BatchKind;
use crate::paper::lines::{LINE_BYTES, MOST_BATCHES};
use crate::paper::parts::PartCall;
use crate::paper::record_kinds::{self, Direction, RecordKind, DIRECTIONS};

/// Flaws of a boleto: one that a look into the unfinished line would see, and
/// one that needs all its fields.
const FLAWS_CUT_EVERYWHERE: [Flaw; 2] = [Flaw::Byte, Flaw::Amount];
const LONGEST_EQUAL_PART: usize = 2 * LINE_BYTES + 1;
const ONE_BYTE: usize = 1;
const FILES_BYTE_BY_BYTE: usize = 12;
/// Lines begun in one part and ended in the next, whole ones, some lines, and as
/// much as the desk's program reads at once.
const LENGTHS_OF_LARGE_FILES: [usize; 4] =
    [LINE_BYTES - 1, LINE_BYTES, FIVE_LINES_AND_A_HALF, 65_536];
const MANY_CALLS: usize = 3_000;
const LENGTHS_OF_NO_FILE: [usize; 5] = [1, 241, 242, 243, 484];

impl FileCases<'_> {
    pub fn ask_cuts_made_once(&mut self) {
        let good = plain_files::one_payment();
        let last_line = &good[good.len() - LINE_BYTES..];
        self.every_single_cut(&good);
        self.every_single_cut(&[&good, last_line].concat());
        for flaw in FLAWS_CUT_EVERYWHERE {
            let flawed = self.flawed_boleto(flaw);
            self.every_single_cut(&flawed);
        }
        self.every_early_end(&good);
        self.every_flaw();
        for length in 1..=LONGEST_EQUAL_PART {
            self.ask_cut_file(in_lengths(&good, length));
        }
        self.byte_by_byte();
        self.large_files_in_parts();
        self.largest_part();
        self.no_files_in_parts();
    }

    fn every_single_cut(&mut self, bytes: &[u8]) {
        for place in 0..=bytes.len() {
            self.ask_cut_file(cut_at(bytes, &[place]));
        }
    }

    /// The smallest file with a boleto, which has a flaw.
    fn flawed_boleto(&mut self, flaw: Flaw) -> Vec<u8> {
        let shape = BatchShape {
            kind: BatchKind::Boleto,
            payments: 1,
        };
        let mut file = file_of(self.random, Direction::Remittance, &[shape]);
        for at in file.positions(RecordKind::J) {
            spoil_line(self.random, &mut file, at, &[flaw]);
        }
        file.bytes()
    }

    /// The bytes behind it would make the file whole.
    fn every_early_end(&mut self, bytes: &[u8]) {
        for place in 0..=bytes.len() {
            let (before, behind) = bytes.split_at(place);
            self.ask_parts(&[
                PartCall::Part(before),
                PartCall::End,
                PartCall::Part(behind),
                PartCall::End,
            ]);
        }
    }

    /// In a line that begins its part, that stands behind others in it, or that
    /// is cut.
    fn every_flaw(&mut self) {
        for subject in record_kinds::all_subjects() {
            for flaw in flaws_of(subject) {
                if let Some((mut file, flawed, at)) = self.flawed_beside_good(subject, &[flaw]) {
                    file.lines[at].bytes = flawed;
                    let bytes = file.bytes();
                    let line = at * LINE_BYTES;
                    let inside = line + self.random.between(1, LINE_BYTES - 1);
                    for place in [line, bytes.len(), inside] {
                        self.ask_cut_file(cut_at(&bytes, &[place]));
                    }
                }
            }
        }
    }

    fn byte_by_byte(&mut self) {
        for _ in 0..FILES_BYTE_BY_BYTE {
            let good = any_file(self.random).bytes();
            let behind = self.bytes_behind(&good);
            let begun = self.begun_wrongly();
            let flawed = self.flawed_file();
            let with_bytes_behind = [good.as_slice(), &behind].concat();
            for bytes in [good, with_bytes_behind, begun, flawed] {
                self.ask_cut_file(in_lengths(&bytes, ONE_BYTE));
            }
        }
    }

    /// At the limit of batches, over it, and over that of cents; with nothing
    /// behind them but an empty part.
    fn large_files_in_parts(&mut self) {
        for direction in DIRECTIONS {
            let most = MOST_BATCHES as usize;
            let files = [
                many_batches(self, direction, most),
                many_batches(self, direction, most + 1),
                large_sum(self, direction, 2, MISSING_CENTS),
            ];
            for file in files {
                let bytes = file.bytes();
                for length in LENGTHS_OF_LARGE_FILES.into_iter().chain([bytes.len()]) {
                    let mut parts = in_lengths(&bytes, length);
                    parts.push(NOTHING);
                    self.ask_cut_file(parts);
                }
            }
        }
    }

    /// As many lines in one part as a request can hold.
    fn largest_part(&mut self) {
        let lines_of_both_ends = 4;
        let lines = (BYTES_LIMIT - BYTES_BEFORE_A_PART - BYTES_OF_AN_END) / LINE_BYTES;
        let shape = BatchShape {
            kind: BatchKind::Credit,
            payments: (lines - lines_of_both_ends) / 2,
        };
        let file = file_of(self.random, Direction::Remittance, &[shape]);
        self.ask_cut_file(vec![&file.bytes()]);
    }

    fn no_files_in_parts(&mut self) {
        self.ask_parts(&[]);
        self.ask_parts(&[PartCall::End]);
        self.ask_parts(&[PartCall::End; MANY_CALLS]);
        self.ask_cut_file(vec![NOTHING]);
        self.ask_cut_file(vec![NOTHING; MANY_CALLS]);
        for length in LENGTHS_OF_NO_FILE {
            for byte in b" 0\n\xFF" {
                self.ask_in_parts(&vec![*byte; length]);
            }
        }
    }
}
