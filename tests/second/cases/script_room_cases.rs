//! Scripts about the output: of every size, with more or less of it lent to a
//! call, and overwritten between calls.

use crate::asking::probe::UNTOUCHED;
use crate::asking::writer_script::Step;
use crate::cases::script_cases::ScriptCases;
use crate::making::good_calls::{calls_of, records_in, steps};
use crate::making::good_files::any_file;
use crate::paper::lines::LINE_BYTES;
use crate::paper::writer_calls::WriterCall;

/// Around the end of each record of a small file.
const MOST_RECORDS: usize = 7;
const MOST_BYTES_BESIDE: isize = 3;
const OTHER_ROOMS: usize = 20;
const FILES_LENT_IN_PARTS: usize = 30;
const FILES_OVERWRITTEN: usize = 60;
const FILES_WITHOUT_CALLS: usize = 6;
/// More than any script has room for.
pub const MORE_THAN_ALL: usize = 999_999;
const BYTES_TO_OVERWRITE_WITH: &[u8] = b"0129 AJ\r\n\x00\xFF\xAA";

impl ScriptCases<'_> {
    pub fn ask_rooms(&mut self) {
        for records in 0..=MOST_RECORDS {
            for beside in -MOST_BYTES_BESIDE..=MOST_BYTES_BESIDE {
                let room = (records * LINE_BYTES) as isize + beside;
                self.small_room(room.max(0) as usize);
            }
        }
        for _ in 0..OTHER_ROOMS {
            let room = self.random.below((MOST_RECORDS + 1) * LINE_BYTES);
            self.small_room(room);
        }
        for beside in -MOST_BYTES_BESIDE..=MOST_BYTES_BESIDE {
            let calls = self.any_five_calls();
            self.lent_beside_the_end(&calls, beside);
            let calls = self.five_calls_with_z();
            self.lent_beside_the_end(&calls, beside);
        }
        for _ in 0..FILES_LENT_IN_PARTS {
            self.lent_in_parts();
        }
        for _ in 0..FILES_OVERWRITTEN {
            self.overwritten();
        }
        for _ in 0..FILES_WITHOUT_CALLS {
            self.no_calls();
        }
    }

    /// The last calls find no room for what they write.
    fn small_room(&mut self, room: usize) {
        let calls = if self.random.coin() {
            self.any_five_calls()
        } else {
            self.five_calls_with_z()
        };
        self.ask(&steps(&calls), room);
    }

    /// Each call in turn is lent so many bytes beside what it asks for, and
    /// then all.
    fn lent_beside_the_end(&mut self, calls: &[WriterCall], beside: isize) {
        for at in 0..calls.len() {
            let end = records_in(&steps(&calls[..=at])) * LINE_BYTES;
            let lent = end as isize + beside;
            self.lent_before(calls, at, lent as usize);
        }
    }

    /// A call is made with so much lent, and once more with all.
    fn lent_before(&mut self, calls: &[WriterCall], at: usize, lent: usize) {
        let mut script = steps(&calls[..at]);
        script.push(Step::Lend(lent));
        script.push(Step::Call(calls[at].clone()));
        let all = self
            .random
            .pick(&[MORE_THAN_ALL, calls.len() * 2 * LINE_BYTES]);
        script.push(Step::Lend(all));
        script.extend(steps(&calls[at..]));
        self.ask_with_room(&script);
    }

    /// Less than was written, the end of what was written, or any part.
    fn lent_in_parts(&mut self) {
        let file = any_file(self.random);
        let calls = calls_of(self.random, &file);
        let room = records_in(&steps(&calls)) * LINE_BYTES;
        let mut script = Vec::new();
        let mut cursor = 0;
        for call in &calls {
            if self.random.coin() {
                let lent = match self.random.below(4) {
                    0 => self.random.below(cursor + 1),
                    1 => cursor.saturating_sub(1),
                    2 => cursor,
                    _ => self.random.below(room + 1),
                };
                script.push(Step::Lend(lent));
                script.push(Step::Call(call.clone()));
                script.push(Step::Lend(MORE_THAN_ALL));
            }
            script.push(Step::Call(call.clone()));
            cursor += call.records.len() * LINE_BYTES;
        }
        self.ask(&script, room);
    }

    /// Nothing that was written is there any more when the next call is made.
    fn overwritten(&mut self) {
        let file = any_file(self.random);
        let calls = calls_of(self.random, &file);
        let mut script = Vec::new();
        for call in calls {
            if self.random.coin() {
                script.push(Step::Overwrite(self.any_byte()));
            }
            script.push(Step::Call(call));
        }
        self.ask_with_room(&script);
    }

    fn any_byte(&mut self) -> u8 {
        match self.random.below(3) {
            0 => self.random.byte(),
            1 => UNTOUCHED,
            _ => self.random.pick(BYTES_TO_OVERWRITE_WITH),
        }
    }

    fn no_calls(&mut self) {
        let mut script = Vec::new();
        for _ in 0..self.random.below(3) {
            script.push(Step::Overwrite(self.any_byte()));
            script.push(Step::Lend(self.random.below(LINE_BYTES)));
        }
        let room = self.random.pick(&[0, 1, LINE_BYTES, 1_000]);
        self.ask(&script, room);
    }
}
