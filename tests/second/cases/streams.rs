//! How the requests are made: one long stream about digit strings and records
//! with malformed requests among them, streams about files, about files in parts
//! and about the writer, and short streams that are cut in the middle of a
//! request.

use std::iter;

use crate::asking::probe::{Request, HEADER_BYTES, OP_AT};
use crate::cases::file_cases::{self, FileCases};
use crate::cases::script_cases::ScriptCases;
use crate::cases::{absence_cases, code_cases, collection_record_cases, digit_cases, due_cases};
use crate::cases::{large_file_cases, line_call_cases};
use crate::cases::{record_cases, record_write_cases, registration_cases, withdrawn_cases};
use crate::damage::malformed_requests::{changed, malformed_requests, with_bait};
use crate::making::good_barcodes;
use crate::making::good_codes;
use crate::making::good_requests::good_requests;
use crate::making::random::Random;

const BARCODE_SEED: u64 = 1;
const DIGIT_STRING_SEED: u64 = 2;
const ORDER_SEED: u64 = 4;
const RECORD_SEED: u64 = 6;
const RECORD_WRITE_SEED: u64 = 7;
const MADE_ONCE_SEED: u64 = 8;
const WITHDRAWN_SEED: u64 = 14;
const ABSENCE_SEED: u64 = 15;
const ABSENCE_FILE_SEED: u64 = 16;
const REGISTRATION_SEED: u64 = 18;
const REGISTRATION_FILE_SEED: u64 = 19;
const CODE_SEED: u64 = 22;
const CODE_STRING_SEED: u64 = 23;
const COLLECTION_SEED: u64 = 24;
const COLLECTION_FILE_SEED: u64 = 25;
const PAIRS_OF_FLAWS_SEED: u64 = 10;
const ROUNDS_OF_PAIRS: usize = 2;
/// The first of the streams about files has this seed, the others the next ones.
const FIRST_FILE_SEED: u64 = 100;
const FILE_STREAMS: u64 = 16;
/// And so for the streams about the writer.
const FIRST_WRITER_SEED: u64 = 200;
const WRITER_STREAMS: u64 = 9;
/// And for those about files in parts.
const FIRST_PART_SEED: u64 = 300;
const PART_STREAMS: u64 = 4;
/// How often each good request stands among those about files.
const GOOD_REQUESTS_AMONG_FILES: usize = 10;

/// Whole requests, and the bytes of one that is cut short (often none).
pub struct Stream {
    pub requests: Vec<Request>,
    pub cut_request: Vec<u8>,
}

impl Stream {
    /// Good and malformed, large and small requests alternate, so that nothing
    /// kept from one call goes unseen in the next.
    fn shuffled(mut requests: Vec<Request>, random: &mut Random) -> Stream {
        random.shuffle(&mut requests);
        Stream {
            requests,
            cut_request: Vec::new(),
        }
    }
}

pub fn accepted_barcodes() -> Vec<Vec<u8>> {
    good_barcodes::accepted_barcodes(&mut Random::with_seed(BARCODE_SEED))
}

pub fn accepted_codes() -> Vec<Vec<u8>> {
    good_codes::accepted_codes(&mut Random::with_seed(CODE_SEED))
}

/// All streams, each made only when it is wanted: together they are large, and
/// a seeded fault is mostly caught in the first about its topic.
pub fn streams() -> impl Iterator<Item = Stream> {
    let cut = iter::once_with(cut_streams).flatten();
    let files = file_streams().chain(part_streams());
    let whole = string_streams().chain(files).chain(writer_streams());
    whole.chain(cut)
}

/// The one stream about digit strings and records alone.
pub fn string_streams() -> impl Iterator<Item = Stream> {
    iter::once_with(|| stream_of_strings(&accepted_barcodes()))
}

/// The streams about the writer, the first of them with the scripts that are
/// made once.
pub fn writer_streams() -> impl Iterator<Item = Stream> {
    (0..WRITER_STREAMS).map(|index| {
        let mut random = Random::with_seed(FIRST_WRITER_SEED + index);
        let mut cases = ScriptCases::new(&mut random);
        if index == 0 {
            cases.ask_long();
            cases.ask_withdrawn();
            cases.ask_absences();
            cases.ask_registrations();
            cases.ask_collections();
        }
        cases.ask_all();
        let mut requests = cases.requests;
        requests.extend(good_requests());
        Stream::shuffled(requests, &mut random)
    })
}

/// The streams about files, the one of those made once early among them.
pub fn file_streams() -> impl Iterator<Item = Stream> {
    let mut seeds = (0..FILE_STREAMS).map(|index| FIRST_FILE_SEED + index);
    let first = seeds.next().into_iter().map(stream_of_files);
    let once = iter::once_with(stream_of_files_made_once);
    let pairs = iter::once_with(stream_of_pairs_of_flaws);
    let others = seeds.map(stream_of_files);
    first.chain(once).chain(pairs).chain(others)
}

/// The streams about files in parts, the first of them with the cuttings that
/// are made once.
pub fn part_streams() -> impl Iterator<Item = Stream> {
    (0..PART_STREAMS).map(|index| {
        let mut random = Random::with_seed(FIRST_PART_SEED + index);
        let mut cases = FileCases::new(&mut random);
        if index == 0 {
            cases.ask_cuts_made_once();
            cases.ask_absences_in_parts();
            cases.ask_registrations_in_parts();
            cases.ask_collections_in_parts();
        }
        cases.ask_files_in_parts();
        let mut requests = cases.requests;
        requests.extend(good_requests());
        Stream::shuffled(requests, &mut random)
    })
}

fn stream_of_files(seed: u64) -> Stream {
    let mut random = Random::with_seed(seed);
    let mut cases = FileCases::new(&mut random);
    cases.ask_files();
    cases.ask_line_calls();
    let mut requests = cases.requests;
    for _ in 0..GOOD_REQUESTS_AMONG_FILES {
        requests.extend(good_requests());
    }
    Stream::shuffled(requests, &mut random)
}

/// Each pair more than once, since a flaw can be put in various ways.
fn stream_of_pairs_of_flaws() -> Stream {
    let mut random = Random::with_seed(PAIRS_OF_FLAWS_SEED);
    let mut cases = FileCases::new(&mut random);
    for _ in 0..ROUNDS_OF_PAIRS {
        cases.ask_pairs_of_flaws();
    }
    let requests = cases.requests;
    Stream::shuffled(requests, &mut random)
}

/// Large files, every due date around a turn, every mix of live and withdrawn
/// payments, every way in which numbers are not given, CPF and CNPJ of every
/// sort, O records in every shape, and files that chance would hardly make.
fn stream_of_files_made_once() -> Stream {
    let mut random = Random::with_seed(MADE_ONCE_SEED);
    let mut requests = large_file_cases::requests(&mut random);
    requests.extend(due_cases::requests(&mut random));
    requests.extend(file_cases::unlikely_files(&mut random));
    requests.extend(line_call_cases::unlikely_calls(&mut random));
    requests.extend(withdrawn_cases::requests(&mut Random::with_seed(
        WITHDRAWN_SEED,
    )));
    let mut absences = Random::with_seed(ABSENCE_FILE_SEED);
    let mut cases = FileCases::new(&mut absences);
    cases.ask_absences();
    requests.extend(cases.requests);
    let mut registrations = Random::with_seed(REGISTRATION_FILE_SEED);
    let mut cases = FileCases::new(&mut registrations);
    cases.ask_registrations();
    requests.extend(cases.requests);
    let mut collections = Random::with_seed(COLLECTION_FILE_SEED);
    let mut cases = FileCases::new(&mut collections);
    cases.ask_collections();
    requests.extend(cases.requests);
    Stream::shuffled(requests, &mut random)
}

fn stream_of_strings(barcodes: &[Vec<u8>]) -> Stream {
    let mut random = Random::with_seed(DIGIT_STRING_SEED);
    let mut requests = digit_cases::requests(&mut random, barcodes);
    requests.extend(record_cases::requests(&mut Random::with_seed(RECORD_SEED)));
    let mut random = Random::with_seed(RECORD_WRITE_SEED);
    requests.extend(record_write_cases::requests(&mut random));
    requests.extend(absence_cases::requests(&mut Random::with_seed(
        ABSENCE_SEED,
    )));
    requests.extend(registration_cases::requests(&mut Random::with_seed(
        REGISTRATION_SEED,
    )));
    let mut random = Random::with_seed(CODE_STRING_SEED);
    requests.extend(code_cases::requests(&mut random, &accepted_codes()));
    requests.extend(collection_record_cases::requests(&mut Random::with_seed(
        COLLECTION_SEED,
    )));
    requests.extend(malformed_requests());
    Stream::shuffled(requests, &mut Random::with_seed(ORDER_SEED))
}

/// Headers cut at each length (0 is a stream that ends as it should), and
/// payloads cut short, of good requests and of a malformed one.
fn cut_streams() -> Vec<Stream> {
    let good = good_requests();
    let barcode = &good[0];
    let unknown_op = with_bait(changed(&barcode.header, OP_AT, b'?'));
    let mut streams = Vec::new();
    for kept in 0..HEADER_BYTES {
        streams.push(stream_cut_in(barcode, kept));
    }
    for request in good.iter().chain([&unknown_op]) {
        let whole = HEADER_BYTES + request.payload.len();
        for kept in [HEADER_BYTES, HEADER_BYTES + 1, whole - 1] {
            streams.push(stream_cut_in(request, kept));
        }
    }
    streams
}

fn stream_cut_in(request: &Request, kept: usize) -> Stream {
    let mut cut_request = Vec::new();
    request.append_to(&mut cut_request);
    cut_request.truncate(kept);
    Stream {
        requests: good_requests().to_vec(),
        cut_request,
    }
}
