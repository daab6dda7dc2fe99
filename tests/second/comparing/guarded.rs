//! Holds the program to what document 01 claims of guarded places: in accepted
//! files and digit lines, one byte changed there is refused.

use crate::cases::streams;
use crate::checking::sample_sights;
use crate::checking::sown_mistakes::SownMistake;
use crate::comparing::trials::first_failure;
use crate::damage::changes::{Demand, Trials};
use crate::damage::file_trials;
use crate::damage::other_bytes::BYTES_TRIED;
use crate::damage::{guarded_codes, guarded_digits};
use crate::making::good_barcodes::few_of_each_check;
use crate::making::good_codes::one_of_each_check;
use crate::making::good_files::MadeLine;
use crate::making::guarded_samples::{samples, Sample};
use crate::making::random::Random;
use crate::paper::layout_table as table;
use crate::paper::places::{part, Part, CODE, SEGMENT};
use crate::paper::record_kinds::RecordKind;
use crate::paper::registration::{type_before, Registration};

const SEED: u64 = 13;
/// One in the list of places, three in the demands on files, and two in those on
/// digit lines and on collection codes.
const SOWN_MISTAKES: usize = 8;
/// The digits of J that only the general check looks at.
const FREE_DIGITS: Part = part(37, 61);

pub fn check(command: &[String]) -> Result<(), String> {
    let samples = samples();
    let unseen = sample_sights::unseen(&samples);
    if !unseen.is_empty() {
        return Err(format!("no sample shows: {}", unseen.join(", ")));
    }
    let random = &mut Random::with_seed(SEED);
    let made = samples.iter();
    let files: Vec<Trials> = made.map(|s| file_trials::trials_of(random, s)).collect();
    let digit_lines = trials_of_digit_lines();
    let codes = trials_of_codes();
    // The files one by one: all requests together are too many to be held.
    for file in files.chunks(1) {
        hold(command, file)?;
    }
    hold(command, &digit_lines)?;
    hold(command, &codes)?;
    let mut sown = sown_mistakes(random, &samples[0], &files[0], &digit_lines);
    sown.extend(mistakes_about_codes(&codes));
    if sown.len() != SOWN_MISTAKES {
        return Err("a mistake could not be sown".to_string());
    }
    for mistake in &sown {
        mistake.must_be_found(command)?;
    }
    report(&samples, &files, &digit_lines)?;
    report_codes(&codes)?;
    println!("mistakes sown in these demands, all found: {SOWN_MISTAKES}");
    Ok(())
}

fn trials_of_digit_lines() -> Vec<Trials> {
    let barcodes = streams::accepted_barcodes();
    let few = few_of_each_check(&barcodes).into_iter();
    few.map(|barcode| guarded_digits::trials_of(barcode))
        .collect()
}

/// Some with every identifier and every general check.
fn trials_of_codes() -> Vec<Trials> {
    let codes = streams::accepted_codes();
    let few = one_of_each_check(&codes).into_iter();
    few.flat_map(|code| guarded_codes::trials_of(code))
        .collect()
}

fn mistakes_about_codes(codes: &[Trials]) -> Vec<SownMistake> {
    let demands = [Demand::Refusal, Demand::Acceptance].into_iter();
    let sown = demands.filter_map(|demand| {
        let mut codes = codes.iter();
        codes.find_map(|code| SownMistake::in_a_demand(code, demand))
    });
    sown.collect()
}

fn hold(command: &[String], trials: &[Trials]) -> Result<(), String> {
    match first_failure(command, trials)? {
        Some(failure) => Err(failure.to_string()),
        None => Ok(()),
    }
}

/// In the list of places, and in each kind of demand on files and digit lines.
fn sown_mistakes(
    random: &mut Random,
    sample: &Sample,
    file: &Trials,
    digit_lines: &[Trials],
) -> Vec<SownMistake> {
    let mut sown = vec![SownMistake::in_the_list(random, sample)];
    for demand in [Demand::Refusal, Demand::Acceptance, Demand::OtherTotals] {
        let mut lines = digit_lines.iter();
        let in_line = lines.find_map(|line| SownMistake::in_a_demand(line, demand));
        sown.extend(SownMistake::in_a_demand(file, demand));
        sown.extend(in_line);
    }
    sown
}

fn report(samples: &[Sample], files: &[Trials], digit_lines: &[Trials]) -> Result<(), String> {
    let lines: usize = samples.iter().map(|sample| sample.file.lines.len()).sum();
    let weak = accepted_in(samples, files, is_free_digit);
    let registered = accepted_in(samples, files, is_in_a_checked_number);
    let coded = accepted_in(samples, files, is_in_a_code);
    let letters = letters_changed(files);
    println!("samples, all accepted: {}, of {lines} lines", samples.len());
    let (places, refused, accepted) = counts(files);
    let moved = count(files, Demand::OtherTotals);
    println!("guarded places of samples, each with {BYTES_TRIED} other bytes: {places}");
    println!("changed bytes at guarded places, all refused: {refused}");
    println!("changed bytes elsewhere, all accepted with the same totals: {accepted}");
    println!("of these, free digits of a barcode with general check 1: {weak}");
    println!("of these, characters of a CPF or CNPJ that stays right: {registered}");
    println!("of these, digits of a collection code that stays right: {coded}");
    println!(
        "changed movements, all accepted with other totals: {}",
        moved - letters
    );
    println!("letters of an O without cents, or of its Z, all accepted: {letters}");
    let (places, refused, kept) = counts(digit_lines);
    println!(
        "digit lines, all accepted: {}, with {places} guarded places",
        digit_lines.len()
    );
    println!("changed digits at guarded places, all refused: {refused}");
    println!("changed digits behind a general check 1, all accepted: {kept}");
    // Without such changes nothing would show why the claim goes no further.
    if [
        accepted,
        weak,
        registered,
        coded,
        moved - letters,
        letters,
        kept,
    ]
    .contains(&0)
    {
        return Err("no change at an unguarded place was tried".to_string());
    }
    Ok(())
}

fn report_codes(codes: &[Trials]) -> Result<(), String> {
    let (_, refused, accepted) = counts(codes);
    println!("collection codes and lines, all accepted: {}", codes.len());
    println!("changed digits of them with a claim, all refused: {refused}");
    println!("changed digits of them without one that stay right, all accepted: {accepted}");
    if accepted == 0 {
        return Err("no change of a code without a claim was tried".to_string());
    }
    Ok(())
}

fn letters_changed(files: &[Trials]) -> usize {
    let changes = files.iter();
    let moved = changes.flat_map(|trials| trials.changes_with(Demand::OtherTotals));
    moved.filter(|change| change.place == SEGMENT.first).count()
}

/// Guarded places, changes refused and changes accepted.
fn counts(all: &[Trials]) -> (usize, usize, usize) {
    let places = all.iter().map(|trials| trials.places_with(Demand::Refusal));
    let refused = count(all, Demand::Refusal);
    let accepted = count(all, Demand::Acceptance);
    (places.sum(), refused, accepted)
}

fn count(all: &[Trials], demand: Demand) -> usize {
    let changes = all.iter().flat_map(|trials| trials.changes_with(demand));
    changes.count()
}

/// The accepted changes at places of one sort.
fn accepted_in(
    samples: &[Sample],
    files: &[Trials],
    is_meant: fn(&MadeLine, usize) -> bool,
) -> usize {
    let pairs = samples.iter().zip(files);
    let counts = pairs.map(|(sample, trials)| {
        let accepted = trials.changes_with(Demand::Acceptance);
        let meant = accepted.filter(|change| {
            let line = &sample.file.lines[change.line - 1];
            is_meant(line, change.place)
        });
        meant.count()
    });
    counts.sum()
}

fn is_free_digit(line: &MadeLine, place: usize) -> bool {
    line.kind == RecordKind::J && FREE_DIGITS.places().contains(&place)
}

fn is_in_a_code(line: &MadeLine, place: usize) -> bool {
    line.kind == RecordKind::O && CODE.places().contains(&place)
}

fn is_in_a_checked_number(line: &MadeLine, place: usize) -> bool {
    let mut fields = table::registrations(line.kind).into_iter();
    fields.any(|field| {
        let checked = Registration::of_type(type_before(field, &line.bytes)).is_some();
        checked && (field.first..=field.last).contains(&place)
    })
}
