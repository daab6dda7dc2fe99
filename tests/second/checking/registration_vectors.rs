//! CPF and CNPJ worked out apart from this program, by the weights that document
//! 02's readings give of Receita Federal's rule. Where the second program says
//! something else of one of them, it is wrong.

use crate::paper::numbers::{NON_DIGIT, WRONG_REGISTRATION};
use crate::paper::registration::{Registration, RegistrationRules, CHECK_DIGITS};
use crate::paper::Paper;

/// A sum divided by eleven leaves one of so many.
const REMAINDERS: u32 = 11;

/// A right number, and the remainders that its two check digits come from.
type Right = (&'static [u8], [u32; CHECK_DIGITS]);

/// The first nine need a pocket calculator; most others have few digits: for
/// 000000006 it is 6 x 2 = 12, which leaves 1 and gives 0, and then 6 x 3 = 18,
/// which leaves 7 and gives 4. A one in front adds 10 to the first sum and 11 to
/// the second, and so changes neither check digit.
const RIGHT_CPFS: [Right; 23] = [
    (b"12345678909", [1, 2]),
    (b"11144477735", [8, 6]),
    (b"52998224725", [9, 6]),
    (b"98765432100", [0, 1]),
    (b"76543219882", [3, 9]),
    (b"24681357928", [9, 3]),
    (b"11111111111", [10, 10]),
    (b"99999999999", [2, 2]),
    (b"00000000000", [0, 0]),
    (b"00000000604", [1, 7]),
    (b"10000000604", [0, 7]),
    (b"00000000191", [2, 10]),
    (b"00000000272", [4, 9]),
    (b"00000000353", [6, 8]),
    (b"00000000434", [8, 7]),
    (b"00000000515", [10, 6]),
    (b"00000000787", [3, 4]),
    (b"00000000868", [5, 3]),
    (b"00000000949", [7, 2]),
    (b"00000001082", [3, 9]),
    (b"00000001406", [0, 5]),
    (b"00000001830", [8, 1]),
    (b"01000000028", [9, 3]),
];

/// Among them the example of request 7, and the one that a 6 in the place of its
/// A leaves right: the letter counts 17, eleven more.
const RIGHT_CNPJS: [Right; 31] = [
    (b"12ABC34501DE35", [8, 6]),
    (b"126BC34501DE35", [8, 6]),
    (b"11222333000181", [3, 10]),
    (b"12345678000195", [2, 6]),
    (b"33000167000101", [0, 10]),
    (b"60746948000112", [10, 9]),
    (b"00000000000191", [2, 10]),
    (b"00000000000000", [0, 0]),
    (b"00000000000604", [1, 7]),
    (b"00000000000A04", [1, 7]),
    (b"00000000000L04", [1, 7]),
    (b"00000000000J34", [8, 7]),
    (b"00000000000K15", [10, 6]),
    (b"00000000000Z49", [7, 2]),
    (b"A0000000000032", [8, 9]),
    (b"Z0000000000001", [1, 10]),
    (b"AAAAAAAAAAAA45", [7, 6]),
    (b"ZZZZZZZZZZZZ62", [5, 9]),
    (b"ABCDEFGHIJKL80", [3, 0]),
    (b"LBCDEFGHIJKL80", [3, 0]),
    (b"MNOPQRSTUVWX50", [6, 1]),
    (b"YZ012345678981", [3, 10]),
    (b"A1B2C3D4E5F668", [5, 3]),
    (b"00000000000272", [4, 9]),
    (b"00000000000353", [6, 8]),
    (b"00000000000787", [3, 4]),
    (b"00000000000868", [5, 3]),
    (b"00000000000949", [7, 2]),
    (b"00000000001325", [9, 6]),
    (b"00000000001406", [0, 5]),
    (b"00000000001830", [8, 1]),
];

/// Which of the two check digits of a wrong number are right.
type Wrong = (&'static [u8], [bool; CHECK_DIGITS]);

/// The second check digit is tested over the first as it stands.
const WRONG_CPFS: [Wrong; 10] = [
    (b"12345678908", [true, false]),
    (b"12345678919", [false, false]),
    (b"11144477745", [false, false]),
    (b"11144477753", [false, false]),
    (b"00000000614", [false, false]),
    (b"00000000612", [false, true]),
    (b"00000000605", [true, false]),
    (b"98765432101", [true, false]),
    (b"98765432111", [false, false]),
    (b"00000000001", [true, false]),
];

/// If letters counted from 10, 12ABC34501DE45 would be right; if they counted from
/// 1, 12ABC34501DE03.
const WRONG_CNPJS: [Wrong; 13] = [
    (b"12ABC34501DE34", [true, false]),
    (b"12ABC34501DE45", [false, false]),
    (b"12ABC34501DE03", [false, false]),
    (b"12ABC34501DE43", [false, true]),
    (b"12BBC34501DE35", [false, false]),
    (b"12LBC34501DF35", [false, false]),
    (b"11222333000180", [true, false]),
    (b"11222333000118", [false, false]),
    (b"00000000000100", [false, false]),
    (b"00000000000A14", [false, false]),
    (b"ZZZZZZZZZZZZ63", [true, false]),
    (b"33000167000111", [false, false]),
    (b"MNOPQRSTUVWX51", [true, false]),
];

/// A type, a field's content, and the number of its refusal, 0 for none.
type InAField = (u8, &'static [u8], u32);

const IN_FIELDS: [InAField; 40] = [
    (b'0', b"00000000000001", 0),
    (b'0', b"98765432109876", 0),
    (b'0', b"987654321098765", 0),
    (b'0', b"12ABC34501DE35", NON_DIGIT),
    (b'0', b"A00000000000000", NON_DIGIT),
    (b'0', b"0000000000000A", NON_DIGIT),
    (b'0', b" 0000000000000", NON_DIGIT),
    (b'1', b"00012345678909", 0),
    (b'1', b"000012345678909", 0),
    (b'1', b"00010000000604", 0),
    (b'1', b"000000000000000", 0),
    (b'1', b"00112345678909", WRONG_REGISTRATION),
    (b'1', b"01012345678909", WRONG_REGISTRATION),
    (b'1', b"10012345678909", WRONG_REGISTRATION),
    (b'1', b"100012345678909", WRONG_REGISTRATION),
    (b'1', b"12345678909000", WRONG_REGISTRATION),
    (b'1', b"12345678000195", WRONG_REGISTRATION),
    (b'1', b"00012345678990", WRONG_REGISTRATION),
    (b'1', b"0001234567890A", NON_DIGIT),
    (b'1', b"A0012345678909", NON_DIGIT),
    (b'1', b"12ABC34501DE35", NON_DIGIT),
    (b'1', b"   12345678909", NON_DIGIT),
    (b'2', b"12ABC34501DE35", 0),
    (b'2', b"012ABC34501DE35", 0),
    (b'2', b"011222333000181", 0),
    (b'2', b"00000000000000", 0),
    (b'2', b"112ABC34501DE35", WRONG_REGISTRATION),
    (b'2', b"911222333000181", WRONG_REGISTRATION),
    (b'2', b"12ABC34501DE350", WRONG_REGISTRATION),
    (b'2', b"112223330001810", WRONG_REGISTRATION),
    (b'2', b"00012345678909", WRONG_REGISTRATION),
    (b'2', b"A12ABC34501DE35", NON_DIGIT),
    (b'2', b" 12ABC34501DE35", NON_DIGIT),
    (b'2', b"12ABC34501DEA5", NON_DIGIT),
    (b'2', b"12ABC34501DE3A", NON_DIGIT),
    (b'2', b"12abc34501de35", NON_DIGIT),
    (b'2', b"12ABC34501Dz35", NON_DIGIT),
    (b'2', b"12@BC34501DE35", NON_DIGIT),
    (b'2', b"12[BC34501DE35", NON_DIGIT),
    (b'2', b"12:BC34501DE35", NON_DIGIT),
];

pub fn check() -> Result<usize, String> {
    for (number, remainders) in RIGHT_CPFS {
        right_number(Registration::Cpf, number, remainders)?;
    }
    for (number, remainders) in RIGHT_CNPJS {
        right_number(Registration::Cnpj, number, remainders)?;
    }
    for (number, checks) in WRONG_CPFS {
        wrong_number(Registration::Cpf, number, checks)?;
    }
    for (number, checks) in WRONG_CNPJS {
        wrong_number(Registration::Cnpj, number, checks)?;
    }
    for (code, content, refusal) in IN_FIELDS {
        demand(refusal_of(code, content) == refusal, content)?;
    }
    every_remainder(&RIGHT_CPFS)?;
    every_remainder(&RIGHT_CNPJS)?;
    let right = RIGHT_CPFS.len() + RIGHT_CNPJS.len();
    Ok(right + WRONG_CPFS.len() + WRONG_CNPJS.len() + IN_FIELDS.len())
}

fn right_number(
    registration: Registration,
    number: &[u8],
    remainders: [u32; CHECK_DIGITS],
) -> Result<(), String> {
    let weights = Paper.weights(registration);
    let found = weights.map(|weights| Paper.remainder_over(number, weights));
    let right = Paper.number_is_right(registration, number);
    demand(found == remainders && right, number)
}

fn wrong_number(
    registration: Registration,
    number: &[u8],
    checks: [bool; CHECK_DIGITS],
) -> Result<(), String> {
    let [first, second] = Paper.weights(registration);
    let found = [
        number[first.len()] == Paper.check_over(number, first),
        number[second.len()] == Paper.check_over(number, second),
    ];
    let right = Paper.number_is_right(registration, number);
    demand(found == checks && !right, number)
}

/// 8 comes before 26.
fn refusal_of(code: u8, content: &[u8]) -> u32 {
    if !Paper.characters_are_right(code, content) {
        return NON_DIGIT;
    }
    match Registration::of_type(code) {
        Some(registration) if !Paper.number_is_right(registration, content) => WRONG_REGISTRATION,
        _ => 0,
    }
}

/// All of them come up for either check digit.
fn every_remainder(numbers: &[Right]) -> Result<(), String> {
    for check in 0..CHECK_DIGITS {
        for remainder in 0..REMAINDERS {
            let mut found = numbers.iter().map(|(_, remainders)| remainders[check]);
            if !found.any(|found| found == remainder) {
                return Err(format!("no number has remainder {remainder}"));
            }
        }
    }
    Ok(())
}

fn demand(holds: bool, number: &[u8]) -> Result<(), String> {
    if holds {
        return Ok(());
    }
    let number = number.escape_ascii();
    Err(format!("{number}: not as Receita Federal's rule says"))
}
