//! Records that a person can read, with invented contents: a clinic pays its
//! suppliers. What follows from other lines is still to be filled in.

use crate::making::due_dates::DueDate;
use crate::making::good_codes::set_code_check;
use crate::making::good_files::put_factor;
use crate::paper::due_factors::DueFactors;
use crate::paper::file_state::BatchKind;
use crate::paper::layout_table::{self as table, Entry, COLLECTION_SERVICE, CREDIT_SERVICE};
use crate::paper::lines::RECORD_BYTES;
use crate::paper::places::{
    part, Part, AMOUNT_OF_A, AMOUNT_OF_J, AMOUNT_OF_O, BARCODE_CENTS, CODE, DIRECTION, DISCOUNT,
    DUE, FINE, NOMINAL, SERVICE_AND_FORM,
};
use crate::paper::record_kinds::{Direction, RecordKind};
use crate::paper::Paper;

pub const BANK: &[u8] = b"085";
const TODAY: &[u8] = b"16112026";
const NOW: &[u8] = b"143000";
const CLINIC: &str = "CLINICA BOA VISTA LTDA";
const CLINIC_NUMBER: &str = "12345678000195";
const BANK_NAME: &str = "BANCO DO VALE";
const AGREEMENT: &str = "CONVENIO 004711";
/// Bank and currency, then places for check, factor and cents, then 25 digits.
const EMPTY_BARCODE: &[u8] = b"08590000000000000000104080001111100000000401";

/// The eleven digits of a code behind its check.
const CODE_VALUE: Part = part(22, 32);
/// Product 8, issuer and identifier, then places for check and value, then 29 digits.
const EMPTY_CODE: &[u8] = b"82600000000000000470112026121500000000123456";

/// Whom the clinic pays by a code: the name, and with which digits the code begins
/// (product, segment of the issuer, identifier).
pub struct Issuer {
    name: &'static str,
    begins: &'static str,
}

/// A code of modulus 10, one of modulus 11, and one of each without a value in
/// real money.
pub const ISSUERS: [Issuer; 4] = [
    Issuer {
        name: "AGUAS DO VALE",
        begins: "826",
    },
    Issuer {
        name: "PREFEITURA DE BLUMENAU",
        begins: "818",
    },
    Issuer {
        name: "ENERGIA DA SERRA S.A.",
        begins: "837",
    },
    Issuer {
        name: "RECEITA ESTADUAL",
        begins: "859",
    },
];

/// Whom the clinic pays: the kind of number (1 CPF, 2 CNPJ), the number with 14
/// characters, bank, agency, account and the street.
pub struct Payee {
    name: &'static str,
    number_kind: &'static str,
    number: &'static str,
    bank: &'static str,
    agency: &'static str,
    account: &'static str,
    street: &'static str,
}

pub const PAYEES: [Payee; 4] = [
    Payee {
        name: "OXIGENIO DO VALE LTDA",
        number_kind: "2",
        number: "23456789000195",
        bank: "001",
        agency: "01234",
        account: "000000056789",
        street: "RUA DAS PALMEIRAS",
    },
    Payee {
        name: "LAVANDERIA AGUA CLARA ME",
        number_kind: "2",
        number: "34567890000130",
        bank: "237",
        agency: "00456",
        account: "000000012340",
        street: "AVENIDA BRASIL",
    },
    Payee {
        name: "MARIA APARECIDA LIMA",
        number_kind: "1",
        number: "00012345678909",
        bank: "104",
        agency: "02001",
        account: "000000098765",
        street: "TRAVESSA DO SOL",
    },
    Payee {
        name: "PAPELARIA CENTRAL LTDA",
        number_kind: "2",
        number: "45678901000175",
        bank: "341",
        agency: "00789",
        account: "000000003210",
        street: "PRACA DA MATRIZ",
    },
];

/// A company whose CNPJ has letters, as request 7 of document 02 has it.
pub const LETTERED_PAYEE: Payee = Payee {
    name: "CLINICA VETERINARIA ALFA LTDA",
    number_kind: "2",
    number: "12ABC34501DE35",
    bank: "001",
    agency: "03210",
    account: "000000045678",
    street: "RUA DO MERCADO",
};

/// One of those above, with the check digits of its CNPJ swapped.
pub const MISTYPED_PAYEE: Payee = Payee {
    number: "34567890000103",
    ..PAYEES[1]
};

/// What a boleto says, in cents; the amount follows from the rest.
#[derive(Clone, Copy)]
pub struct Bill {
    pub nominal: u64,
    pub discount: u64,
    pub fine: u64,
    /// Nothing for no due date in the barcode: the boleto is due today then.
    pub due: Option<DueDate>,
}

/// Every field filled with what stands for nothing in it.
fn empty(kind: RecordKind) -> Vec<u8> {
    let mut record = vec![b' '; RECORD_BYTES];
    for field in table::fields(kind) {
        let content = match field.entry {
            Entry::Number | Entry::OptionalNumber | Entry::Identifier => {
                vec![b'0'; field.width()]
            }
            Entry::Barcode => EMPTY_BARCODE.to_vec(),
            Entry::Code => EMPTY_CODE.to_vec(),
            Entry::Date => TODAY.to_vec(),
            Entry::Time => NOW.to_vec(),
            Entry::Exact(content) => content.to_vec(),
            Entry::OneOf(domain) => vec![domain[0]],
            _ => vec![b' '; field.width()],
        };
        field.put(&mut record, &content);
    }
    record
}

/// Puts a content at a place, which is counted from 1.
fn put(record: &mut [u8], place: usize, content: &str) {
    record[place - 1..][..content.len()].copy_from_slice(content.as_bytes());
}

fn put_all(record: &mut [u8], contents: &[(usize, &str)]) {
    for (place, content) in contents {
        put(record, *place, content);
    }
}

/// What both headers say of the clinic.
const CLINIC_CONTENTS: [(usize, &str); 8] = [
    (18, "2"),
    (19, CLINIC_NUMBER),
    (33, AGREEMENT),
    (53, "00101"),
    (58, "7"),
    (59, "000000004321"),
    (71, "0"),
    (73, CLINIC),
];

pub fn file_header(direction: Direction) -> Vec<u8> {
    let mut record = empty(RecordKind::FileHeader);
    put_all(&mut record, &CLINIC_CONTENTS);
    let own = [(103, BANK_NAME), (158, "000042"), (164, "103")];
    put_all(&mut record, &own);
    DIRECTION.put(&mut record, &[direction.code()]);
    record
}

pub fn batch_header(direction: Direction, kind: BatchKind, form: &[u8]) -> Vec<u8> {
    let mut record = empty(RecordKind::BatchHeader);
    let service = match kind {
        BatchKind::Credit => CREDIT_SERVICE,
        BatchKind::Boleto => direction.boleto_service(),
        BatchKind::Collection => COLLECTION_SERVICE,
    };
    SERVICE_AND_FORM.put(&mut record, &[service, form].concat());
    put_all(&mut record, &CLINIC_CONTENTS);
    let own = [
        (14, "045"),
        (103, "PAGAMENTO DE FORNECEDORES"),
        (143, "RUA DAS FLORES"),
        (173, "00120"),
        (178, "SALA 4"),
        (193, "BLUMENAU"),
        (213, "89010000SC"),
    ];
    put_all(&mut record, &own);
    record
}

pub fn credit_records(payee: &Payee, document: u64, cents: u64) -> [(RecordKind, Vec<u8>); 2] {
    let mut first = empty(RecordKind::A);
    let document = format!("NF {document:06}");
    let own = [
        (18, "018"),
        (21, payee.bank),
        (24, payee.agency),
        (29, "1"),
        (30, payee.account),
        (42, "5"),
        (44, payee.name),
        (74, document.as_str()),
        (102, "BRL"),
    ];
    put_all(&mut first, &own);
    AMOUNT_OF_A.put_number(&mut first, u128::from(cents));
    let mut second = empty(RecordKind::B);
    let own = [
        (18, payee.number_kind),
        (19, payee.number),
        (33, payee.street),
        (63, "00077"),
        (98, "BLUMENAU"),
        (118, "89010000SC"),
    ];
    put_all(&mut second, &own);
    [(RecordKind::A, first), (RecordKind::B, second)]
}

pub fn boleto_records(payee: &Payee, document: u64, bill: Bill) -> [(RecordKind, Vec<u8>); 2] {
    let mut first = empty(RecordKind::J);
    let document = format!("NF {document:06}");
    put_all(&mut first, &[(62, payee.name), (183, document.as_str())]);
    if let Some(due) = bill.due {
        DUE.put(&mut first, &due);
    }
    let amount = (bill.nominal + bill.fine).saturating_sub(bill.discount);
    for (part, number) in [
        (BARCODE_CENTS, bill.nominal),
        (NOMINAL, bill.nominal),
        (DISCOUNT, bill.discount),
        (FINE, bill.fine),
        (AMOUNT_OF_J, amount),
    ] {
        part.put_number(&mut first, u128::from(number));
    }
    let factor = bill.due.and_then(|due| Paper.factor_of(&due));
    put_factor(&mut first, factor.unwrap_or(0));
    [
        (RecordKind::J, first),
        (RecordKind::J52, debtor_and_payee(payee)),
    ]
}

/// The value in the code is the amount, which nobody asks.
pub fn collection_record(issuer: &Issuer, document: u64, cents: u64) -> (RecordKind, Vec<u8>) {
    let mut record = empty(RecordKind::O);
    let document = format!("NF {document:06}");
    let own = [
        (18, issuer.begins),
        (62, issuer.name),
        (123, document.as_str()),
    ];
    put_all(&mut record, &own);
    AMOUNT_OF_O.put_number(&mut record, u128::from(cents));
    CODE_VALUE.put_number(&mut record, u128::from(cents));
    let mut code = CODE.of(&record).to_vec();
    set_code_check(&mut code);
    CODE.put(&mut record, &code);
    (RecordKind::O, record)
}

fn debtor_and_payee(payee: &Payee) -> Vec<u8> {
    let mut record = empty(RecordKind::J52);
    // The numbers have one digit more than elsewhere.
    let own = [
        (20, "2"),
        (22, CLINIC_NUMBER),
        (36, CLINIC),
        (76, payee.number_kind),
        (78, payee.number),
        (92, payee.name),
    ];
    put_all(&mut record, &own);
    record
}

/// What the bank says of a payment it has made.
pub fn z_record(document: u64) -> Vec<u8> {
    let mut record = empty(RecordKind::Z);
    put(&mut record, 15, &format!("AUTENTICACAO {document:010}"));
    record
}

/// What the bank says of a payment it will not make.
pub fn z_record_of_a_withdrawal(document: u64) -> Vec<u8> {
    let mut record = empty(RecordKind::Z);
    put(&mut record, 15, &format!("EXCLUIDO {document:010}"));
    record
}

pub fn trailer(kind: RecordKind) -> Vec<u8> {
    empty(kind)
}
