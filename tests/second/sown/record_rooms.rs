//! Mistakes about the records that have to find room behind a batch header. No
//! script is long enough to show them.

use super::names::fault_list;

fault_list! {
    RecordRoomFault, RECORD_ROOM_FAULTS,
    TwoDetailsForEveryPair,
    OneDetailForEveryPair,
    OneDetailForService29,
    OneDetailForForm11,
    WideNumbersCutFirst,
    NoDetailForO,
}

const TWO_DIGITS: u64 = 100;

pub fn details(fault: RecordRoomFault, [service, form]: [Option<u64>; 2]) -> u64 {
    let of_o = [service, form] == [Some(29), Some(11)];
    let one = match fault {
        RecordRoomFault::TwoDetailsForEveryPair => false,
        RecordRoomFault::OneDetailForEveryPair => true,
        RecordRoomFault::OneDetailForService29 => service == Some(29),
        RecordRoomFault::OneDetailForForm11 => form == Some(11),
        RecordRoomFault::WideNumbersCutFirst => {
            let cut = [service, form].map(|half| half.map(|number| number % TWO_DIGITS));
            cut == [Some(29), Some(11)]
        }
        RecordRoomFault::NoDetailForO if of_o => return 0,
        RecordRoomFault::NoDetailForO => false,
    };
    2 - u64::from(one)
}
