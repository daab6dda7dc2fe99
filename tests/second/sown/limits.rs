//! Mistakes about the limits that live and withdrawn payments reach together.
//! Most of them need longer files than a request can hold.

use super::names::fault_list;
use crate::paper::totals::Totals;

fault_list! {
    LimitFault, LIMIT_FAULTS,
    PaymentsUnlimited,
    PaymentLimitOfLiveOnly,
    PaymentLimitOfWithdrawnOnly,
    TotalOfLiveOnly,
    TotalOfWithdrawnOnly,
}

/// The payments that are held against their limit.
pub fn payments(fault: LimitFault, totals: Totals) -> u64 {
    match fault {
        LimitFault::PaymentsUnlimited => 0,
        LimitFault::PaymentLimitOfLiveOnly => totals.live.payments,
        LimitFault::PaymentLimitOfWithdrawnOnly => totals.withdrawn.payments,
        LimitFault::TotalOfLiveOnly | LimitFault::TotalOfWithdrawnOnly => totals.payments(),
    }
}

/// The cents that are held against theirs.
pub fn cents(fault: LimitFault, totals: Totals) -> u128 {
    match fault {
        LimitFault::TotalOfLiveOnly => totals.live.cents,
        LimitFault::TotalOfWithdrawnOnly => totals.withdrawn.cents,
        LimitFault::PaymentsUnlimited
        | LimitFault::PaymentLimitOfLiveOnly
        | LimitFault::PaymentLimitOfWithdrawnOnly => totals.cents(),
    }
}
