//! The ledger's calls.

use crate::written;
use reference::firmware::narrow;
use reference::ledger;

#[unsafe(no_mangle)]
pub extern "C" fn independent_entry(debt: &mut i64, offset: i64, half: u32) -> u32 {
    written(ledger::entry(*debt, offset, narrow(half)), |next| *debt = next)
}

#[unsafe(no_mangle)]
pub extern "C" fn independent_tick(debt: &mut i64, limit: u64, paid: &mut i64) -> u32 {
    written(ledger::tick(*debt, limit), |payment| {
        *paid = payment.paid;
        *debt = payment.debt;
    })
}
