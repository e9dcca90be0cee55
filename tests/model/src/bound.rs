//! The most that a sporadic thread takes at its upper priority (G1).

use crate::state::{in_range, Parameters};
use crate::{status, SPORADIC};

/// G1: 2 * budget for each begun stretch of period + budget ticks, and never more than the length;
/// 6 where the parameters are no sporadic ones in range. G1 is silent on the start flag: it is judged
/// as at opening, since this is asked of tables (01 Status 6; ours).
pub fn bound(p: &Parameters, length: u64) -> Result<u64, u8> {
    if p.policy != SPORADIC || !in_range(p) || p.flag > 1 {
        return Err(status::PARAMETERS);
    }
    let (budget, period, length) = (p.budget as u128, p.period as u128, length as u128);
    let stretch = period + budget;
    let whole = length / stretch;
    let rest = length - whole * stretch;
    let begun = if rest > 0 { whole + 1 } else { whole };
    Ok((begun * 2 * budget).min(length) as u64)
}
