//! Events whose time is a reading of the board's counter of 32 bits (02 E10).

use crate::counts::Told;
use crate::event::{event_told, Answer, Event};
use crate::state::{sound, Parameters, State};

/// The counter goes from 0 to 4,294,967,295 and starts anew.
const LAP: u128 = 4_294_967_296;

/// An event with a reading in place of its time.
#[derive(Clone, Copy, Debug, Default, PartialEq, Eq)]
pub struct CounterEvent {
    pub reading: u32,
    pub kind: u8,
    pub thread: u8,
    pub parameters: Parameters,
}

/// 02 E10 1: the reading minus the low 32 bits of now, wrapping. Either the counter has come from
/// those bits straight to the reading, or it has gone to the end of its lap and on from 0.
pub fn elapsed(now: u64, reading: u32) -> u128 {
    let (low, reading) = (u128::from(now) % LAP, u128::from(reading));
    if reading >= low {
        reading - low
    } else {
        let to_the_end = LAP - low;
        to_the_end + reading
    }
}

/// 02 E10 1: the event's time is now plus the elapsed ticks; it may be one that no event holds.
pub fn counter_time(now: u64, reading: u32) -> u128 {
    u128::from(now) + elapsed(now, reading)
}

/// The event at that time. 02 E10 4: refusals as for events, in their order. A time of more than 64
/// bits needs a now far above 10^15: the state isn't sound, and 9 comes before any look at the time.
pub fn counter_event(s: &mut State, e: &CounterEvent) -> (Answer, Told) {
    let time = u64::try_from(counter_time(s.now, e.reading)).unwrap_or_else(|_| {
        assert!(!sound(s), "a sound state's now is at most 10^15");
        u64::MAX
    });
    let full = Event {
        time,
        kind: e.kind,
        thread: e.thread,
        parameters: e.parameters,
    };
    event_told(s, &full)
}
