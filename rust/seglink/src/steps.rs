//! A supplier's speed steps, and the check of them.
use crate::{answer, boundary, permitted_speed, Kind, Refusal, Refused, Train, Unit};
use alloc::{vec, vec::Vec};

/// Speed steps of a segment for a train: each step starts at a centimetre and holds up to the next. There are as many speeds as starts.
#[derive(Clone, Debug, PartialEq, Eq)]
pub struct Steps {
    /// Starts in cm from the start of the run's last segment: the first is 0, and they rise strictly.
    pub starts: Vec<u32>,
    /// Speeds in km/h.
    pub speeds: Vec<u32>,
}

impl Steps {
    /// Most steps of a check.
    pub const MOST: usize = 128;
}

/// Checks steps against the permitted speed of a train at every centimetre of the last segment of a run: `starts` in cm from its start, `speeds` in
/// km/h. Accepted exactly if there are 1 to 128 steps, as many starts as speeds, the first start is 0, the starts rise strictly and lie below the
/// segment's length, and at every centimetre the last step at or before it gives what [`permitted_speed`] answers.
///
/// # Errors
///
/// Refused, in this order: as [`permitted_speed`], but for x; [`Refusal::Steps`]; [`Refusal::WrongSpeed`] at the first wrong centimetre.
///
/// ```
/// use seglink::{Kind, Refusal, Train, Unit};
///
/// // A segment of 10 cm: 100 km/h with the delay, from 5 cm on 140 km/h.
/// let sheet = [6, 0xC5, 0xC6, 4, 1, 0, 0, 7, 0, 0, 0, 0, 10, 0, 0, 0, 100, 0, 0, 1, 5, 0x8C, 1, 0, 0, 0, 0, 0, 0, 0];
/// let train = Train::new(2, 80, 120);
/// seglink::check_steps(Kind::Sheet, &[&sheet], train, &[0, 7], &[100, 120])?;
///
/// let forgotten = seglink::check_steps(Kind::Sheet, &[&sheet], train, &[0, 5], &[100, 120]).unwrap_err();
/// assert_eq!((forgotten.refusal, forgotten.place, forgotten.unit), (Refusal::WrongSpeed, 5, Unit::Centimetre));
/// assert_eq!(seglink::permitted_speed(Kind::Sheet, &[&sheet], train, 5)?, 100);
///
/// let steps = seglink::steps_of(Kind::Sheet, &[&sheet], train)?;
/// assert_eq!((&steps.starts[..], &steps.speeds[..]), (&[0, 7][..], &[100, 120][..]));
/// # Ok::<(), seglink::Refused>(())
/// ```
pub fn check_steps(kind: Kind, segments: &[&[u8]], train: Train, starts: &[u32], speeds: &[u32]) -> Result<(), Refused> {
    let checked = boundary::check_steps(kind.number(), segments, train, starts, speeds);
    let unit = if checked.refusal == Refusal::WrongSpeed.number() { Unit::Centimetre } else { kind.unit() };
    answer(checked.refusal, checked.place, unit, ())
}

/// Makes the right steps of a run's last segment for a train, without neighbours of one speed: asks for the speed at 0, and then wherever the steps so
/// far are wrong first.
///
/// # Errors
///
/// Refused as [`check_steps`], with [`Refusal::Steps`] if more than 128 steps are needed.
pub fn steps_of(kind: Kind, segments: &[&[u8]], train: Train) -> Result<Steps, Refused> {
    let mut steps = Steps { starts: vec![0], speeds: vec![permitted_speed(kind, segments, train, 0)?] };
    while let Err(refused) = check_steps(kind, segments, train, &steps.starts, &steps.speeds) {
        if refused.refusal != Refusal::WrongSpeed {
            return Err(refused);
        }
        steps.starts.push(refused.place);
        steps.speeds.push(permitted_speed(kind, segments, train, refused.place)?);
    }
    Ok(steps)
}
