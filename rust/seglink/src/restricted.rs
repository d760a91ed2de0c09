//! The restricted speed: the permitted speed, and a journey's temporary constraints of a speed.
use crate::{answer, boundary, Kind, Refused, Train};

/// Returns the restricted speed in km/h of a train at `x` cm from the start of the last segment of a run: the lowest of the
/// [permitted speed](crate::permitted_speed) there and of the speeds of the journey's temporary constraints of type 0 that hold there. Where a
/// journey is at hand, this is the speed to show.
///
/// The segments and the journey are of one kind. `leg` is the number of the journey's segment in which x lies, 0 the first: the run's segments are
/// the journey's segments up to it. A constraint holds from its start on and before its end, with Q_FRONT 0 before its end plus the train's
/// length, across boundaries too.
///
/// # Errors
///
/// Refused, in this order: a run of none or more than four; the segments, one after the other, each with its own refusal; the journey with its own;
/// [`NoLeg`](crate::Refusal::NoLeg); for each segment [`OtherSegment`](crate::Refusal::OtherSegment),
/// [`ReverseLeg`](crate::Refusal::ReverseLeg), [`ConstraintPlace`](crate::Refusal::ConstraintPlace); the train; x at or past the end of the last
/// segment; [`TailBefore`](crate::Refusal::TailBefore), where a segment on which the train may still stand is not lent.
///
/// ```
/// use seglink::{Kind, Refusal, Train};
///
/// // A segment of 100 cm, 80 km/h, and a journey over it: 33 km/h from 20 cm to 45 cm, Q_FRONT 0.
/// let segment = [6, 0xC5, 0xC6, 4, 1, 0, 0, 7, 0, 0, 0, 0, 100, 0, 0, 0, 80, 0, 0, 0, 0, 0, 0, 0, 0];
/// let journey = [4, 0xC5, 0xC6, 4, 1, 0, 0, 7, 1, 1, 0, 0, 0, 0, 1, 0, 1, 0, 2, 20, 45, 0, 33, 0, 0];
/// let train = Train::new(10, 80, 600);
/// for (x, permitted, restricted) in [(19, 80, 80), (20, 80, 33), (54, 80, 33), (55, 80, 80)] {
///     assert_eq!(seglink::permitted_speed(Kind::Sheet, &[&segment], train, x)?, permitted);
///     assert_eq!(seglink::restricted_speed(Kind::Sheet, &[&segment], &journey, 0, train, x)?, restricted);
/// }
/// let refused = seglink::restricted_speed(Kind::Sheet, &[&segment], &journey, 1, train, 0).unwrap_err();
/// assert_eq!(refused.refusal, Refusal::NoLeg);
/// # Ok::<(), seglink::Refused>(())
/// ```
pub fn restricted_speed(kind: Kind, segments: &[&[u8]], journey: &[u8], leg: u32, train: Train, x: u32) -> Result<u32, Refused> {
    let asked = boundary::restricted_speed(kind.number(), segments, journey, leg, train, x);
    answer(asked.refusal, asked.place, kind.unit(), asked.speed)
}
