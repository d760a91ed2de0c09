//! Which names the fields of a draft may have in the command's table.

use command::Allowed;
use compare::draft::Kind;

/// Fields for which every value of their width is allowed; at a passing point the last eight are 0.
const PLAIN: [&str; 12] = [
    "NID_ENGINE",
    "T_Timestamp_Date",
    "N_Packet_Counter",
    "NID_C",
    "NID_SP",
    "M_SP_Version.major",
    "M_SP_Version.minor",
    "D_EoA_Offset",
    "M_SP_Altitude",
    "Q_SP_DIR",
    "NID_TP",
    "T_Latest_Arrival_Date",
];
const PLAIN_OF_POINTS: [&str; 2] = ["T_Arrival_Window", "Q_Day_Light_Saving"];
const PASSED_BY: [&str; 8] = [
    "Q_Opening_Door_Side",
    "Q_Centralised_Opening",
    "Q_Relaxed_Coupler",
    "Q_Train_Hold",
    "T_Departure_Date",
    "T_Departure_Seconds",
    "T_Minimum_Dwell_Time",
    "Q_Automatic_Closing",
];

/// Returns whether a field of a kind may have a name.
pub fn names(kind: Kind, name: &str) -> bool {
    match kind {
        Kind::Plain => PLAIN.contains(&name) || PLAIN_OF_POINTS.contains(&name) || PASSED_BY.contains(&name),
        Kind::PassedBy => PASSED_BY.contains(&name),
        Kind::PacketNumber => name == "NID_PACKET_ATO",
        Kind::Operational => name == "NID_OPERATIONAL",
        Kind::Seconds => ["T_Timestamp_Seconds", "T_Departure_Seconds"].contains(&name),
        Kind::Length => name == "L_SP",
        Kind::UtcOffset => name == "Q_UTC_Offset",
        Kind::Speed => ["V_STATIC", "V_DIFF", "V_Speed_Level"].contains(&name),
        Kind::Front => name == "Q_FRONT",
        Kind::Count | Kind::WireCount => name == "N_ITER",
        Kind::QDiff => name == "Q_DIFF",
        Kind::Cant => name == "NC_CDDIFF",
        Kind::Category => name == "NC_DIFF",
        Kind::Location => name == "D_Location",
        Kind::Voltage => name == "M_VOLTAGE",
        Kind::Traction => name == "NID_CTRACTION",
        Kind::Current | Kind::UnusedCurrent => name == "M_CURRENT",
        Kind::Status => name == "Q_JP_Status",
        Kind::SegmentCount => name == "N_ITER_SP",
        Kind::ArrivalSeconds => name == "T_Latest_Arrival_Seconds",
        Kind::Alignment => name == "Q_TP_Alignment",
        Kind::StopKind => name == "Q_Stop_Skip_Passes",
        Kind::Information => name == "Q_TP_Information",
        Kind::ConstraintType => name == "Q_TC_Type",
        Kind::Range => name == "Q_TC_Range",
        Kind::Start => name == "D_TC_Start_Location",
        Kind::End => name == "D_TC_End_Location",
        Kind::Adhesion => name == "Q_Low_Adhesion_Rate",
        Kind::Unused => {
            ["D_TC_Start_Location", "D_TC_End_Location", "Q_FRONT", "V_Speed_Level", "Q_Low_Adhesion_Rate"].contains(&name)
        }
    }
}

/// Returns whether the command's table allows a value, whatever the other fields are.
pub fn allows(allowed: &Allowed, value: u64) -> bool {
    let between = |least: u32, greatest: u32| (u64::from(least)..=u64::from(greatest)).contains(&value);
    match *allowed {
        Allowed::From(least, greatest) => between(least, greatest),
        Allowed::FromOr(least, greatest, other) => between(least, greatest) || value == u64::from(other),
        Allowed::OneOf(values) => values.iter().any(|one| u64::from(*one) == value),
    }
}
