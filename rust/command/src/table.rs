//! The table of fields: names, widths, units and ranges as documents 002 and 01 have them, in the order of a packet. Everything that the command
//! names it names from here. A field of several lists stands once.
use crate::field::{Allowed, Field, Side, Words};

/// A piece of a packet or sheet.
pub enum Node {
    Field(&'static Field),
    /// A field that a packet has and a sheet has not.
    InPacket(&'static Field),
    /// The first field where the field before is 0, else the second.
    Either(&'static Field, &'static Field),
    /// A count, and as many items: `name[0]` is the first.
    Items {
        name: &'static str,
        count: &'static Field,
        item: &'static [Node],
    },
    /// What holds from the start on, `name[0]`; a count; and as many changes, each a location and what holds from there: `name[1]` is the first.
    Changes {
        name: &'static str,
        element: &'static [Node],
    },
}

use Node::{Changes, Either, InPacket, Items};

/// With what every packet and sheet begins.
pub static HEADER: [Node; 7] = [
    Node::Field(&NID_PACKET_ATO),
    InPacket(&L_PACKET_ATO),
    Node::Field(&NID_OPERATIONAL),
    Node::Field(&NID_ENGINE),
    Node::Field(&T_TIMESTAMP_DATE),
    Node::Field(&T_TIMESTAMP_SECONDS),
    Node::Field(&N_PACKET_COUNTER),
];

/// A segment after its header.
pub static SEGMENT: [Node; 11] = [
    Node::Field(&NID_C),
    Node::Field(&NID_SP),
    Node::Field(&MAJOR),
    Node::Field(&MINOR),
    Node::Field(&L_SP),
    Node::Field(&D_EOA_OFFSET),
    Node::Field(&Q_UTC_OFFSET),
    Node::Field(&M_SP_ALTITUDE),
    Changes { name: "speed", element: &SPEED },
    Changes { name: "voltage", element: &VOLTAGE },
    Changes { name: "current", element: &[Node::Field(&M_CURRENT)] },
];

static SPEED: [Node; 3] = [Node::Field(&V_STATIC), Node::Field(&Q_FRONT), Items { name: "entry", count: &N_ITER, item: &ENTRY }];
static ENTRY: [Node; 3] = [Node::Field(&Q_DIFF), Either(&NC_CDDIFF, &NC_DIFF), Node::Field(&V_DIFF)];
static VOLTAGE: [Node; 2] = [Node::Field(&M_VOLTAGE), Node::Field(&NID_CTRACTION)];

/// A journey after its header.
pub static JOURNEY: [Node; 2] = [Node::Field(&Q_JP_STATUS), Items { name: "segment", count: &N_ITER_SP, item: &JOURNEY_SEGMENT }];

static JOURNEY_SEGMENT: [Node; 7] = [
    Node::Field(&NID_C),
    Node::Field(&NID_SP),
    Node::Field(&MAJOR),
    Node::Field(&MINOR),
    Node::Field(&Q_SP_DIR),
    Items { name: "point", count: &N_ITER, item: &POINT },
    Items { name: "constraint", count: &N_ITER, item: &CONSTRAINT },
];

/// A timing point.
static POINT: [Node; 16] = [
    Node::Field(&NID_TP),
    Node::Field(&T_LATEST_ARRIVAL_DATE),
    Node::Field(&T_LATEST_ARRIVAL_SECONDS),
    Node::Field(&T_ARRIVAL_WINDOW),
    Node::Field(&Q_TP_ALIGNMENT),
    Node::Field(&Q_STOP_SKIP_PASSES),
    Node::Field(&Q_TP_INFORMATION),
    Node::Field(&Q_DAY_LIGHT_SAVING),
    Node::Field(&Q_OPENING_DOOR_SIDE),
    Node::Field(&Q_CENTRALISED_OPENING),
    Node::Field(&Q_RELAXED_COUPLER),
    Node::Field(&Q_TRAIN_HOLD),
    Node::Field(&T_DEPARTURE_DATE),
    Node::Field(&T_DEPARTURE_SECONDS),
    Node::Field(&T_MINIMUM_DWELL_TIME),
    Node::Field(&Q_AUTOMATIC_CLOSING),
];

/// A temporary constraint.
static CONSTRAINT: [Node; 8] = [
    Node::Field(&Q_TC_TYPE),
    Node::Field(&Q_TC_RANGE),
    Node::Field(&D_TC_START_LOCATION),
    Node::Field(&D_TC_END_LOCATION),
    Node::Field(&Q_TC_FRONT),
    Node::Field(&V_SPEED_LEVEL),
    Node::Field(&Q_LOW_ADHESION_RATE),
    Node::Field(&M_TC_CURRENT),
];

const NO_YES: Words = Words::Named(&["no", "yes"]);
const PASSING: &str = "0 where Q_Stop_Skip_Passes is 2, a passing point";

// Header.
static NID_PACKET_ATO: Field = Field {
    words: Words::Named(&["", "", "", "", "a journey", "", "a segment"]),
    ..of("NID_PACKET_ATO", 8, "", Allowed::OneOf(&[4, 6]))
};
static L_PACKET_ATO: Field = Field { words: Words::Unit, ..of("L_PACKET_ATO", 16, "bits", Allowed::From(0, 65_535)) };
static NID_OPERATIONAL: Field =
    Field { words: Words::Digits, rule: "each of its eight hexadecimal digits is 0 to 9 or F", ..any("NID_OPERATIONAL", 32) };
static NID_ENGINE: Field = any("NID_ENGINE", 24);
static T_TIMESTAMP_DATE: Field = days("T_Timestamp_Date");
static T_TIMESTAMP_SECONDS: Field = time("T_Timestamp_Seconds", 86_399);
static N_PACKET_COUNTER: Field = any("N_Packet_Counter", 8);

// Segment.
static NID_C: Field = any("NID_C", 10);
static NID_SP: Field = any("NID_SP", 32);
static MAJOR: Field = any("M_SP_Version.major", 8);
static MINOR: Field = any("M_SP_Version.minor", 8);
static L_SP: Field = centimetres("L_SP", 1);
static D_EOA_OFFSET: Field = centimetres("D_EoA_Offset", 0);
static Q_UTC_OFFSET: Field = of("Q_UTC_Offset", 7, "", Allowed::From(0, 112));
static M_SP_ALTITUDE: Field =
    Field { words: Words::Altitude, ..of("M_SP_Altitude", 20, "cm + 100000", Allowed::From(0, 1_048_575)) };
static V_STATIC: Field = speed("V_STATIC");
static Q_FRONT: Field = Field { words: Words::Named(&["train length delay", "no delay"]), ..any("Q_FRONT", 1) };
static Q_DIFF: Field = named("Q_DIFF", 2, 2, &["cant deficiency", "category, replaces", "category, only lowers"]);
static NC_CDDIFF: Field = Field {
    packet: Side { unit: "place among the cant deficiencies", allowed: Allowed::From(0, 10) },
    sheet: Side { unit: "mm", allowed: Allowed::OneOf(&[80, 100, 130, 150, 165, 180, 210, 225, 245, 275, 300]) },
    words: Words::Unit,
    ..any("NC_CDDIFF", 4)
};
static NC_DIFF: Field = named("NC_DIFF", 4, 2, &["freight in P position", "freight in G position", "passenger"]);
static V_DIFF: Field = speed("V_DIFF");
static M_VOLTAGE: Field = Field {
    packet: Side { unit: "place among the voltages", allowed: Allowed::From(0, 5) },
    sheet: Side { unit: "V", allowed: Allowed::OneOf(&[0, 25_000, 15_000, 3_000, 1_500, 750]) },
    words: Words::Volts,
    ..any("M_VOLTAGE", 4)
};
static NID_CTRACTION: Field = Field { rule: "0 where M_VOLTAGE is 0", ..any("NID_CTRACTION", 10) };
static M_CURRENT: Field = Field {
    packet: Side { unit: "steps of 10 A, 1023 for no limit", allowed: Allowed::FromOr(0, 1_000, 1_023) },
    sheet: Side { unit: "A + 1, 0 for no limit", allowed: Allowed::From(0, 10_010) },
    words: Words::Current,
    ..any("M_CURRENT", 10)
};
/// Count of a list.
pub static N_ITER: Field = any("N_ITER", 5);
/// Location of a change.
pub static D_LOCATION: Field =
    Field { rule: "above the D_Location before it in its list, and below L_SP", ..centimetres("D_Location", 1) };

// Journey.
static Q_JP_STATUS: Field = named("Q_JP_Status", 3, 4, &["invalid", "valid", "unavailable", "update", "overwrite"]);
static N_ITER_SP: Field = any("N_ITER_SP", 8);
static Q_SP_DIR: Field = named("Q_SP_DIR", 1, 1, &["reverse", "nominal"]);
static NID_TP: Field = any("NID_TP", 32);
static T_LATEST_ARRIVAL_DATE: Field = days("T_Latest_Arrival_Date");
static T_LATEST_ARRIVAL_SECONDS: Field = time("T_Latest_Arrival_Seconds", 86_400);
static T_ARRIVAL_WINDOW: Field = Field { words: Words::Unit, ..of("T_Arrival_Window", 10, "s", Allowed::From(0, 1_023)) };
static Q_TP_ALIGNMENT: Field = named("Q_TP_Alignment", 2, 2, &["front", "middle", "rear"]);
static Q_STOP_SKIP_PASSES: Field =
    named("Q_Stop_Skip_Passes", 2, 2, &["stopping point", "skipped stopping point", "passing point"]);
static Q_TP_INFORMATION: Field = named("Q_TP_Information", 2, 1, &["none", "end of journey"]);
static Q_DAY_LIGHT_SAVING: Field = Field { words: NO_YES, ..any("Q_Day_Light_Saving", 1) };
static Q_OPENING_DOOR_SIDE: Field = passing(named("Q_Opening_Door_Side", 2, 3, &["none", "right", "left", "both"]));
static Q_CENTRALISED_OPENING: Field = passing(Field { words: NO_YES, ..any("Q_Centralised_Opening", 1) });
static Q_RELAXED_COUPLER: Field = passing(Field { words: NO_YES, ..any("Q_Relaxed_Coupler", 1) });
static Q_TRAIN_HOLD: Field = passing(Field { words: NO_YES, ..any("Q_Train_Hold", 1) });
static T_DEPARTURE_DATE: Field = passing(days("T_Departure_Date"));
static T_DEPARTURE_SECONDS: Field = passing(time("T_Departure_Seconds", 86_399));
static T_MINIMUM_DWELL_TIME: Field =
    passing(Field { words: Words::Unit, ..of("T_Minimum_Dwell_Time", 10, "s", Allowed::From(0, 1_023)) });
static Q_AUTOMATIC_CLOSING: Field = passing(Field { words: NO_YES, ..any("Q_Automatic_Closing", 1) });
static Q_TC_TYPE: Field =
    named("Q_TC_Type", 2, 3, &["speed", "low adhesion", "no driving mode above GoA1", "no driving mode GoA1"]);
static Q_TC_RANGE: Field = named("Q_TC_Range", 2, 3, &["starts", "ends", "starts and ends", "whole segment"]);
static D_TC_START_LOCATION: Field =
    Field { rule: "0 where Q_TC_Range is 1 or 3", used: Some(("Q_TC_Range", &[0, 2])), ..centimetres("D_TC_Start_Location", 0) };
static D_TC_END_LOCATION: Field = Field {
    rule: "above D_TC_Start_Location where Q_TC_Range is 2; 0 where it is 0 or 3",
    used: Some(("Q_TC_Range", &[1, 2])),
    ..centimetres("D_TC_End_Location", 0)
};
static Q_TC_FRONT: Field = of_speeds(Field { words: Words::Named(&["train length delay", "no delay"]), ..any("Q_FRONT", 1) });
static V_SPEED_LEVEL: Field = of_speeds(speed("V_Speed_Level"));
static Q_LOW_ADHESION_RATE: Field = Field {
    rule: "0 where Q_TC_Type is not 1",
    used: Some(("Q_TC_Type", &[1])),
    ..named(
        "Q_Low_Adhesion_Rate",
        3,
        5,
        &["dry rail", "dry rail (medium)", "dry rail (low)", "low adhesion", "very low adhesion", "extremely low adhesion"],
    )
};
static M_TC_CURRENT: Field = Field {
    packet: Side { unit: "steps of 10 A, 1023 for no limit", allowed: Allowed::OneOf(&[1_023]) },
    sheet: Side { unit: "A + 1, 0 for no limit", allowed: Allowed::OneOf(&[0]) },
    rule: "no type uses it",
    used: Some(("Q_TC_Type", &[])),
    words: Words::Current,
    ..any("M_CURRENT", 10)
};

/// A field of one unit and one range or set in both media.
const fn of(name: &'static str, width: u32, unit: &'static str, allowed: Allowed) -> Field {
    let both = Side { unit, allowed };
    Field { name, width, packet: both, sheet: both, rule: "", used: None, words: Words::None }
}

/// A field that may have every value of its width.
const fn any(name: &'static str, width: u32) -> Field {
    of(name, width, "", Allowed::From(0, u32::MAX >> (32 - width)))
}

/// A field whose values from 0 on have words.
const fn named(name: &'static str, width: u32, greatest: u32, words: &'static [&'static str]) -> Field {
    Field { words: Words::Named(words), ..of(name, width, "", Allowed::From(0, greatest)) }
}

const fn centimetres(name: &'static str, least: u32) -> Field {
    Field { words: Words::Unit, ..of(name, 24, "cm", Allowed::From(least, 16_777_215)) }
}

const fn days(name: &'static str) -> Field {
    Field { words: Words::Date, ..of(name, 15, "days since 2010-01-01", Allowed::From(0, 32_767)) }
}

const fn time(name: &'static str, greatest: u32) -> Field {
    Field { words: Words::Time, ..of(name, 17, "s", Allowed::From(0, greatest)) }
}

/// A speed: in steps of 5 km/h in the packet, in km/h in the sheet.
const fn speed(name: &'static str) -> Field {
    Field {
        packet: Side { unit: "steps of 5 km/h", allowed: Allowed::From(0, 120) },
        sheet: Side { unit: "km/h", allowed: Allowed::From(0, 604) },
        words: Words::Unit,
        ..any(name, 7)
    }
}

/// One of the last eight fields of a timing point.
const fn passing(field: Field) -> Field {
    Field { rule: PASSING, used: Some(("Q_Stop_Skip_Passes", &[0, 1])), ..field }
}

/// One of the fields of a temporary constraint that a speed alone uses.
const fn of_speeds(field: Field) -> Field {
    Field { rule: "0 where Q_TC_Type is not 0", used: Some(("Q_TC_Type", &[0])), ..field }
}
