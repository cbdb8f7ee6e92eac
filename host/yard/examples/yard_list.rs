//! Writes the example list of a whole yard, examples/yard.list:
//!
//!     cargo run --example yard_list > ../examples/yard.list
//!
//! Panels are numbered by place: the area's hundreds, then the kind of device. 9xx are desks that serve every area.
use std::fmt::Write;

/// The yards, with the hundreds of their panels.
const YARDS: [(&str, u32); 5] = [
    ("north", 100),
    ("south", 200),
    ("east", 300),
    ("west", 400),
    ("harbour", 500),
];

/// The halls of the depot, likewise.
const HALLS: [(&str, u32); 4] = [
    ("hall-1", 610),
    ("hall-2", 620),
    ("hall-3", 630),
    ("hall-4", 640),
];

/// How many devices an area has, and how many of them one panel takes.
const POINTS: u32 = 40;
const SIGNALS: u32 = 60;
const TRACKS: u32 = 24;
const CROSSINGS: u32 = 6;
const DOORS: u32 = 12;
const BAYS: u32 = 20;
const VEHICLES: std::ops::RangeInclusive<u32> = 2001..=2080;
const DEVICES_A_PANEL: u32 = 20;

const HEAD: &str = "\
# The binding list of a tram yard: which panel gets which order.
#
# A line is a pattern and the number of a panel. Panels:
#   1xx north, 2xx south, 3xx east, 4xx west, 5xx harbour: the five yards
#         x0x points   x1x signals   x2x tracks   x3x crossings   x4x heating and lighting
#   61x to 64x: the four halls of the depot
#   700 dispatcher (where vehicles are), 701 vehicle maintenance
#   900 alarm desk, 901 fault desk, 902 operators' keys, 91x works and trials

# ---------------------------------------------------------------- every area

*.*.alarm.>                               900   # from any yard or hall
yard.*.points.*.fault                     901
yard.*.signal.*.fault                     901
yard.*.crossing.*.fault                   901
depot.*.door.*.fault                      901
panel.*.key.*                             902
panel.*.lamp.*.test                       902
";

const TAIL: &str = "
# ---------------------------------------------------------------- works and trials
# Some of these overlap lines above on purpose: such an order is Ambiguous and goes nowhere until the works end.

yard.west.points.12.set                   910   # points 12 are being relaid: the same pattern stands above
yard.west.points.13.set                   910
yard.south.crossing.3.>                   911   # crossing 3: its own lines above match too
yard.harbour.track.*.occupied             912   # trial of a track display for the whole harbour
yard.harbour.track.24.>                   912   # and everything of track 24, whose own line stands above
yard.north.trial.*.*                      913   # new detectors, not bound elsewhere
yard.north.trial.weiche-ö.stellung        914   # one of them, bound again: both lines match
depot.hall-2.bay.12 süd.lift              622   # a name with a blank in it
";

fn section(out: &mut String, title: &str) {
    let _ = write!(out, "\n# {} {title}\n\n", "-".repeat(64));
}

fn line(out: &mut String, pattern: &str, panel: u32) {
    let _ = writeln!(out, "{pattern:<40}  {panel}");
}

/// The lines of numbered devices, for each of them one line a pattern's end. A panel takes some devices, the next the next.
fn devices(out: &mut String, front: &str, count: u32, ends: &[&str], panel: u32) {
    let _ = writeln!(out, "# {front}: 1 to {count}");
    for number in 1..=count {
        for end in ends {
            let panel = panel + (number - 1) / DEVICES_A_PANEL;
            line(out, &format!("{front}.{number}.{end}"), panel);
        }
    }
}

fn yard(out: &mut String, name: &str, hundreds: u32) {
    section(out, &format!("{name} yard"));
    let front = |kind: &str| format!("yard.{name}.{kind}");
    devices(out, &front("points"), POINTS, &["set", "state"], hundreds);
    devices(
        out,
        &front("signal"),
        SIGNALS,
        &["aspect", "lamp"],
        hundreds + 10,
    );
    devices(out, &front("track"), TRACKS, &[">"], hundreds + 20);
    devices(
        out,
        &front("crossing"),
        CROSSINGS,
        &["close", "open"],
        hundreds + 30,
    );
    let _ = writeln!(out, "# heating and lighting of the yard");
    line(out, &front("heating.>"), hundreds + 40);
    line(out, &front("lighting.*.switch"), hundreds + 41);
}

fn hall(out: &mut String, name: &str, panel: u32) {
    section(out, &format!("depot, {name}"));
    let front = |kind: &str| format!("depot.{name}.{kind}");
    devices(out, &front("door"), DOORS, &["open", "close"], panel);
    devices(out, &front("bay"), BAYS, &["lift", "power"], panel + 1);
    line(out, &front("wash.>"), panel + 3);
}

fn vehicles(out: &mut String) {
    section(out, "vehicles");
    line(out, "vehicle.*.door.*.state", 700);
    for number in VEHICLES {
        line(out, &format!("vehicle.{number}.position"), 700);
        line(out, &format!("vehicle.{number}.fault.>"), 701);
    }
}

fn main() {
    let mut out = HEAD.to_string();
    for (name, hundreds) in YARDS {
        yard(&mut out, name, hundreds);
    }
    for (name, panel) in HALLS {
        hall(&mut out, name, panel);
    }
    vehicles(&mut out);
    out += TAIL;
    print!("{out}");
}
