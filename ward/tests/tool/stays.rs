//! Long stays: days with their names, spans in days, and marks by days.

use crate::{answered, ward};

const STAY: &str = "# Two weeks\nmoments: admission, review, discharge\nanchor: 2026-11-16 8:00\nadmission not before 9:00\nreview at least 5 days after admission\ndischarge at least 13 days 3:00 after anchor\nspan: from anchor to discharge\n";

#[test]
fn a_stay_of_two_weeks_is_told_in_days() {
    let out = answered(STAY);
    for part in [
        "The least span is 18900 minutes (13 days 3:00).",
        "Sun 2026-11-29 11:00  discharge  13 days 3:00",
        "day 13, Sun 11:00",
    ] {
        assert!(out.contains(part), "{part}: {out}");
    }
    let axis = out.lines().find(|line| line.contains("11-") && !line.contains("2026")).expect("an axis");
    assert!(axis.contains("Thu 11-19") && !axis.contains(':'), "{out}");
    let page = ward(&["--html", "-"], STAY).out;
    assert!(page.contains("<strong>13 days 3:00</strong> <span>(18900 min) is the least span."), "{page}");
    assert!(page.contains(">Sun 11-29 11:00</td>") && page.contains(">Thu 11-19</text>"), "{page}");
}

#[test]
fn a_day_of_the_week_alone_has_its_number_where_it_would_not_tell() {
    let out = answered(&STAY.replace("2026-11-16 8:00", "Monday 8:00"));
    assert!(out.contains("  day 13, Sun 11:00  discharge"), "{out}");
    let out = answered(&STAY.replace("2026-11-16 8:00", "8:00"));
    assert!(out.contains("11:00 +13d  discharge"), "{out}");
    let bare = "moments: a\nanchor + 2 days 4 h <= a\nspan: from anchor to a\n";
    let out = answered(bare);
    assert!(out.contains("2 days 4:00  a") && out.contains("3120 minutes (2 days 4:00)"), "{out}");
}
