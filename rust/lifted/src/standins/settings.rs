//! Stands in for the settings' JSON, from which `Config` is read: makes a `Config`
//! with given picks. Only its picks are used, by `key`.
use crate::{
    heapless,
    timetable_display::{
        Config,
        config::{Group, MAX_PICKS, Pick},
    },
};

fn pick([line, route, code, stop, name]: [&str; 5]) -> Option<Pick> {
    Some(Pick {
        route: route.try_into().ok()?,
        line: line.try_into().ok()?,
        stop: stop.try_into().ok()?,
        stop_name: name.try_into().ok()?,
        stop_code: code.try_into().ok()?,
        headsign: heapless::String::default(),
        direction: -1,
        walk: 0,
        spread: 0,
        margin: 0,
    })
}

/// Settings with these picks (line, route, stop code, stop, stop name), four to a
/// group; none if there are over 16 or a field is over its size.
pub fn config(picks: &[[&str; 5]]) -> Option<Config> {
    let mut config = Config::default();
    for four in picks.chunks(MAX_PICKS) {
        let mut group = Group {
            name: heapless::String::default(),
            days: 0,
            start: 0,
            end: 0,
            picks: heapless::Vec::default(),
            journey: None,
        };
        for fields in four {
            group.picks.push(pick(*fields)?).ok()?;
        }
        config.groups.push(group).ok()?;
    }
    Some(config)
}
