//! A trail as GeoJSON, for `trail list`: each stretch between silences is a line, or a point if it has one fix.
//!
//! A hall has no longitude and latitude, and a GIS takes places for these unless a member `crs` tells it otherwise. GDAL
//! does so also where that is null, or a name that it doesn't know. So it has the text of a plane of the hall's own, in
//! metres, which a GIS opens as that. Places are exact decimal numbers.

use trails::{AnyFix, Unit};

use crate::json::Json;
use crate::trail::{stretches, Trail};

/// The hall's plane, as a GIS reads it.
const PLANE: &str =
    r#"LOCAL_CS["hall",LOCAL_DATUM["hall",0],UNIT["metre",1],AXIS["x",EAST],AXIS["y",NORTH]]"#;

fn metres(trail: &Trail, length: impl Into<i64>) -> Json {
    let digits = match trail.unit() {
        Unit::Centimetres => 2,
        Unit::Millimetres => 3,
    };
    Json::Decimal(length.into(), digits)
}

fn position(trail: &Trail, fix: &AnyFix) -> Json {
    Json::List(vec![metres(trail, fix.x), metres(trail, fix.y)])
}

fn geometry(trail: &Trail, stretch: &[AnyFix]) -> Json {
    let (kind, coordinates) = match stretch {
        [fix] => ("Point", position(trail, fix)),
        fixes => {
            let positions = fixes.iter().map(|fix| position(trail, fix));
            ("LineString", Json::List(positions.collect()))
        }
    };
    Json::Object(vec![
        ("type", Json::text(kind)),
        ("coordinates", coordinates),
    ])
}

/// A second: with its date if that is known, and else a number. A GIS would take a time of day without its day, and so
/// sort what is after midnight before it.
fn time(trail: &Trail, second: u32) -> Json {
    match trail.clock.is_dated() {
        true => Json::text(trail.clock.show(second)),
        false => Json::Whole(second.into()),
    }
}

fn feature(trail: &Trail, stretch: &[AnyFix], number: usize, all: usize) -> Json {
    let times = stretch.iter().map(|fix| time(trail, fix.t));
    let end = |fix: Option<&AnyFix>| fix.map_or(Json::Null, |fix| time(trail, fix.t));
    let properties = Json::Object(vec![
        ("name", Json::text(&trail.name)),
        ("unit", Json::text("m")),
        (
            "mark",
            trail.mark.map_or(Json::Null, |mark| metres(trail, mark)),
        ),
        ("stretch", Json::Whole(number as i128)),
        ("stretches", Json::Whole(all as i128)),
        ("first", end(stretch.first())),
        ("last", end(stretch.last())),
        ("times", Json::List(times.collect())),
    ]);
    Json::Object(vec![
        ("type", Json::text("Feature")),
        ("properties", properties),
        ("geometry", geometry(trail, stretch)),
    ])
}

fn plane() -> Json {
    let name = Json::Object(vec![("name", Json::text(PLANE))]);
    Json::Object(vec![("type", Json::text("name")), ("properties", name)])
}

pub fn collection(trail: &Trail) -> Json {
    let all = stretches(&trail.fixes).count();
    let numbered = (1..).zip(stretches(&trail.fixes));
    let features = numbered.map(|(number, stretch)| feature(trail, stretch, number, all));
    Json::Object(vec![
        ("type", Json::text("FeatureCollection")),
        ("crs", plane()),
        ("features", Json::List(features.collect())),
    ])
}
