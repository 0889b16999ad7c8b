//! `list --csv` and `list --geojson`: what other tools get, and what comes back.

use trails_tests::cases::{Draft, Random};
use trails_tests::plain::kinds::KINDS;
use trails_tests::plain::{Fix, Trail};

use crate::folder::{
    fine_h, fine_h_at_105, fine_record, record, silent_h, silent_h_at_12, silent_record, trail_h,
    trail_h_at_12, Folder,
};

// ---- columns

#[test]
fn csv_has_the_columns_of_each_kind() {
    let folder = Folder::new();
    for (trail, columns) in [
        (
            trail_h(),
            "time,x_cm,y_cm\n0,0,0\n10,20,0\n20,20,0\n30,0,0\n",
        ),
        (
            fine_h(),
            "time,x_mm,y_mm\n0,0,0\n10,204,0\n20,200,0\n30,0,0\n",
        ),
        (
            silent_record(&[(7, -1, 2, 1), (9, 3, -4, 0)]),
            "time,x_cm,y_cm,silence\n7,-1,2,1\n9,3,-4,0\n",
        ),
        // what was thinned has its mark beside each fix
        (
            trail_h_at_12(),
            "time,x_cm,y_cm,mark_cm\n0,0,0,12\n10,20,0,12\n30,0,0,12\n",
        ),
        (
            fine_h_at_105(),
            "time,x_mm,y_mm,mark_mm\n0,0,0,105\n10,204,0,105\n30,0,0,105\n",
        ),
    ] {
        folder.put("t", trail);
        folder.run_line("list --csv t").says(columns);
    }
    folder.put("t", silent_h_at_12());
    let ran = folder.run_line("list --csv t");
    let start = "time,x_cm,y_cm,silence,mark_cm\n0,0,0,0,12\n10,20,0,0,12\n30,0,0,1,12\n";
    assert!(ran.text().starts_with(start), "{}", ran.text());
    folder.put("t", record(&[(0, 0, 0), (7_200, 1, 1)]));
    folder
        .run_line("list --csv --epoch 22:00:00 t")
        .says("time,x_cm,y_cm\n22:00:00,0,0\n00:00:00+1d,1,1\n");
    folder
        .run_line("list --csv --epoch 2026-12-31T22:00:00 t")
        .says("time,x_cm,y_cm\n2026-12-31T22:00:00,0,0\n2027-01-01T00:00:00,1,1\n");
}

/// Of any trail that was never thinned, whichever clock its times are told on.
#[test]
fn write_makes_the_same_trail_of_the_columns() {
    let folder = Folder::new();
    let mut random = Random::new(5);
    for kind in KINDS {
        for n in [1, 2, 40, 4_096] {
            let accepted = Draft::accepted(kind, &mut random, n);
            let fixes: Vec<Fix> = accepted.fixes.clone();
            let bytes = Trail::never_thinned(kind, fixes).bytes();
            folder.put("t", &bytes);
            for epoch in ["", "--epoch 05:59:59", "--epoch 2026-11-17T22:00:00"] {
                let csv = folder.run_line(&format!("list --csv {epoch} t"));
                folder.put("csv", &csv.out);
                let ran = folder.run_line(&format!("write {epoch} csv -o again"));
                assert_eq!(ran.status, Some(0), "{}", ran.err);
                assert!(folder.get("again") == bytes, "{n} fixes, {epoch}");
            }
        }
    }
}

#[test]
fn write_makes_no_trail_of_what_was_thinned() {
    let folder = Folder::new();
    for trail in [trail_h_at_12(), fine_h_at_105(), silent_h_at_12()] {
        folder.put("t", trail);
        for option in ["--csv", "--epoch=06:00:00"] {
            let printed = folder.run(&["list", option, "t"]);
            let ran = folder.run_with(&["write", "-", "-o", "again"], &printed.out);
            assert_eq!(ran.status, Some(2));
            let end = "that trail was thinned, and what is written is marked never thinned\n";
            assert!(ran.err.ends_with(end), "{}", ran.err);
        }
    }
    assert_eq!(folder.names(), ["t"]);
}

// ---- GeoJSON

/// What stands before the features.
const START: &str = "{\"type\":\"FeatureCollection\",\"crs\":{\"type\":\"name\",\"properties\":\
    {\"name\":\"LOCAL_CS[\\\"hall\\\",LOCAL_DATUM[\\\"hall\\\",0],UNIT[\\\"metre\\\",1],\
    AXIS[\\\"x\\\",EAST],AXIS[\\\"y\\\",NORTH]]\"}},\"features\":[";

/// A feature, by its mark, which of how many it is, its ends, times and geometry.
fn feature(
    mark: &str,
    stretch: [u32; 2],
    ends: [&str; 2],
    times: &str,
    geometry: [&str; 2],
) -> String {
    let ([number, all], [first, last], [kind, places]) = (stretch, ends, geometry);
    format!(
        "{{\"type\":\"Feature\",\"properties\":{{\"name\":\"t\",\"unit\":\"m\",\"mark\":{mark},\
         \"stretch\":{number},\"stretches\":{all},\"first\":{first},\"last\":{last},\
         \"times\":[{times}]}},\
         \"geometry\":{{\"type\":\"{kind}\",\"coordinates\":[{places}]}}}}"
    )
}

#[test]
fn geojson_has_places_in_metres_and_a_time_for_each() {
    let folder = Folder::new();
    for (trail, mark, places) in [
        (
            record(&[(7, -16_000, 5), (9, 20, -16_000)]),
            "null",
            "[-160.00,0.05],[0.20,-160.00]",
        ),
        (
            fine_record(&[(7, -160_000, 5), (9, 20, -160_000)]),
            "null",
            "[-160.000,0.005],[0.020,-160.000]",
        ),
    ] {
        folder.put("t", trail);
        let line = ["LineString", places];
        let feature = feature(mark, [1, 1], ["7", "9"], "7,9", line);
        folder
            .run_line("list --geojson t")
            .says(&format!("{START}{feature}]}}\n"));
    }
    // with a clock times are texts, and a mark is in metres too
    folder.put("t", fine_h_at_105());
    let times = "\"2026-11-17T06:00:00\",\"2026-11-17T06:00:10\",\"2026-11-17T06:00:30\"";
    let ends = ["\"2026-11-17T06:00:00\"", "\"2026-11-17T06:00:30\""];
    let line = ["LineString", "[0.000,0.000],[0.204,0.000],[0.000,0.000]"];
    let feature = feature("0.105", [1, 1], ends, times, line);
    folder
        .run_line("list --geojson --epoch 2026-11-17T06:00:00 t")
        .says(&format!("{START}{feature}]}}\n"));
    // a time without its date would lose its day
    let seconds = folder.run_line("list --geojson t");
    let timed = folder.run_line("list --geojson --epoch 23:59:59 t");
    assert_eq!(timed.text(), seconds.text());
}

/// Each stretch is a feature of its own, and one of a single fix is a point.
#[test]
fn geojson_has_no_line_across_a_silence() {
    let folder = Folder::new();
    let fixes = [
        (0, 0, 0, 0),
        (5, 100, 0, 1),
        (300, 7, 7, 1),
        (400, 1, 1, 0),
        (410, 2, 2, 0),
    ];
    folder.put("t", silent_record(&fixes));
    let features = [
        feature(
            "null",
            [1, 3],
            ["0", "5"],
            "0,5",
            ["LineString", "[0.00,0.00],[1.00,0.00]"],
        ),
        feature(
            "null",
            [2, 3],
            ["300", "300"],
            "300",
            ["Point", "0.07,0.07"],
        ),
        feature(
            "null",
            [3, 3],
            ["400", "410"],
            "400,410",
            ["LineString", "[0.01,0.01],[0.02,0.02]"],
        ),
    ];
    folder
        .run_line("list --geojson t")
        .says(&format!("{START}{}]}}\n", features.join(",")));
    folder.put("t", silent_h());
    let ran = folder.run_line("list --geojson t");
    assert_eq!(ran.text().matches("LineString").count(), 2);
    // of every kind a lone fix is a point
    for trail in [
        record(&[(7, 1, 1)]),
        fine_record(&[(7, 1, 1)]),
        silent_record(&[(7, 1, 1, 0)]),
    ] {
        folder.put("t", trail);
        let ran = folder.run_line("list --geojson t");
        assert!(ran
            .text()
            .contains("{\"type\":\"Point\",\"coordinates\":[0."));
    }
}
