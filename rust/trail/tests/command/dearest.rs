//! `dearest`: what it stores, prints and turns away.

use trails_tests::plain::dearest::{count, trail};

use crate::folder::{trail_h, Folder};

const BAD_COUNT: &str = "The count is 0 or above 4,096.";

#[test]
fn the_dearest_trail_is_stored_and_can_be_aged_again_and_again() {
    let folder = Folder::with_h();
    for n in [1, 2, 3, 4, 255, 256, 4_095, 4_096] {
        // over what is there, as other outputs are
        folder.run_line(&format!("dearest {n} -o h")).says("");
        assert!(folder.get("h") == trail(n).bytes(), "{n}");
        for _ in 0..2 {
            let measured = count(n);
            folder.run_line("age --tolerance 1 h").says(&format!(
                "h: kept {n} of {n} fixes, measured {measured}, mark 1 cm, freed 0 bytes\n"
            ));
        }
        let ran = folder.run_line(&format!("dearest {n} -o -"));
        assert_eq!((ran.status, ran.err.as_str()), (Some(0), ""));
        assert!(ran.out == trail(n).bytes(), "{n}");
    }
    assert_eq!(folder.names(), ["h"]);
}

#[test]
fn programs_are_told_what_write_tells() {
    let folder = Folder::new();
    let told = folder.run_line("dearest --json 4096 -o t");
    told.says(
        "{\"file\":\"t\",\"unit\":\"cm\",\"count\":4096,\"silences\":null,\"bytes\":32778}\n",
    );
    let text: String = trail(5)
        .fixes
        .iter()
        .map(|fix| format!("{} {} {}\n", fix.t, fix.x, fix.y))
        .collect();
    folder.put("fixes", text);
    let written = folder.run_line("write --json fixes -o t");
    assert_eq!(folder.run_line("dearest --json 5 -o t").out, written.out);
    assert_eq!(folder.get("t"), trail(5).bytes());
}

#[test]
fn numbers_that_no_trail_has_are_refused() {
    let folder = Folder::with_h();
    for n in ["0", "4097", "65539", "4294967299", "18446744073709551615"] {
        let told = format!("refused 3: {BAD_COUNT} The count is {n}.");
        for (to, name) in [("h", "h"), ("new", "new"), ("-", "standard output")] {
            let ran = folder.run(&["dearest", n, "-o", to]);
            ran.fails(1, &format!("{name}: {told}"));
        }
        let ran = folder.run(&["dearest", "--json", n, "-o", "new"]);
        let line = format!(
            "{{\"file\":\"new\",\"refused\":3,\"sentence\":\"{BAD_COUNT}\",\"count\":{n}}}\n"
        );
        assert_eq!((ran.status, ran.text()), (Some(1), line.as_str()));
    }
    assert_eq!(folder.names(), ["h"]);
    assert_eq!(folder.get("h"), trail_h());
}
