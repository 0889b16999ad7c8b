//! `near`: what is answered to people and to programs, and what that means of the original.

use crate::folder::{fine_h, record, silent_h, silent_h_at_12, silent_record, trail_h_at_12};
use crate::folder::{Folder, NEVER};

const AFTER: &str = "seconds after the first fix";

/// Along x, and at a right angle on.
fn with_turn() -> Folder {
    let folder = Folder::new();
    folder.put("t", record(&[(5, 0, 0), (15, 100, 0), (35, 100, 50)]));
    folder
}

#[test]
fn near_answers_the_first_leg_and_when_it_is_closest() {
    let folder = with_turn();
    let near = |words: &str| folder.run_line(&format!("near t {words}"));
    for (words, answer) in [
        (
            "40 30 --radius 30",
            "on leg 0, closest 40000/10000 AFTER, at 9.000",
        ),
        // the first leg that is near, which isn't the nearest, and the nearest one
        (
            "130 40 --radius 50",
            "on leg 0, closest 10/1 AFTER, at 15.000",
        ),
        (
            "130 40 --radius 30",
            "on leg 1, closest 65000/2500 AFTER, at 31.000",
        ),
        // where both legs are
        (
            "100 0 --radius 0",
            "on leg 0, closest 10/1 AFTER, at 15.000",
        ),
    ] {
        let answer = answer.replace("AFTER", AFTER);
        near(&format!("--point {words}")).says(&format!("yes, {answer}; {NEVER}\n"));
    }
    near("--point 40 30 --radius 29").says(&format!("no; {NEVER}\n"));
}

#[test]
fn near_answers_programs_and_the_standard_input() {
    let folder = with_turn();
    let near = |words: &str| folder.run_line(&format!("near t {words}"));
    let end = format!("\"mark\":null,\"silences\":null,\"means\":\"{NEVER}\"}}\n");
    near("--point 40 30 --radius 30 --json").says(&format!(
        "{{\"file\":\"t\",\"unit\":\"cm\",\"near\":true,\"leg\":0,\
         \"numerator\":40000,\"denominator\":10000,\"first\":5,{end}"
    ));
    near("--point -40 -30 --radius 0 --json").says(&format!(
        "{{\"file\":\"t\",\"unit\":\"cm\",\"near\":false,{end}"
    ));
    let bytes = folder.get("t");
    let words = ["near", "-", "--radius=30", "--point=40,30"];
    folder.run_with(&words, &bytes).says(&format!(
        "yes, on leg 0, closest 40000/10000 {AFTER}, at 9.000; {NEVER}\n"
    ));
}

#[test]
fn times_are_cut_off_after_the_thousandths() {
    let folder = Folder::new();
    folder.put("t", record(&[(7, 0, 0), (9, 1, 1), (10, 4, 1)]));
    // two thirds of the second leg, which is three long
    folder
        .run_line("near t --point 3 2 --radius 1")
        .says(&format!(
            "yes, on leg 1, closest 24/9 {AFTER}, at 9.666; {NEVER}\n"
        ));
}

/// The sentence that answers of h aged at 12 end with: a yes, and a no at a radius of more than 12, of 12 and of less.
#[test]
fn approaches_of_a_thinned_trail_say_how_sure_they_are() {
    let folder = Folder::new();
    let mut aged = trail_h_at_12();
    folder.put("aged", &aged);
    let near = |words: &str| folder.run_line(&format!("near aged --point {words}"));
    let yes = "thinned at 12 cm: at that moment the cart, as it reported, \
        was within 21 cm of the point";
    near("10 9 --radius 9").says(&format!(
        "yes, on leg 0, closest 2000/400 {AFTER}, at 5.000; {yes}\n"
    ));
    near("10 9 --radius 9 --json").says(&format!(
        "{{\"file\":\"aged\",\"unit\":\"cm\",\"near\":true,\"leg\":0,\"numerator\":2000,\
         \"denominator\":400,\"first\":0,\"mark\":12,\"silences\":null,\"means\":\"{yes}\"}}\n"
    ));
    let never = "thinned at 12 cm: the cart, as it reported, was never";
    near("10 40 --radius 30").says(&format!("no; {never} within 18 cm of the point\n"));
    near("10 40 --radius 13").says(&format!("no; {never} within 1 cm of the point\n"));
    near("10 40 --radius 12").says(&format!("no; {never} at the point itself\n"));
    let nothing = "thinned at 12 cm: that is more than the radius, \
        so a no says nothing of the trail as the cart reported it";
    near("10 40 --radius 11").says(&format!("no; {nothing}\n"));
    aged[6] = 0;
    folder.put("aged", aged);
    // the leg and the time are this trail's own, since at 0 fixes on straight legs are gone; the places are the original's
    let reported = "thinned at 0 cm: the cart, as it reported, was never";
    let near = |words: &str| folder.run_line(&format!("near aged --point {words}"));
    near("10 40 --radius 30").says(&format!("no; {reported} within 30 cm of the point\n"));
    near("10 40 --radius 0").says(&format!("no; {reported} at the point itself\n"));
    near("10 9 --radius 9").says(&format!(
        "yes, on leg 0, closest 2000/400 {AFTER}, at 5.000; thinned at 0 cm: at that moment the \
         cart, as it reported, was within 9 cm of the point\n"
    ));
}

#[test]
fn a_trail_in_millimetres_is_asked_in_them() {
    let folder = Folder::new();
    folder.put("h", fine_h());
    let asked = ", the point and the radius in mm";
    let near = |words: &str| folder.run_line(&format!("near h --point {words}"));
    near("51 320000 --radius 0").fails(
        1,
        "h: refused 16: The point is outside −160,000 to 160,000, or the radius is above 320,000.",
    );
    near("51 40 --radius 40").says(&format!(
        "yes, on leg 0, closest 104040/41616 {AFTER}, at 2.500{asked}; {NEVER}\n"
    ));
    near("51 40 --radius 39").says(&format!("no{asked}; {NEVER}\n"));
    let json = near("51 40 --radius 40 --json");
    assert!(json
        .text()
        .contains("\"unit\":\"mm\",\"near\":true,\"leg\":0,"));
}

/// Of a silence its ends count, and the answer says what isn't known.
#[test]
fn approaches_say_what_is_not_known() {
    let folder = Folder::new();
    folder.put("h", silent_h());
    folder.put("aged", silent_h_at_12());
    let two = [(0, 0, 0, 1), (10, 9, 0, 1), (20, 0, 0, 0)];
    folder.put("two", silent_record(&two));
    let near = |words: &str| folder.run_line(&format!("near {words}"));
    let one = "of the silence nothing is known";
    // where a straight leg would have it, and at both its ends
    near("h --point 200 45 --radius 100").says(&format!("no; {NEVER}; {one}\n"));
    near("h --point -3 4 --radius 5").says(&format!(
        "yes, on leg 0, closest 0/1 {AFTER}, at 0.000; {NEVER}; {one}\n"
    ));
    near("h --point 400 90 --radius 0").says(&format!(
        "yes, on leg 3, closest 300/1 {AFTER}, at 300.000; {NEVER}; {one}\n"
    ));
    near("two --point 5 0 --radius 3").says(&format!(
        "no; {NEVER}; of the 2 silences nothing is known\n"
    ));
    let never = "thinned at 12 cm: the cart, as it reported, was never within 88 cm of the point";
    near("aged --point 200 45 --radius 100")
        .says(&format!("no; {never}, outside the silence; {one}\n"));
    near("aged --point 400 90 --radius 0 --json").says(&format!(
        "{{\"file\":\"aged\",\"unit\":\"cm\",\"near\":true,\"leg\":2,\"numerator\":300,\
         \"denominator\":1,\"first\":0,\"mark\":12,\"silences\":1,\"means\":\"thinned at 12 cm: \
         at that moment the cart, as it reported, was within 12 cm of the point; {one}\"}}\n"
    ));
}
