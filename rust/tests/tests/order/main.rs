//! The order of the interface's parameters and fields is seen by no proof: a contract knows each by its name, and a caller
//! by its place. So here every function is called with a value for each name: from C, in the order in which the header
//! names the parameters, and from Rust. The plain version says what must come of it.
#![forbid(unsafe_code)]

mod declared;
mod fields;
mod in_c;
mod lent;

use declared::{in_header, in_rust, struct_name, Function};
use fields::{layouts, of_anchored, of_answer, of_applied, of_approach, of_crossing, of_first};
use fields::{of_head, of_loaded, of_place, of_run, of_state, of_step, of_table, of_time, Layout};
use in_c::{from_c, printed, InC};
use lent::{
    agings, lent_rows, table, Lent, BEFORE_SILENCE, COUNTS, DAYS, N, OUTPUT_BYTES, POSITION,
};
use lent::{lent_readings, state_in_c, CIRCLE, QUESTION, READING_COUNTS, ROW_COUNTS, SECOND};
use lent::{STATE, STEP, THOUSANDTHS, TOLERANCE};
use trails::Refusal;
use trails_tests::plain::anchors::Reading;
use trails_tests::plain::kinds::{Kind, CENTIMETRES, MILLIMETRES, SILENCES};
use trails_tests::plain::lists::{self, Call};
use trails_tests::plain::table::{Table, NUMBERS, ROWS};
use trails_tests::plain::{self, approach, crossing};
use trails_tests::{expected, interface};

#[test]
fn fields_stand_where_the_header_puts_them() {
    let (mut source, mut want) = (String::from("int main(void) {\n"), String::new());
    for Layout {
        c, size, fields, ..
    } in layouts()
    {
        source += &format!("printf(\"{c} %zu\\n\", sizeof(struct {c}));\n");
        want += &format!("{c} {size}\n");
        for (field, offset) in fields {
            source += &format!("printf(\"{field} %zu\\n\", offsetof(struct {c}, {field}));\n");
            want += &format!("{field} {offset}\n");
        }
    }
    assert_eq!(printed("fields", &(source + "return 0;\n}\n")), want);
}

#[test]
fn constants_are_the_documents() {
    let constants = [
        ("CENTIMETRES", usize::from(CENTIMETRES.code)),
        ("MILLIMETRES", MILLIMETRES.code.into()),
        ("SILENCES", SILENCES.code.into()),
        ("NEVER", plain::NEVER.into()),
        ("LONGEST", plain::LONGEST),
        ("TEXT", interface::LONGEST_TEXT),
        ("ROWS", ROWS),
        ("TABLE_NUMBERS", NUMBERS),
    ];
    assert_eq!(interface::ROWS, ROWS);
    assert_eq!(interface::TABLE_NUMBERS, NUMBERS);
    let (mut source, mut want) = (String::from("int main(void) {\n"), String::new());
    for (name, number) in constants {
        source += &format!("printf(\"{name} %u\\n\", TRAILS_{name});\n");
        want += &format!("{name} {number}\n");
    }
    assert_eq!(printed("constants", &(source + "return 0;\n}\n")), want);
}

/// What a list has for days by a table, from C and from Rust, at the limits of both numbers.
#[test]
fn calls_by_a_table_have_one_number() {
    let (mut source, mut want) = (String::from("int main(void) {\n"), String::new());
    for k in [0, 1, 65_535, 1 << 32, (1_u64 << 48) - 2] {
        for days in [0, 7, 65_535] {
            let call = format!("TRAILS_BY_TABLE({k}u, {days})");
            source += &format!("printf(\"%llu\\n\", (unsigned long long){call});\n");
            let number = interface::by_table(k as usize, days);
            let list = lists::List::default();
            assert_eq!(list.call(number), Call::Days(days, Table::default()));
            assert_eq!(number >> 16, k + 1);
            want += &format!("{number}\n");
        }
    }
    assert_eq!(printed("by_table", &(source + "return 0;\n}\n")), want);
}

/// The names and numbers of the refusals in C, in the order of the header's table.
fn refusals_in_c() -> Vec<(String, u32)> {
    let source = "#define PRINT(name, number, sentence) printf(\"%s %d\\n\", #name, (int)name);
int main(void) { TRAILS_REFUSALS(PRINT) return TRAILS_ACCEPTED; }
";
    let text = printed("refusals", source);
    let row = |line: &str| {
        let (name, number) = line.split_once(' ').expect("a name and a number");
        (name.to_string(), number.parse().expect("a number"))
    };
    text.lines().map(row).collect()
}

/// The refusals stand in the header in checking order, each with a number of the documents and the name that Rust has.
#[test]
fn refusals_stand_in_checking_order() {
    let all = refusals_in_c();
    let numbers: Vec<u32> = all.iter().map(|(_, number)| *number).collect();
    let order = [
        1, 2, 3, 4, 5, 6, 7, 8, 9, 20, 22, 23, 16, 10, 11, 12, 21, 13, 14, 15, 17, 18, 19,
    ];
    assert_eq!(numbers, order);
    for (name, number) in all {
        let name = name.strip_prefix("TRAILS_").expect("its prefix");
        let refusal = Refusal::from_number(number);
        assert_eq!(struct_name(&name.to_lowercase()), format!("{refusal:?}"));
    }
}

/// Each refusal has one sentence in all languages, in C in plain ASCII. Every other number has a sentence too.
#[test]
fn sentences_are_those_of_rust() {
    let numbers: Vec<u32> = (0..=30).chain([255, 256, 65_536 + 7, u32::MAX]).collect();
    let (mut source, mut want) = (String::from("int main(void) {\n"), String::new());
    for number in numbers {
        source += &format!("printf(\"%s\\n\", trails_sentence({number}u));\n");
        let sentence = match number {
            0 => "Not refused.".to_string(),
            refused => Refusal::from_number(refused).to_string().replace('−', "-"),
        };
        assert!(sentence.is_ascii(), "{sentence}");
        want += &format!("{sentence}\n");
    }
    assert_eq!(printed("sentences", &(source + "return 0;\n}\n")), want);
}

#[test]
fn the_version_is_the_packages() {
    let source = "int main(void) {
printf(\"%d.%d.%d\\n\", TRAILS_VERSION_MAJOR, TRAILS_VERSION_MINOR, TRAILS_VERSION_PATCH);
printf(\"%s\\n%s\\n\", TRAILS_VERSION, trails_version());
return 0;
}
";
    let version = trails::VERSION;
    let text = printed("version", source);
    assert_eq!(text, format!("{version}\n{version}\n{version}\n"));
}

/// What the plain version answers to a function, with all that was lent after it.
fn plainly(name: &str) -> Vec<i64> {
    let mut lent = Lent::new();
    let record = &mut lent.record;
    let list = agings();
    let answer = match name {
        "trails_check" => of_head(expected::check(record)),
        "trails_read" => of_step(expected::read(record, POSITION)),
        "trails_read_all" => plain_read_all(&mut lent),
        "trails_write" => plain_write(CENTIMETRES, &mut lent),
        "trails_write_millimetres" => plain_write(MILLIMETRES, &mut lent),
        "trails_write_silences" => plain_write(SILENCES, &mut lent),
        "trails_dearest" => of_answer(expected::dearest(N, &mut lent.output[..OUTPUT_BYTES])),
        "trails_list" => {
            let text = plain::listing(record).into_bytes();
            lent.output[..text.len()].copy_from_slice(&text);
            vec![text.len() as i64]
        }
        "trails_age" => of_answer(expected::aging(record, Call::Tolerance(TOLERANCE))),
        "trails_load" => of_loaded(expected::load(&lent_rows())),
        "trails_built_in" => of_table(interface::handed(&Table::built_in())),
        "trails_age_by_days" => of_answer(expected::aging(record, Call::Days(DAYS, table()))),
        "trails_days_apply" => of_applied(expected::days_apply(record, DAYS, &table())),
        "trails_place" => of_place(expected::place(record, SECOND, THOUSANDTHS)),
        "trails_crosses" => of_time(crossing::crosses(record, &QUESTION)),
        "trails_near" => of_first(approach::near(record, &CIRCLE)),
        "trails_run" => of_run(expected::run(record, &list)),
        "trails_crosses_after" => of_time(lists::crosses_after(record, &list.all(), &QUESTION)),
        "trails_near_after" => of_first(lists::near_after(record, &list.all(), &CIRCLE)),
        "trails_anchor_absolute" => of_anchored(expected::anchor(STATE, absolute())),
        "trails_anchor_step" => of_anchored(expected::anchor(STATE, step())),
        "trails_anchor_all" => of_state(expected::anchor_all(STATE, &lent_readings())),
        other => panic!("{other} isn't tried here"),
    };
    [answer, lent.numbers()].concat()
}

/// The circle's point as an anchor sends it: these parameters have the same names.
fn absolute() -> Reading {
    Reading::Absolute(CIRCLE.x as f32, CIRCLE.y as f32)
}

fn step() -> Reading {
    let [dx, dy] = STEP;
    Reading::Step(dx, dy)
}

fn plain_read_all(lent: &mut Lent) -> Vec<i64> {
    let mut columns = lent.lent_columns();
    let answer = expected::read_all(&lent.record, &mut columns);
    lent.give_back(columns);
    of_answer(answer)
}

fn plain_write(kind: Kind, lent: &mut Lent) -> Vec<i64> {
    let list = lent.lent_columns().fixes(kind);
    let output = &mut lent.output[..OUTPUT_BYTES];
    of_answer(expected::write(kind, &list, output))
}

/// The kind that a writer writes.
fn written_by(name: &str) -> Kind {
    match name {
        "trails_write" => CENTIMETRES,
        "trails_write_millimetres" => MILLIMETRES,
        _ => SILENCES,
    }
}

/// What the proved functions answer when Rust calls them.
fn from_rust(name: &str) -> Vec<i64> {
    let mut lent = Lent::new();
    let mut columns = lent.lent_columns();
    let record = &mut lent.record;
    let answer = match name {
        "trails_check" => of_head(interface::check(record)),
        "trails_read" => of_step(interface::read(record, POSITION)),
        "trails_read_all" => {
            let answer = interface::read_all(record, &mut columns);
            lent.give_back(columns);
            of_answer(answer)
        }
        "trails_write" | "trails_write_millimetres" | "trails_write_silences" => {
            let output = &mut lent.output[..OUTPUT_BYTES];
            of_answer(interface::write(written_by(name), &columns, output))
        }
        "trails_dearest" => of_answer(interface::dearest(N, &mut lent.output[..OUTPUT_BYTES])),
        "trails_list" => vec![interface::list(record, &mut lent.output) as i64],
        "trails_age" => of_answer(interface::age(record, TOLERANCE)),
        "trails_load" => of_loaded(interface::load(&lent_rows())),
        "trails_built_in" => of_table(interface::built_in()),
        "trails_age_by_days" => of_answer(interface::age_by_days(record, DAYS, &table())),
        "trails_days_apply" => of_applied(interface::days_apply(record, DAYS, &table())),
        "trails_place" => of_place(interface::place(record, SECOND, THOUSANDTHS)),
        "trails_crosses" => of_crossing(interface::crosses(record, &QUESTION)),
        "trails_near" => of_approach(interface::near(record, &CIRCLE)),
        "trails_run" => of_run(interface::run(record, &agings())),
        "trails_crosses_after" => {
            of_crossing(interface::crosses_after(record, &agings(), &QUESTION))
        }
        "trails_near_after" => of_approach(interface::near_after(record, &agings(), &CIRCLE)),
        "trails_anchor_absolute" => of_anchored(interface::anchor(STATE, absolute())),
        "trails_anchor_step" => of_anchored(interface::anchor(STATE, step())),
        "trails_anchor_all" => of_state(interface::anchor_all(STATE, &lent_readings())),
        other => panic!("{other} isn't tried here"),
    };
    [answer, lent.numbers()].concat()
}

#[test]
fn the_declarations_for_rust_are_the_headers() {
    assert_eq!(in_rust(), in_header());
}

#[test]
fn c_calls_in_the_headers_order_are_answered_as_the_plain_version_does() {
    let calls: Vec<InC> = in_header().into_iter().map(InC::of).collect();
    for (call, numbers) in calls.iter().zip(from_c("calls", &calls)) {
        let name = &call.function.name;
        assert_eq!(numbers, plainly(name), "{name}");
    }
}

/// The header's struct by the C names of its fields, of a fix that is before a silence.
#[test]
fn a_silence_is_told_apart_from_what_is_equal_to_it() {
    let functions = in_header().into_iter();
    let mut read: Vec<InC> = functions
        .filter(|function| function.name == "trails_read")
        .map(InC::of)
        .collect();
    read[0].arguments[2] = BEFORE_SILENCE.to_string();
    let lent = Lent::new();
    let want = of_step(expected::read(&lent.record, BEFORE_SILENCE));
    assert_eq!(want.last(), Some(&1));
    let want = [want, lent.numbers()].concat();
    assert_eq!(from_c("silence", &read), [want]);
    let told = interface::read(&lent.record, BEFORE_SILENCE);
    assert_eq!(told, expected::read(&lent.record, BEFORE_SILENCE));
}

#[test]
fn rust_calls_are_answered_as_the_plain_version_does() {
    for Function { name, .. } in in_header() {
        assert_eq!(from_rust(&name), plainly(&name), "{name}");
    }
}

/// The function with each two of its arguments exchanged whose types allow it.
fn exchanged(function: &Function) -> Vec<InC> {
    let mut all = Vec::new();
    for (k, one) in function.parameters.iter().enumerate() {
        for (j, other) in function.parameters.iter().enumerate().skip(k + 1) {
            if one.kind == other.kind {
                let mut call = InC::of(function.clone());
                call.arguments.swap(k, j);
                all.push(call);
            }
        }
    }
    all
}

/// Columns with each two of their lengths exchanged.
fn other_lengths(columns: &[&str], lengths: &[usize]) -> Vec<String> {
    let mut all = Vec::new();
    for k in 0..columns.len() {
        for j in k + 1..columns.len() {
            let mut lengths = lengths.to_vec();
            lengths.swap(k, j);
            let lent = columns.iter().zip(lengths);
            let lent: Vec<String> = lent.map(|(name, many)| format!("{name}, {many}")).collect();
            all.push(lent.join(", "));
        }
    }
    all
}

/// The columns of a writer with each two of their lengths exchanged.
fn other_lengths_written(columns: &[&str]) -> Vec<String> {
    let lent = other_lengths(columns, &COUNTS).into_iter();
    lent.map(|lent| format!("{lent}, output, {OUTPUT_BYTES}"))
        .collect()
}

/// The columns of readings, after the state, with each two of their lengths exchanged.
fn other_lengths_read() -> Vec<String> {
    let columns = ["step", "float_x", "float_y"];
    let lent = other_lengths(&columns, &READING_COUNTS).into_iter();
    lent.map(|lent| format!("{}, {lent}", state_in_c()))
        .collect()
}

/// So that the values are no accident: with any two exchanged, something else comes of the call. Of a writer's columns,
/// and of those of a table and of readings, the shortest counts, whichever it is, so of their lengths no exchange is seen
/// by calls.
#[test]
fn each_exchange_of_two_arguments_would_be_seen() {
    let calls: Vec<InC> = in_header().iter().flat_map(exchanged).collect();
    let unseen: Vec<String> = calls
        .iter()
        .zip(from_c("exchanged", &calls))
        .filter(|(call, numbers)| *numbers == plainly(&call.function.name))
        .map(|(call, _)| call.arguments.join(", "))
        .collect();
    let three = other_lengths_written(&["t", "x", "y"]);
    let four = other_lengths_written(&["t", "x", "y", "silence"]);
    let rows = other_lengths(&["days", "tolerances"], &ROW_COUNTS);
    let readings = other_lengths_read();
    assert_eq!(
        unseen,
        [three.clone(), three, four, rows, readings].concat()
    );
    println!(
        "order: {} exchanges, {} seen",
        calls.len(),
        calls.len() - unseen.len()
    );
}
