//! Calls from C, each with its arguments in the order in which the header names the parameters.

use std::fs;
use std::path::Path;

use trails_tests::programs;

use crate::declared::{Function, Parameter};
use crate::fields::{by_value, layouts, Layout};
use crate::lent::{agings, arguments, readings, rows, Lent, OUTPUT_BYTES, ROOM};

/// What a C program prints, of which this is the part after the header.
pub fn printed(name: &str, source: &str) -> String {
    let folder = Path::new(env!("CARGO_TARGET_TMPDIR"));
    let (file, program) = (folder.join(format!("{name}.c")), folder.join(name));
    let text = format!("#include <stdio.h>\n#include <string.h>\n#include \"trails.h\"\n{source}");
    fs::write(&file, text).expect("the program's text can be stored");
    programs::compile(&file, &program);
    let printed = programs::printed(&program, b"", 1);
    String::from_utf8(printed).expect("it prints text")
}

/// A call from C.
pub struct InC {
    pub function: Function,
    /// an expression for each parameter, in the header's order
    pub arguments: Vec<String>,
}

impl InC {
    pub fn of(function: Function) -> InC {
        let given = arguments();
        let argument = |Parameter { name, kind }: &Parameter| {
            // what is lent has its parameter's name, and two columns of floats a name of their own beside those of numbers
            if kind.starts_with('*') {
                let floats = if kind.ends_with("f32") { "float_" } else { "" };
                return format!("{floats}{name}");
            }
            let found = given.iter().find(|(given, _)| given == name);
            let found = found.unwrap_or_else(|| panic!("{name} is given no value"));
            found.1.clone()
        };
        let arguments = function.parameters.iter();
        InC {
            arguments: arguments.map(argument).collect(),
            function,
        }
    }

    /// Prints the answer's numbers and all that was lent, on a line.
    fn source(&self) -> String {
        let call = format!("{}({})", self.function.name, self.arguments.join(", "));
        let answer = &self.function.answer;
        let found = layouts().into_iter().find(|layout| layout.rust == answer);
        let Some(Layout { c, fields, .. }) = found else {
            return format!("{{ prepare(); size_t a = {call}; number(a); rest(); }}\n");
        };
        let fields: String = fields.iter().map(|(name, _)| field(c, name)).collect();
        format!("{{ prepare(); struct {c} a = {call}; {fields}rest(); }}\n")
    }

    /// The line that it printed.
    fn numbers(&self, line: &str) -> Vec<i64> {
        let number = |word: &str| word.parse().expect("a number");
        let numbers: Vec<i64> = line.split_whitespace().map(number).collect();
        match self.function.answer.as_str() {
            "Crossing" => in_thousandths(&numbers, 4),
            "Approach" => in_thousandths(&numbers, 5),
            _ => numbers,
        }
    }
}

/// The numbers of an answer of so many fields, the last two a time, and of all that was lent.
fn in_thousandths(numbers: &[i64], fields: usize) -> Vec<i64> {
    let (answer, lent) = numbers.split_at(fields);
    [&by_value(answer), lent].concat()
}

/// Prints a field of an answer: its number, or all numbers that it has, of a float the bits.
fn field(of: &str, name: &str) -> String {
    match (of, name) {
        (_, "rows") => "rows(a.rows); ".to_string(),
        (_, "table") => "number(a.table.count); rows(a.table.rows); ".to_string(),
        (_, "state") => "bits(a.state.x); bits(a.state.y); number(a.state.seen); ".to_string(),
        ("trails_anchor_state", "x" | "y") => format!("bits(a.{name}); "),
        _ => format!("number((long long)a.{name}); "),
    }
}

/// An array with what it has before a call, and what puts that down again, with 0 after it.
fn array<T: ToString>(kind: &str, name: &str, numbers: &[T]) -> [String; 2] {
    let numbers: Vec<String> = numbers.iter().map(T::to_string).collect();
    let list = numbers.join(", ");
    let before = format!("static const {kind} {name}_before[] = {{{list}}};\n");
    let clear = format!("    memset({name}, 0, sizeof {name});\n");
    [
        format!("{before}static {kind} {name}[{ROOM}];\n"),
        format!("{clear}    memcpy({name}, {name}_before, sizeof {name}_before);\n"),
    ]
}

/// All that is lent, and a function that puts it down.
fn lent() -> String {
    let Lent {
        record, columns, ..
    } = Lent::new();
    let (list, rows, readings) = (agings(), rows(), readings());
    let arrays = [
        array("uint8_t", "record", &record),
        array("uint32_t", "t", &columns.t),
        array("int32_t", "x", &columns.x),
        array("int32_t", "y", &columns.y),
        array("uint8_t", "silence", &columns.silence),
        array("uint64_t", "calls", &list.calls),
        array("uint16_t", "tables", &list.tables),
        array("uint16_t", "days", &rows.days),
        array("uint16_t", "tolerances", &rows.tolerances),
        array("uint8_t", "step", &readings.step),
        array("float", "float_x", &readings.x),
        array("float", "float_y", &readings.y),
    ];
    let [declared, prepared] = [0, 1].map(|k| arrays.each_ref().map(|array| &*array[k]).concat());
    format!(
        "{declared}static uint8_t output[TRAILS_TEXT];
static void prepare(void) {{
{prepared}    memset(output, 0, sizeof output);
}}
"
    )
}

/// What prints a number, a float's bits, a table's rows, and all that may have been written.
fn printing() -> String {
    let Lent {
        record, columns, ..
    } = Lent::new();
    let (bytes, many) = (record.len(), columns.t.len());
    format!(
        "static void number(long long n) {{ printf(\"%lld \", n); }}
#define bits(of) {{ uint32_t n; memcpy(&n, &(of), sizeof n); number(n); }}
#define rows(of) for (unsigned k = 0; k < TRAILS_ROWS; k++) {{ \\
    number((of)[k].day); number((of)[k].tolerance); }}
static void rest(void) {{
    for (int k = 0; k < {bytes}; k++) number(record[k]);
    for (int k = 0; k < {many}; k++) number(t[k]);
    for (int k = 0; k < {many}; k++) number(x[k]);
    for (int k = 0; k < {many}; k++) number(y[k]);
    for (int k = 0; k < {many}; k++) number(silence[k]);
    for (int k = 0; k < {OUTPUT_BYTES}; k++) number(output[k]);
    printf(\"\\n\");
}}
"
    )
}

/// What each call prints when C makes them all.
pub fn from_c(name: &str, calls: &[InC]) -> Vec<Vec<i64>> {
    let in_order: String = calls.iter().map(InC::source).collect();
    let main = format!("int main(void) {{\n{in_order}return 0;\n}}\n");
    let text = printed(name, &[lent(), printing(), main].concat());
    let lines = calls.iter().zip(text.lines());
    let numbers: Vec<Vec<i64>> = lines.map(|(call, line)| call.numbers(line)).collect();
    assert_eq!(numbers.len(), calls.len(), "each call prints a line");
    numbers
}
