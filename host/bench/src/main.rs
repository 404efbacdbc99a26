//! Times the proved library beside the reference on the same calls, and measures the stack that
//! one call uses. Prints markdown.

mod cases;
mod stack;
mod time;

use cases::{Case, LONGEST_RECORD, MOST_RECORDS};
use std::time::Duration;
use time::Times;

const COUNTS: [usize; 5] = [1, 16, 64, 128, 254];

fn main() {
    println!("{}", cpu_name());
    println!("malquindo_command lies at {} modulo 64\n", place_of_code());
    times();
    growth();
    move_times();
    certificate_times();
    index_times();
    stamp_times();
    rights_times();
    stack_use();
}

/// The processor's name, as the kernel gives it.
fn cpu_name() -> String {
    let info = std::fs::read_to_string("/proc/cpuinfo").unwrap_or_default();
    info.lines()
        .find_map(|line| line.strip_prefix("model name"))
        .map_or("unknown processor", |rest| {
            rest.trim_start_matches([' ', '\t', ':'])
        })
        .to_string()
}

/// Where the linker put the function within a line of the code cache. It is printed because it
/// can matter: with one archive the search for 3 bytes took half as long again at 48 as elsewhere.
fn place_of_code() -> usize {
    malquindo_sys::malquindo_command as *const () as usize % 64
}

fn times() {
    println!("| row | what the buffers held | proved (µs) | reference (µs) | ratio |");
    println!("|---|---|---|---|---|");
    for case in cases::select() {
        print_row(&case);
    }
    print_row(&cases::read_binary());
    for case in cases::read_the_largest() {
        print_row(&case);
    }
    print_row(&cases::update_binary());
    print_row(&cases::append_record());
    print_row(&cases::read_one(1, MOST_RECORDS));
    print_row(&cases::read_one(MOST_RECORDS, MOST_RECORDS));
    print_row(&cases::read_all());
    let three = cases::search_three(MOST_RECORDS);
    let three_times = print_row(&three);
    let tried = almost_searches();
    let worst = worst_search(&tried, |times| times.proved);
    let worst_times = print_named("SEARCH RECORD, the proved library's worst string", worst);
    let other = worst_search(&tried, |times| times.reference);
    let other_times = print_named("SEARCH RECORD, the reference's worst string", other);
    print_row(&cases::fmm());
    print_row(&cases::validation());
    for case in cases::validation_by_room() {
        print_row(&case);
    }
    println!("\n| search | proved (ns per byte searched) | reference (ns per byte searched) |");
    println!("|---|---|---|");
    print_per_byte("3 bytes that occur nowhere", three_times);
    print_per_byte("the proved library's worst string", worst_times);
    print_per_byte("the reference's worst string", other_times);
    print_by_length(&tried);
}

/// Searches for nothing with several strings, each timed for a short while.
fn almost_searches() -> Vec<(Case, Times)> {
    let almost = cases::almost_strings()
        .into_iter()
        .map(|(shape, string)| cases::search_almost(shape, &string));
    almost
        .chain(cases::BREAKS.map(cases::search_broken))
        .map(|case| {
            let times = time::measure_within(&case, Duration::from_millis(20));
            (case, times)
        })
        .collect()
}

/// The search that takes longest, by one implementation's time.
fn worst_search(tried: &[(Case, Times)], of: fn(&Times) -> f64) -> &Case {
    let worst = tried
        .iter()
        .max_by(|(_, a), (_, b)| of(a).total_cmp(&of(b)));
    &worst.expect("there are strings to try").0
}

fn print_row(case: &Case) -> Times {
    print_named(&case.name, case)
}

fn print_named(name: &str, case: &Case) -> Times {
    let times = time::measure(case);
    print_times(name, &case.held, times);
    times
}

fn print_times(name: &str, held: &str, times: Times) {
    println!(
        "| {name} | {held} | {:.3} | {:.3} | {:.2} |",
        times.proved / 1_000.0,
        times.reference / 1_000.0,
        times.proved / times.reference
    );
}

fn print_per_byte(name: &str, times: Times) {
    let bytes = (MOST_RECORDS * LONGEST_RECORD) as f64;
    println!(
        "| {name} | {:.3} | {:.3} |",
        times.proved / bytes,
        times.reference / bytes
    );
}

/// The searches that fail at the string's last byte, and those of broken records, by the string's length.
fn print_by_length(tried: &[(Case, Times)]) {
    println!("\n| searched | proved (µs) | reference (µs) |");
    println!("|---|---|---|");
    for (case, times) in tried {
        if case.held.ends_with("'b' last") || case.held.contains("with a 'b'") {
            let (proved, reference) = (times.proved / 1_000.0, times.reference / 1_000.0);
            println!("| {} | {proved:.3} | {reference:.3} |", case.held);
        }
    }
}

/// How two commands' times grow with the number of records.
fn growth() {
    println!("\n| records of 391 bytes | READ RECORD of the last: proved (µs) | reference (µs) | SEARCH, 3 bytes that occur nowhere: proved (µs) | reference (µs) |");
    println!("|---|---|---|---|---|");
    for count in COUNTS {
        let read = time::measure(&cases::read_one(count, count));
        let search = time::measure(&cases::search_three(count));
        println!(
            "| {count} | {:.3} | {:.3} | {:.3} | {:.3} |",
            read.proved / 1_000.0,
            read.reference / 1_000.0,
            search.proved / 1_000.0,
            search.reference / 1_000.0
        );
    }
}

/// A move to the same sizes beside the reference, and beside a plain copy of as many bytes.
fn move_times() {
    println!("\n| row | what the buffers held | proved (µs) | reference (µs) | ratio | plain copy (µs) | ratio to the copy |");
    println!("|---|---|---|---|---|---|---|");
    let case = cases::move_to_the_same_sizes();
    let times = time::measure_move(&case);
    println!(
        "| {} | {} | {:.3} | {:.3} | {:.2} | {:.3} | {:.2} |",
        case.name,
        case.held,
        times.proved / 1_000.0,
        times.reference / 1_000.0,
        times.proved / times.reference,
        times.copy / 1_000.0,
        times.proved / times.copy
    );
}

/// The last certificate of a full body.
fn certificate_times() {
    println!("\n| row | what the buffers held | proved (µs) | reference (µs) | ratio |");
    println!("|---|---|---|---|---|");
    let case = cases::last_certificate();
    let times = time::measure_certificate(&case);
    print_times(&case.name, &case.held, times);
}

/// Records by an index beside a plain slice and READ RECORD; then the building of an index.
fn index_times() {
    println!("\n| row | what the buffers held | by the index (ns) | by a plain slice (ns) | ratio index / slice | by the index, copied (ns) | by a plain slice, copied (ns) | ratio index / slice | READ RECORD (ns) |");
    println!("|---|---|---|---|---|---|---|---|---|");
    for number in [1, 250] {
        let case = cases::indexed(number);
        let times = time::measure_read(&case);
        println!(
            "| record {number} | {} | {:.1} | {:.1} | {:.2} | {:.1} | {:.1} | {:.2} | {:.1} |",
            case.held,
            times.index,
            times.slice,
            times.index / times.slice,
            times.index_copied,
            times.slice_copied,
            times.index_copied / times.slice_copied,
            times.read_record
        );
    }
    println!("\n| row | what the buffers held | proved (µs) | reference (µs) | ratio | plain walk (µs) | ratio to the walk |");
    println!("|---|---|---|---|---|---|---|");
    let case = cases::indexed(1);
    let times = time::measure_build(&case);
    println!(
        "| build an index | {} | {:.3} | {:.3} | {:.2} | {:.3} | {:.2} |",
        case.held,
        times.proved / 1_000.0,
        times.reference / 1_000.0,
        times.proved / times.reference,
        times.walk / 1_000.0,
        times.proved / times.walk
    );
}

/// The longest stamp, the shortest, and one that is wrong in its last field.
fn stamp_times() {
    println!("\n| row | what the buffers held | proved (µs) | reference (µs) | ratio |");
    println!("|---|---|---|---|---|");
    for case in cases::stamps() {
        let times = time::measure_stamp(&case);
        print_times(&case.name, &case.held, times);
    }
}

/// The known extensions of three certificates, alone and behind unknown ones, and one with a fault.
fn rights_times() {
    println!("\n| row | what the buffers held | proved (µs) | reference (µs) | ratio |");
    println!("|---|---|---|---|---|");
    for case in cases::rights() {
        let times = time::measure_rights(&case);
        print_times(&case.name, &case.held, times);
    }
}

fn stack_use() {
    let [b0, b1] = cases::read_the_largest();
    stack_head("malquindo_command");
    for case in [
        cases::search_long(391),
        cases::search_long(980),
        cases::search_three(MOST_RECORDS),
        cases::read_one(MOST_RECORDS, MOST_RECORDS),
        cases::read_all(),
        cases::fmm(),
        cases::update_binary(),
        cases::read_binary(),
        b0,
        b1,
        cases::append_record(),
        cases::validation(),
    ] {
        stack_row(&case.name, &case.held, stack::of_case(&case));
    }
    stack_head("malquindo_move");
    let case = cases::move_to_the_same_sizes();
    stack_row(&case.name, &case.held, stack::of_move(&case));
    stack_head("malquindo_stamp_read");
    let [longest, ..] = cases::stamps();
    stack_row(&longest.name, &longest.held, stack::of_stamp(&longest));
    stack_head("malquindo_rights");
    let [known, ..] = cases::rights();
    stack_row(&known.name, &known.held, stack::of_rights(&known));
}

fn stack_head(function: &str) {
    println!("\n| call of {function} | stack (bytes, without the caller's arguments and return address) |");
    println!("|---|---|");
}

fn stack_row(name: &str, held: &str, bytes: usize) {
    println!("| {name}; {held} | {bytes} |");
}
