//! The rights bytes of a chain, from the extensions of its certificates: the exact 60 bytes, which
//! extensions are passed over, and which fault is told. All expected bytes were worked out by hand.

use reference::{command, open, rights, SESSION_LEN};

/// What the buffers hold before a call.
const FILL: u8 = 0xEE;
/// 1 * 2^32.
const SHORT_BUFFER: u64 = 4_294_967_296;
/// 7 * 2^32.
const FAULTY: u64 = 30_064_771_072;
/// 8 * 2^32.
const TWICE: u64 = 34_359_738_368;

/// The value bytes of the three known identifiers.
const TRAVEL: [u8; 8] = [0x67, 0x81, 0x08, 0x01, 0x01, 0x09, 0x01, 0x03];
const VISA: [u8; 8] = [0x67, 0x81, 0x08, 0x01, 0x01, 0x09, 0x02, 0x03];
const BIOMETRICS: [u8; 8] = [0x67, 0x81, 0x08, 0x01, 0x01, 0x09, 0x03, 0x03];
/// Each known identifier with the size of its rights.
const SIZES: [([u8; 8], usize); 3] = [(TRAVEL, 1), (VISA, 1), (BIOMETRICS, 17)];
/// An identifier that is not known.
const OTHER: [u8; 8] = [0x67, 0x81, 0x08, 0x01, 0x01, 0x09, 0x04, 0x03];

/// The three known extensions as a certificate has them: travel 0B, visa 06, biometrics 01 to 11.
const TRAVEL_0B: &str = "73 0D 06 08 67 81 08 01 01 09 01 03 53 01 0B";
const VISA_06: &str = "73 0D 06 08 67 81 08 01 01 09 02 03 53 01 06";
const BIOMETRICS_RISING: &str = "73 1D 06 08 67 81 08 01 01 09 03 03 53 11
    01 02 03 04 05 06 07 08 09 0A 0B 0C 0D 0E 0F 10 11";

/// What they give: flags, travel, visa, biometrics.
const ABSENT: &str = "00 00 00 0000000000000000000000000000000000";
const ONLY_TRAVEL: &str = "01 0B 00 0000000000000000000000000000000000";
const ONLY_VISA: &str = "02 00 06 0000000000000000000000000000000000";
const ONLY_BIOMETRICS: &str = "04 00 00 0102030405060708090A0B0C0D0E0F1011";
const TRAVEL_AND_VISA: &str = "03 0B 06 0000000000000000000000000000000000";
const TRAVEL_AND_BIOMETRICS: &str = "05 0B 00 0102030405060708090A0B0C0D0E0F1011";
const VISA_AND_BIOMETRICS: &str = "06 00 06 0102030405060708090A0B0C0D0E0F1011";
const ALL: &str = "07 0B 06 0102030405060708090A0B0C0D0E0F1011";

// ---------------------------------------------------------------- helpers

/// Bytes written as hexadecimal digits.
fn hex(text: &str) -> Vec<u8> {
    let digits: Vec<u8> = text
        .chars()
        .filter(|c| !c.is_whitespace())
        .map(|c| c.to_digit(16).expect("hex digit") as u8)
        .collect();
    assert_eq!(digits.len() % 2, 0);
    digits
        .chunks(2)
        .map(|pair| 16 * pair[0] + pair[1])
        .collect()
}

/// A length in its shortest form.
fn length(value: usize) -> Vec<u8> {
    match value {
        0..=127 => vec![value as u8],
        128..=255 => vec![0x81, value as u8],
        256..=65_535 => vec![0x82, (value / 256) as u8, (value % 256) as u8],
        _ => panic!("no form for {value}"),
    }
}

fn object(tag: u8, value: &[u8]) -> Vec<u8> {
    [&[tag][..], &length(value.len()), value].concat()
}

/// `73` with these bytes inside.
fn frame(inside: &[u8]) -> Vec<u8> {
    object(0x73, inside)
}

fn extension(identifier: &[u8], rights: &[u8]) -> Vec<u8> {
    frame(&[object(0x06, identifier), object(0x53, rights)].concat())
}

/// Three runs, all empty but one.
fn only(place: usize, run: &[u8]) -> [Vec<u8>; 3] {
    let mut runs = [vec![], vec![], vec![]];
    runs[place] = run.to_vec();
    runs
}

/// The result of a call, and all of the buffer afterwards.
fn call([first, second, third]: &[Vec<u8>; 3], buffer_len: usize) -> (u64, Vec<u8>) {
    let mut buffer = vec![FILL; buffer_len];
    let result = rights(first, second, third, &mut buffer);
    (result, buffer)
}

/// What these runs give, with the bytes behind it untouched, whatever the buffer's length is.
#[track_caller]
fn answers(runs: &[Vec<u8>; 3], result: u64, chain: &[u8]) {
    assert_eq!(chain.len(), 60);
    for behind in [0, 1, 40] {
        let expected = [chain, &vec![FILL; behind]].concat();
        assert_eq!(call(runs, 60 + behind), (result, expected), "{behind}");
    }
}

/// The three runs are taken and give these certificates.
#[track_caller]
fn gives(runs: &[Vec<u8>; 3], certificates: [&str; 3]) {
    answers(runs, 0, &certificates.map(hex).concat());
}

/// A run is taken and gives this certificate, as each of the three.
#[track_caller]
fn run_gives(run: &[u8], certificate: &str) {
    for place in 0..3 {
        let mut certificates = [ABSENT; 3];
        certificates[place] = certificate;
        gives(&only(place, run), certificates);
    }
}

#[track_caller]
fn refused(runs: &[Vec<u8>; 3], result: u64) {
    answers(runs, result, &[0; 60]);
}

/// A run is refused as each of the three, the others empty or full.
#[track_caller]
fn run_refused(run: &[u8], result: u64) {
    for place in 0..3 {
        refused(&only(place, run), result);
        let mut runs = [full(), full(), full()];
        runs[place] = run.to_vec();
        refused(&runs, result);
    }
}

/// An extension is faulty wherever it stands in a run: alone, first, last, between others.
#[track_caller]
fn extension_refused(extension: &[u8]) {
    let (travel, other) = (hex(TRAVEL_0B), hex("73 04 06 00 53 00"));
    run_refused(extension, FAULTY);
    run_refused(&[extension, &travel].concat(), FAULTY);
    run_refused(&[&travel, extension].concat(), FAULTY);
    run_refused(&[&other, extension, &travel, &other].concat(), FAULTY);
}

/// An extension is passed over wherever it stands in a run.
#[track_caller]
fn passed_over(extension: &[u8]) {
    let known = [hex(TRAVEL_0B), hex(VISA_06), hex(BIOMETRICS_RISING)];
    run_gives(extension, ABSENT);
    for before in 0..=3 {
        let (front, back) = known.split_at(before);
        let run = [&front.concat(), extension, &back.concat()].concat();
        run_gives(&run, ALL);
    }
}

/// All three known extensions.
fn full() -> Vec<u8> {
    [hex(TRAVEL_0B), hex(VISA_06), hex(BIOMETRICS_RISING)].concat()
}

// ---------------------------------------------------------------- what is known

#[test]
fn the_helpers_write_what_the_rules_say() {
    assert_eq!(extension(&TRAVEL, &[0x0B]), hex(TRAVEL_0B));
    assert_eq!(extension(&VISA, &[0x06]), hex(VISA_06));
    let rising: Vec<u8> = (0x01..=0x11).collect();
    assert_eq!(extension(&BIOMETRICS, &rising), hex(BIOMETRICS_RISING));
    assert_eq!(extension(&[], &[]), hex("73 04 06 00 53 00"));
    assert_eq!(full().len(), 15 + 15 + 31);
}

#[test]
fn no_extensions_are_sixty_zeros() {
    gives(&[vec![], vec![], vec![]], [ABSENT; 3]);
    assert_eq!(hex(ABSENT), [0; 20]);
}

#[test]
fn each_known_one_alone() {
    run_gives(&hex(TRAVEL_0B), ONLY_TRAVEL);
    run_gives(&hex(VISA_06), ONLY_VISA);
    run_gives(&hex(BIOMETRICS_RISING), ONLY_BIOMETRICS);
}

#[test]
fn every_order_of_the_three() {
    let (travel, visa, biometrics) = (TRAVEL_0B, VISA_06, BIOMETRICS_RISING);
    for order in [
        [travel, visa, biometrics],
        [travel, biometrics, visa],
        [visa, travel, biometrics],
        [visa, biometrics, travel],
        [biometrics, travel, visa],
        [biometrics, visa, travel],
    ] {
        run_gives(&hex(&order.concat()), ALL);
    }
}

#[test]
fn every_order_of_two() {
    for (one, another, both) in [
        (TRAVEL_0B, VISA_06, TRAVEL_AND_VISA),
        (TRAVEL_0B, BIOMETRICS_RISING, TRAVEL_AND_BIOMETRICS),
        (VISA_06, BIOMETRICS_RISING, VISA_AND_BIOMETRICS),
    ] {
        run_gives(&hex(&[one, another].concat()), both);
        run_gives(&hex(&[another, one].concat()), both);
    }
}

#[test]
fn each_run_is_its_own_certificate() {
    let [travel, visa, biometrics] = [TRAVEL_0B, VISA_06, BIOMETRICS_RISING].map(hex);
    gives(
        &[travel.clone(), visa.clone(), biometrics.clone()],
        [ONLY_TRAVEL, ONLY_VISA, ONLY_BIOMETRICS],
    );
    gives(
        &[biometrics, travel, visa],
        [ONLY_BIOMETRICS, ONLY_TRAVEL, ONLY_VISA],
    );
    gives(&[full(), vec![], full()], [ALL, ABSENT, ALL]);
    // Twice is of one run: the same one in each of the three is no fault.
    gives(&[full(), full(), full()], [ALL; 3]);
    gives(
        &[0x01, 0x02, 0xF4].map(|byte| extension(&TRAVEL, &[byte])),
        [
            "01 01 00 0000000000000000000000000000000000",
            "01 02 00 0000000000000000000000000000000000",
            "01 F4 00 0000000000000000000000000000000000",
        ],
    );
}

/// Neither bits without a meaning are cleared nor are rights of zero taken for absent ones.
#[test]
fn the_bytes_are_as_they_stand() {
    for byte in 0x00..=0xFF {
        run_gives(
            &extension(&TRAVEL, &[byte]),
            &format!("01 {byte:02X} 00 0000000000000000000000000000000000"),
        );
        run_gives(
            &extension(&VISA, &[byte]),
            &format!("02 00 {byte:02X} 0000000000000000000000000000000000"),
        );
        let seventeen = format!("{byte:02X}").repeat(17);
        run_gives(
            &extension(&BIOMETRICS, &[byte; 17]),
            &format!("04 00 00 {seventeen}"),
        );
    }
}

#[test]
fn each_biometrics_byte_keeps_its_place() {
    for i in 0..17 {
        let mut bytes = [0; 17];
        bytes[i] = 0xC5;
        let (before, behind) = ("00".repeat(i), "00".repeat(16 - i));
        run_gives(
            &extension(&BIOMETRICS, &bytes),
            &format!("04 00 00 {before} C5 {behind}"),
        );
    }
}

// ---------------------------------------------------------------- what is passed over

#[test]
fn unknown_rights_have_any_size() {
    for size in [0, 1, 2, 16, 17, 18, 127, 128, 255, 256, 300] {
        passed_over(&extension(&OTHER, &vec![0xFF; size]));
        passed_over(&extension(&[], &vec![0xFF; size]));
    }
}

#[test]
fn shorter_and_longer_identifiers_are_unknown() {
    for (known, size) in SIZES {
        let rights = vec![0xFF; size];
        for shorter in 0..8 {
            passed_over(&extension(&known[..shorter], &rights));
            passed_over(&extension(&known[8 - shorter..], &rights));
        }
        for more in [0x00, 0x01, 0x03, 0xFF] {
            passed_over(&extension(&[&known[..], &[more]].concat(), &rights));
            passed_over(&extension(&[&[more], &known[..]].concat(), &rights));
        }
        passed_over(&extension(&[known, known].concat(), &rights));
        for long in [127, 128, 255, 256, 300] {
            let mut identifier = known.to_vec();
            identifier.resize(long, 0x03);
            passed_over(&extension(&identifier, &rights));
        }
    }
}

#[test]
fn one_byte_makes_an_identifier_unknown() {
    for (known, size) in SIZES {
        for place in 0..8 {
            for byte in 0x00..=0xFF {
                let mut identifier = known;
                identifier[place] = byte;
                if ![TRAVEL, VISA, BIOMETRICS].contains(&identifier) {
                    let one = extension(&identifier, &vec![0xFF; size]);
                    run_gives(&[full(), one.clone()].concat(), ALL);
                    run_gives(&[one, full()].concat(), ALL);
                }
            }
        }
    }
}

/// The seventh byte alone tells the known ones apart, so it decides which size is right.
#[test]
fn the_seventh_byte_decides() {
    for (byte, certificate) in [(0x01, ONLY_TRAVEL), (0x02, "02 00 0B")] {
        let mut identifier = OTHER;
        identifier[6] = byte;
        let zeros = "00".repeat(20 - hex(certificate).len());
        run_gives(
            &extension(&identifier, &[0x0B]),
            &format!("{certificate}{zeros}"),
        );
        extension_refused(&extension(&identifier, &[0x0B; 17]));
    }
    let mut identifier = OTHER;
    identifier[6] = 0x03;
    extension_refused(&extension(&identifier, &[0x0B]));
}

#[test]
fn unknown_ones_may_stand_anywhere_and_twice() {
    let [travel, visa, biometrics] = [TRAVEL_0B, VISA_06, BIOMETRICS_RISING].map(hex);
    let nothing = extension(&[], &[]);
    let long = extension(&OTHER, &[0xAB; 300]);
    let run = [
        &nothing,
        &long,
        &biometrics,
        &long,
        &nothing,
        &travel,
        &nothing,
        &visa,
        &long,
        &long,
    ];
    run_gives(&run.map(Vec::as_slice).concat(), ALL);
    run_gives(&nothing.repeat(5), ABSENT);
    run_gives(&[long.repeat(2), visa, long].concat(), ONLY_VISA);
}

/// Where an object ends is told by its length, not by what its value looks like.
#[test]
fn values_are_not_read() {
    passed_over(&hex("73 06 06 02 53 01 53 00"));
    passed_over(&hex("73 08 06 00 53 04 06 00 53 00"));
    // A whole known extension in an unknown one's rights, and in its identifier.
    passed_over(&extension(&OTHER, &hex(VISA_06)));
    passed_over(&extension(&hex(VISA_06), &[]));
    passed_over(&extension(&OTHER, &full()));
    // What would be too deep, were it read: `73` in itself six times.
    let deep = (0..6).fold(vec![], |inside, _| frame(&inside));
    passed_over(&extension(&OTHER, &deep));
    run_gives(
        &extension(
            &BIOMETRICS,
            &hex("73 0F 06 0D 53 0B 73 09 06 07 53 05 73 03 06 01 53"),
        ),
        "04 00 00 730F060D530B7309060753057303060153",
    );
    run_gives(
        &extension(&TRAVEL, &[0x73]),
        "01 73 00 0000000000000000000000000000000000",
    );
}

// ---------------------------------------------------------------- number 7

#[test]
fn a_known_one_has_its_own_size() {
    for (known, right) in SIZES {
        for size in [0, 1, 2, 3, 16, 17, 18, 127, 128, 255, 256, 300, 65_520] {
            if size != right {
                extension_refused(&extension(&known, &vec![0x00; size]));
            }
        }
    }
}

#[test]
fn every_other_tag_is_refused() {
    for (known, size) in SIZES {
        for (place, right) in [(0, 0x73), (2, 0x06), (12, 0x53)] {
            for tag in 0x00..=0xFF {
                let mut bytes = extension(&known, &vec![0x01; size]);
                assert_eq!(bytes[place], right);
                bytes[place] = tag;
                if tag != right {
                    run_refused(&bytes, FAULTY);
                }
            }
        }
    }
    for tags in ["7F 73", "73 73", "1F 73", "7F 4E"] {
        let bytes = [&hex(tags)[..], &hex(TRAVEL_0B)[1..]].concat();
        extension_refused(&bytes);
    }
}

/// The inside is `06` then `53` and no more, for unknown identifiers too.
#[test]
fn the_inside_is_exactly_two_objects() {
    for (identifier, rights) in [
        (&TRAVEL[..], &[0x0B][..]),
        (&BIOMETRICS, &[0x01; 17]),
        (&OTHER, &[0x0B]),
        (&[], &[]),
    ] {
        let (name, value) = (object(0x06, identifier), object(0x53, rights));
        for objects in [
            vec![],
            vec![&name],
            vec![&value],
            vec![&value, &name],
            vec![&name, &name],
            vec![&value, &value],
            vec![&name, &name, &value],
            vec![&name, &value, &value],
            vec![&value, &name, &value],
            vec![&name, &value, &name],
            vec![&name, &value, &name, &value],
        ] {
            let inside: Vec<u8> = objects.into_iter().flatten().copied().collect();
            extension_refused(&frame(&inside));
        }
        let pair = [name.clone(), value.clone()].concat();
        for between in ["00", "FF", "04 00", "73 00", "73 04 06 00 53 00"].map(hex) {
            extension_refused(&frame(&[&between[..], &pair].concat()));
            extension_refused(&frame(&[&name[..], &between, &value].concat()));
            extension_refused(&frame(&[&pair[..], &between].concat()));
        }
        extension_refused(&frame(&frame(&pair)));
    }
}

/// Cards may pad objects with zeros, but bytes that are no whole extension are refused here.
#[test]
fn nothing_stands_between_extensions() {
    let [travel, visa] = [TRAVEL_0B, VISA_06].map(hex);
    for stray in ["00", "00 00", "FF", "73", "06 00", "53 00", "06 00 53 00"].map(hex) {
        run_refused(&stray, FAULTY);
        run_refused(&[&stray, &travel[..], &visa].concat(), FAULTY);
        run_refused(&[&travel, &stray[..], &visa].concat(), FAULTY);
        run_refused(&[&travel, &visa[..], &stray].concat(), FAULTY);
    }
    // The inside of an extension without its frame.
    run_refused(&travel[2..], FAULTY);
}

#[test]
fn a_run_ends_with_an_extension() {
    let whole = [
        (0, ABSENT),
        (15, ONLY_TRAVEL),
        (30, TRAVEL_AND_VISA),
        (61, ALL),
    ];
    for cut in 0..=61 {
        let run = &full()[..cut];
        match whole.iter().find(|(end, _)| *end == cut) {
            Some((_, certificate)) => run_gives(run, certificate),
            None => run_refused(run, FAULTY),
        }
    }
    for run in [extension(&OTHER, &[0; 300]), extension(&[0; 300], &[])] {
        for cut in 1..run.len() {
            run_refused(&run[..cut], FAULTY);
        }
    }
}

#[test]
fn every_other_length_byte_is_refused() {
    for (known, size) in SIZES {
        for place in [1, 3, 13] {
            for byte in 0x00..=0xFF {
                let mut bytes = extension(&known, &vec![0x01; size]);
                if bytes[place] != byte {
                    bytes[place] = byte;
                    run_refused(&bytes, FAULTY);
                    // Now there are bytes behind, which belong to others.
                    run_refused(&[&bytes[..], &hex(VISA_06).repeat(20)].concat(), FAULTY);
                }
            }
        }
    }
}

/// An object inside ends where its extension does, even if the run has more bytes.
#[test]
fn an_inside_stays_in_its_frame() {
    for inside in [
        "06 08 67 81 08 01 01 09 01 03 53 01",
        "06 08 67 81 08 01 01 09 01 03 53",
        "06 08 67 81 08 01 01 09 01",
        "06 08",
        "06",
        "06 00 53 01",
        "06 00 53 05 00 00 00 00",
        "06 05 53 00",
        "06 00 53 81 80",
        "06 00 53 82 01",
        "06 00 53 82",
        "06 00 53 81",
    ] {
        extension_refused(&frame(&hex(inside)));
        let more = [frame(&hex(inside)), vec![0x0B; 700]].concat();
        run_refused(&more, FAULTY);
    }
}

// ---------------------------------------------------------------- length forms

/// Sizes next to the ends of the three forms, each with its shortest form by hand.
#[test]
fn the_shortest_form_is_taken_at_each_place() {
    for (size, form) in [
        (0, "00"),
        (127, "7F"),
        (128, "81 80"),
        (255, "81 FF"),
        (256, "82 01 00"),
        (257, "82 01 01"),
        (511, "82 01 FF"),
        (512, "82 02 00"),
        (65_000, "82 FD E8"),
    ] {
        let bytes = vec![0x67; size];
        assert_eq!(length(size), hex(form));
        let rights = [&hex("06 01 2A 53")[..], &hex(form), &bytes].concat();
        let name = [&hex("06")[..], &hex(form), &bytes, &hex("53 01 FF")].concat();
        passed_over(&frame(&rights));
        passed_over(&frame(&name));
    }
    // Around `73` itself: `06 00 53`, the length of the rights and these are 127, 128, 133, 255,
    // 256 and 262 bytes.
    for (head, size) in [
        ("73 7F 06 00 53 7B", 123),
        ("73 81 80 06 00 53 7C", 124),
        ("73 81 85 06 00 53 81 80", 128),
        ("73 81 FF 06 00 53 81 FA", 250),
        ("73 82 01 00 06 00 53 81 FB", 251),
        ("73 82 01 06 06 00 53 82 01 00", 256),
    ] {
        passed_over(&[hex(head), vec![0x53; size]].concat());
    }
}

#[test]
fn longer_forms_of_the_frame_are_refused() {
    for known in [TRAVEL_0B, VISA_06, BIOMETRICS_RISING].map(hex) {
        let (right, inside) = (known[1], &known[2..]);
        for form in [
            vec![0x81, right],
            vec![0x82, 0x00, right],
            vec![0x83, 0x00, 0x00, right],
            vec![0x84, 0x00, 0x00, 0x00, right],
            vec![0x88, 0, 0, 0, 0, 0, 0, 0, right],
            vec![0x80],
            vec![0xFF],
        ] {
            extension_refused(&[&[0x73][..], &form, inside].concat());
        }
        // The form without a length, closed by two zeros.
        extension_refused(&[&[0x73, 0x80][..], inside, &[0, 0]].concat());
    }
    for (form, head, size) in [
        ("81 7F", "06 00 53 7B", 123),
        ("82 00 7F", "06 00 53 7B", 123),
        ("82 00 80", "06 00 53 7C", 124),
        ("82 00 FF", "06 00 53 81 FA", 250),
        ("83 00 00 FF", "06 00 53 81 FA", 250),
        ("83 00 01 00", "06 00 53 81 FB", 251),
    ] {
        let inside = [hex(head), vec![0x53; size]].concat();
        passed_over(&frame(&inside));
        extension_refused(&[&[0x73][..], &hex(form), &inside].concat());
    }
}

#[test]
fn longer_forms_inside_are_refused() {
    for inside in [
        "06 81 08 67 81 08 01 01 09 01 03 53 01 0B",
        "06 82 00 08 67 81 08 01 01 09 01 03 53 01 0B",
        "06 83 00 00 08 67 81 08 01 01 09 01 03 53 01 0B",
        "06 08 67 81 08 01 01 09 01 03 53 81 01 0B",
        "06 08 67 81 08 01 01 09 01 03 53 82 00 01 0B",
        "06 08 67 81 08 01 01 09 01 03 53 83 00 00 01 0B",
        "06 08 67 81 08 01 01 09 01 03 53 80 0B 00 00",
        "06 81 00 53 00",
        "06 00 53 81 00",
        "06 82 00 00 53 00",
        "06 00 53 82 00 00",
        "06 80 53 00",
        "06 00 53 80",
        "06 80 00 00 53 00",
    ] {
        extension_refused(&frame(&hex(inside)));
    }
    for (form, size) in [
        ("81 7F", 127),
        ("82 00 7F", 127),
        ("82 00 80", 128),
        ("82 00 FF", 255),
        ("83 00 00 FF", 255),
        ("83 00 01 00", 256),
        ("84 00 00 01 00", 256),
    ] {
        let value = vec![0x00; size];
        let rights = [&hex("06 00 53")[..], &hex(form), &value].concat();
        let name = [&hex("06")[..], &hex(form), &value, &hex("53 00")].concat();
        extension_refused(&frame(&rights));
        extension_refused(&frame(&name));
    }
}

// ---------------------------------------------------------------- large runs

/// 65,535 inside: `06 00` and `53 82 FF F9` are 6, and 65,529 more; or the other way round.
#[test]
fn the_greatest_extension() {
    let rights = [hex("73 82 FF FF 06 00 53 82 FF F9"), vec![0xAA; 65_529]].concat();
    let name = [
        hex("73 82 FF FF 06 82 FF F9"),
        vec![0xAA; 65_529],
        hex("53 00"),
    ]
    .concat();
    let named = [
        hex("73 82 FF FF 06 08 67 81 08 01 01 09 04 03 53 82 FF F1"),
        vec![0xAA; 65_521],
    ]
    .concat();
    for greatest in [rights, name, named] {
        assert_eq!(greatest.len(), 4 + 65_535);
        passed_over(&greatest);
        run_refused(&greatest[..65_538], FAULTY);
        run_refused(&[&greatest[..], &[0x00]].concat(), FAULTY);
        run_gives(&[greatest.clone(), full(), greatest].concat(), ALL);
    }
    // Known ones of that size are still of a wrong size.
    extension_refused(&extension(&BIOMETRICS, &vec![0xAA; 65_521]));
}

/// One byte more would need three length bytes, which no form has.
#[test]
fn no_extension_is_greater() {
    let inside = [hex("06 00 53 82 FF FA"), vec![0xAA; 65_530]].concat();
    assert_eq!(inside.len(), 65_536);
    extension_refused(&[&hex("73 83 01 00 00")[..], &inside].concat());
    extension_refused(&[&hex("73 82 00 00")[..], &inside].concat());
    extension_refused(&[&hex("73 82 FF FF")[..], &inside].concat());
}

#[test]
fn a_run_has_any_number_of_bytes() {
    // 6 bytes each.
    let many = extension(&[], &[]).repeat(11_000);
    assert_eq!(many.len(), 66_000);
    passed_over(&many);
    run_refused(&[&many[..], &[0x73]].concat(), FAULTY);
    run_refused(&[full(), many.clone(), hex(VISA_06)].concat(), TWICE);
    // 4 + 6 + 300 bytes each: more than 2^18 in all.
    let large = extension(&[], &[0x73; 300]).repeat(1_000);
    assert_eq!(large.len(), 310_000);
    let run = [&large[..], &full(), &large].concat();
    gives(&[run.clone(), run.clone(), run], [ALL; 3]);
    refused(
        &[large.clone(), large.clone(), [large, hex("73 00")].concat()],
        FAULTY,
    );
}

// ---------------------------------------------------------------- number 8

#[test]
fn a_known_one_twice() {
    for (i, (known, size)) in SIZES.into_iter().enumerate() {
        let one = extension(&known, &vec![0x03; size]);
        let another = extension(&known, &vec![0x0C; size]);
        let others: Vec<u8> = SIZES
            .into_iter()
            .enumerate()
            .filter(|(j, _)| *j != i)
            .flat_map(|(_, (known, size))| extension(&known, &vec![0x01; size]))
            .collect();
        let unknown = extension(&OTHER, &[0x01; 300]);
        for between in [&[][..], &others, &unknown] {
            run_refused(&[&one, between, &one].concat(), TWICE);
            run_refused(&[&one, between, &another].concat(), TWICE);
            run_refused(&[between, &one, &another].concat(), TWICE);
            run_refused(&[&one, &another, between].concat(), TWICE);
            run_refused(&[&one, between, &one, between, &one].concat(), TWICE);
        }
    }
}

/// Rights of zero are there, too.
#[test]
fn zero_rights_count() {
    for (known, size) in SIZES {
        let zero = extension(&known, &vec![0x00; size]);
        let ones = extension(&known, &vec![0xFF; size]);
        run_refused(&[&zero[..], &zero].concat(), TWICE);
        run_refused(&[&zero[..], &ones].concat(), TWICE);
        run_refused(&[&ones[..], &zero].concat(), TWICE);
    }
}

// ---------------------------------------------------------------- which fault is told

#[test]
fn seven_before_eight_at_one_extension() {
    for (known, size) in SIZES {
        let one = extension(&known, &vec![0x01; size]);
        let short = extension(&known, &vec![0x01; size - 1]);
        let long = extension(&known, &vec![0x01; size + 1]);
        let surplus = frame(&[&one[2..], &[0x00]].concat());
        let torn = &one[..one.len() - 1];
        let second = [&one[..], &one].concat();
        run_refused(&second, TWICE);
        for faulty in [&short[..], &long, &surplus, torn] {
            run_refused(&[&one, faulty].concat(), FAULTY);
        }
        for faulty in [&short[..], &long, &surplus] {
            run_refused(&[&one, faulty, &one].concat(), FAULTY);
            // At the second it is 8 already; the third is not asked.
            run_refused(&[&second, faulty].concat(), TWICE);
        }
        run_refused(&[&second, torn].concat(), TWICE);
    }
}

#[test]
fn the_earlier_extension_first() {
    let [travel, visa] = [TRAVEL_0B, VISA_06].map(hex);
    let wide = extension(&VISA, &[0x01, 0x02]);
    let empty = hex("73 00");
    for faulty in [&wide[..], &empty, &[0x00], &[0x73], &[0x73, 0x0D]] {
        run_refused(&[&travel, &travel, faulty].concat(), TWICE);
        run_refused(&[&travel, &visa, &travel, faulty].concat(), TWICE);
        run_refused(&[&travel, faulty, &travel].concat(), FAULTY);
        run_refused(&[faulty, &travel, &travel].concat(), FAULTY);
    }
    // A faulty one gives no rights, but it ends the run before the right one comes.
    run_refused(&[&wide[..], &visa].concat(), FAULTY);
}

#[test]
fn the_first_run_first() {
    let seven = [full(), hex("73 00")].concat();
    let eight = [full(), hex(TRAVEL_0B)].concat();
    let fine = [full(), extension(&OTHER, &[])].concat();
    let kinds = [(0, &fine), (FAULTY, &seven), (TWICE, &eight)];
    for (one, first) in kinds {
        for (two, second) in kinds {
            for (three, third) in kinds {
                let runs = [first.clone(), second.clone(), third.clone()];
                match [one, two, three].into_iter().find(|result| *result != 0) {
                    Some(result) => refused(&runs, result),
                    None => gives(&runs, [ALL; 3]),
                }
            }
        }
    }
    // The place inside the run does not count: a late 8 in the first, an early 7 in the second.
    let late = [extension(&[], &[]).repeat(500), eight].concat();
    refused(&[late, hex("00"), hex("00")], TWICE);
}

/// One extension of a list, with what the rules say of it alone.
#[derive(Clone, Copy)]
enum Kind {
    /// A known one of the right size, by its number in the list of the known.
    Right(usize),
    /// A known one of the wrong size.
    Wrong(usize),
    Unknown,
    /// Not `06` then `53`.
    Nesting,
}

const KINDS: [Kind; 8] = [
    Kind::Right(0),
    Kind::Right(1),
    Kind::Right(2),
    Kind::Wrong(0),
    Kind::Wrong(1),
    Kind::Wrong(2),
    Kind::Unknown,
    Kind::Nesting,
];

/// The bytes of an extension of a kind. The rights are its place in the list, from 1.
fn written(kind: Kind, place: usize) -> Vec<u8> {
    let rights = |size| vec![place as u8; size];
    match kind {
        Kind::Right(i) => extension(&SIZES[i].0, &rights(SIZES[i].1)),
        Kind::Wrong(i) => extension(&SIZES[i].0, &rights(18 - SIZES[i].1)),
        Kind::Unknown => extension(&OTHER, &rights(130)),
        Kind::Nesting => frame(&object(0x53, &rights(1))),
    }
}

/// What the rules say of a list: the number of its first fault, else the certificate's bytes. The
/// known ones are looked for by name, wherever they stand, not collected on a walk.
fn by_the_rules(list: &[Kind]) -> Result<Vec<u8>, u64> {
    let known = |kind: &Kind, i| matches!(kind, Kind::Right(j) if *j == i);
    let fault = |place: usize| match list[place] {
        Kind::Wrong(_) | Kind::Nesting => Some(FAULTY),
        Kind::Right(i) => list[..place]
            .iter()
            .any(|kind| known(kind, i))
            .then_some(TWICE),
        Kind::Unknown => None,
    };
    if let Some(result) = (0..list.len()).find_map(fault) {
        return Err(result);
    }
    let place = |i| list.iter().position(|kind| known(kind, i));
    let byte = |i| place(i).map_or(0x00, |at| at as u8 + 1);
    let flag = |i: usize| u8::from(place(i).is_some()) << i;
    let head = [flag(0) + flag(1) + flag(2), byte(0), byte(1)];
    Ok([&head[..], &[byte(2); 17]].concat())
}

/// Calls with the list that a number stands for, its digits of base 8 the kinds.
#[track_caller]
fn check_list(number: usize, count: u32) {
    let list: Vec<Kind> = (0..count).map(|i| KINDS[number >> (3 * i) & 7]).collect();
    let run: Vec<u8> = list
        .iter()
        .enumerate()
        .flat_map(|(i, kind)| written(*kind, i + 1))
        .collect();
    let place = number % 3;
    let expected = match by_the_rules(&list) {
        Ok(certificate) => {
            let mut chain = vec![0; 60];
            chain[20 * place..20 * place + 20].copy_from_slice(&certificate);
            (0, chain)
        }
        Err(result) => (result, vec![0; 60]),
    };
    assert_eq!(call(&only(place, &run), 60), expected, "{number:o}");
}

#[test]
fn every_list_of_up_to_five() {
    for count in 0..=5 {
        for number in 0..1 << (3 * count) {
            check_list(number, count);
        }
    }
}

// ---------------------------------------------------------------- the buffer

#[test]
fn only_sixty_bytes_are_written() {
    let runs = [full(), vec![], hex(TRAVEL_0B)];
    let faulty = [full(), vec![], hex("73 00")];
    for behind in [0, 1, 2, 59, 60, 61, 5_000] {
        let tail = vec![FILL; behind];
        let chain = [ALL, ABSENT, ONLY_TRAVEL].map(hex).concat();
        let taken = [&chain[..], &tail].concat();
        assert_eq!(call(&runs, 60 + behind), (0, taken));
        let zeros = [&[0; 60][..], &tail].concat();
        assert_eq!(call(&faulty, 60 + behind), (FAULTY, zeros));
    }
}

/// What earlier runs gave, and what the buffer held before, is not kept.
#[test]
fn a_refused_chain_is_all_zero() {
    let mut buffer = [FILL; 64];
    assert_eq!(rights(&full(), &full(), &full(), &mut buffer), 0);
    assert_eq!(buffer[..60], [ALL; 3].map(hex).concat());
    let torn = [full(), vec![0x73]].concat();
    assert_eq!(rights(&full(), &full(), &torn, &mut buffer), FAULTY);
    assert_eq!(buffer[..60], [0; 60]);
    assert_eq!(buffer[60..], [FILL; 4]);

    assert_eq!(rights(&full(), &full(), &full(), &mut buffer), 0);
    let twice = [full(), full()].concat();
    assert_eq!(rights(&full(), &full(), &twice, &mut buffer), TWICE);
    assert_eq!(buffer[..60], [0; 60]);
    assert_eq!(buffer[60..], [FILL; 4]);
}

#[test]
fn a_short_buffer_comes_before_all() {
    let twice = [full(), full()].concat();
    for run in [vec![], full(), hex("73 00"), hex("00"), twice] {
        for place in 0..3 {
            for short in 0..60 {
                let untouched = vec![FILL; short];
                let result = call(&only(place, &run), short);
                assert_eq!(result, (SHORT_BUFFER, untouched));
            }
        }
    }
}

// ---------------------------------------------------------------- opening

/// The session that opening makes of what these runs give, whether they are refused or not.
fn opened(runs: &[Vec<u8>; 3]) -> [u8; SESSION_LEN] {
    let (_, chain) = call(runs, 60);
    let mut session = [FILL; SESSION_LEN];
    assert_eq!(open(&chain, &mut session), 0);
    session
}

/// The session whose first 25 bytes these are, amid no chain.
fn without_chain(standing: &str) -> [u8; SESSION_LEN] {
    let mut session = [0; SESSION_LEN];
    session[..25].copy_from_slice(&hex(standing));
    session
}

#[test]
fn opening_takes_the_bytes() {
    let biometrics = |first: u8, others: u8| {
        let bytes = [&[first][..], &[others; 16]].concat();
        extension(&BIOMETRICS, &bytes)
    };
    let [travel, visa] = [TRAVEL, VISA].map(|name| move |byte| extension(&name, &[byte]));
    let runs = [
        [travel(0x0F), visa(0xFF), biometrics(0xFF, 0xFF)].concat(),
        [biometrics(0x03, 0xF0), extension(&OTHER, &[]), travel(0x1E)].concat(),
        [visa(0x01), biometrics(0xFF, 0xAA), travel(0xFB)].concat(),
    ];
    gives(
        &runs,
        [
            "07 0F FF FF FFFFFFFFFFFFFFFFFFFFFFFFFFFFFFFF",
            "05 1E 00 03 F0F0F0F0F0F0F0F0F0F0F0F0F0F0F0F0",
            "07 FB 01 FF AAAAAAAAAAAAAAAAAAAAAAAAAAAAAAAA",
        ],
    );
    // 0F and 1E and FB are 0A; the second has no visa; F0 and AA are A0. Then the master file.
    let session = "05 0A 00 03 A0A0A0A0A0A0A0A0A0A0A0A0A0A0A0A0 00 00 0000 00";
    assert_eq!(opened(&runs), without_chain(session));
}

#[test]
fn what_a_refusal_gives_opens_nothing() {
    let all_bits: Vec<u8> = SIZES
        .iter()
        .flat_map(|(known, size)| extension(known, &vec![0xFF; *size]))
        .collect();
    let fine = [all_bits.clone(), all_bits.clone(), all_bits.clone()];
    let clear = "07 0F 0F 03 FFFFFFFFFFFFFFFFFFFFFFFFFFFFFFFF 00 00 0000 00";
    assert_eq!(opened(&fine), without_chain(clear));
    for behind in [hex("73 00"), hex("00"), hex(TRAVEL_0B)] {
        for place in 0..3 {
            let mut runs = fine.clone();
            runs[place].extend(&behind);
            assert_eq!(opened(&runs), [0; SESSION_LEN]);
        }
    }
}

/// m1 of the card to try, in a session opened with what the runs give.
fn select_travel(runs: &[Vec<u8>; 3]) -> Vec<u8> {
    let sections = ["0101", "0201", "1A01"].map(|kind| {
        let zeros = "00".repeat(40);
        hex(&format!("28000000 {kind} {zeros}"))
    });
    let mut session = opened(runs);
    let mut response = [FILL; 2_050];
    let select = hex("00A4040C07A0000002472001");
    let result = command(&mut sections.concat(), &mut session, &select, &mut response);
    assert_eq!(result >> 16, 2);
    response[..2].to_vec()
}

#[test]
fn the_card_asks_each_certificate() {
    let fine = [full(), full(), full()];
    assert_eq!(select_travel(&fine), [0x90, 0x00]);
    for place in 0..3 {
        let mut runs = fine.clone();
        runs[place] = hex(&[BIOMETRICS_RISING, VISA_06].concat());
        assert_eq!(select_travel(&runs), [0x69, 0x82], "no travel extension");
        runs[place] = [full(), hex(TRAVEL_0B)].concat();
        assert_eq!(select_travel(&runs), [0x69, 0x82], "twice");
    }
}
