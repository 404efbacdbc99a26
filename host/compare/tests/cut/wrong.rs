//! Cuts that are wrong, each in one way, made from the reference and from a list of stores that is
//! found without it.

use compare::make::{self, Apdu, SHORTEST_RESPONSE};
use compare::sides::Cut;
use compare::view::{self, Content, File, View};

/// One byte, and where in the image it is put.
pub type Store = (usize, u8);

pub fn is_append(command: &[u8]) -> bool {
    command.starts_with(&[0x00, 0xE2])
}

fn is_activate(command: &[u8]) -> bool {
    command.starts_with(&[0x00, 0x44])
}

/// How many stores a command has; 0 where the cut is refused.
fn all(image: &[u8], session: &[u8], command: &[u8]) -> usize {
    match reference::cut(&mut image.to_vec(), session, command, 0) {
        refused if refused >> 32 != 0 => 0,
        all => all as usize,
    }
}

/// The file that an append or ACTIVATE is for.
pub fn file<'a>(view: &'a View, command: &[u8]) -> Option<&'a File> {
    match command[3] >> 3 {
        _ if is_activate(command) => view.current_file(),
        0 => view.current_file(),
        short_id => view.here().find(|file| file.short_id == short_id),
    }
}

/// Where the body of a file begins, where its room is free, and where the body ends.
pub fn places(image: &[u8], file: &File) -> Option<[usize; 3]> {
    let kind = match &file.content {
        Content::Records { rule, .. } => rule.kind,
        _ => file.id - make::BIOMETRICS_ID + make::BIOMETRICS_KIND,
    };
    let body = view::body(image, kind)?;
    let free = file
        .records()
        .last()
        .map_or(body.start + 2, |last| last.end);
    Some([body.start, free, body.end])
}

/// The record of an append: what it has itself, behind the links before it.
fn record(view: &View, append: &[u8]) -> Vec<u8> {
    let earlier = view.chain.as_ref().map_or(&[][..], |chain| &chain.data);
    let own = Apdu::read(append).and_then(|apdu| apdu.data);
    [earlier, &own.unwrap_or_default()].concat()
}

/// The stores of a command in their order; none where it has none.
pub fn list(image: &[u8], session: &[u8], command: &[u8]) -> Vec<Store> {
    if all(image, session, command) == 0 {
        return vec![];
    }
    let view = View::new(image, session);
    let file = file(&view, command).expect("a file");
    let [start, free, _] = places(image, file).expect("a body");
    if is_activate(command) {
        return vec![(start, 1)];
    }
    let record = record(&view, command);
    let written = [&(record.len() as u16).to_le_bytes()[..], &record].concat();
    let [low, high] = (view::count(&image[start..]) as u16 + 1).to_le_bytes();
    let counted = [(start + 1, high), (start, low)];
    (free..).zip(written).chain(counted).collect()
}

/// A cut with another list of stores in place of an append's.
pub fn with_list(
    (image, session, command): (&mut [u8], &[u8], &[u8]),
    stores: usize,
    change: fn(&mut Vec<Store>),
) -> u64 {
    let mut list = list(image, session, command);
    let result = reference::cut(&mut image.to_vec(), session, command, 0);
    if is_append(command) && !list.is_empty() {
        change(&mut list);
    }
    for (place, byte) in list.into_iter().take(stores) {
        image[place] = byte;
    }
    result
}

/// A wrong machine: what is wrong with it, and its cut.
pub type Wrong = (&'static str, Cut);

const WRONG_ORDERS: [Wrong; 9] = [
    ("the count first", |image, session, command, stores| {
        with_list((image, session, command), stores, |list| {
            list.rotate_right(2);
        })
    }),
    (
        "the length's high byte left out",
        |image, session, command, stores| {
            with_list((image, session, command), stores, |list| {
                list.remove(1);
            })
        },
    ),
    (
        "the length's low byte stored twice",
        |image, session, command, stores| {
            with_list((image, session, command), stores, |list| list[1] = list[0])
        },
    ),
    (
        "the length big-endian",
        |image, session, command, stores| {
            with_list((image, session, command), stores, |list| {
                (list[0].1, list[1].1) = (list[1].1, list[0].1);
            })
        },
    ),
    (
        "the length's high byte first",
        |image, session, command, stores| {
            with_list((image, session, command), stores, |list| list.swap(0, 1))
        },
    ),
    (
        "the bytes of the record backwards",
        |image, session, command, stores| {
            with_list((image, session, command), stores, |list| {
                let end = list.len() - 2;
                list[2..end].reverse();
            })
        },
    ),
    (
        "the length behind the bytes",
        |image, session, command, stores| {
            with_list((image, session, command), stores, |list| {
                let end = list.len() - 2;
                list[..end].rotate_left(2);
            })
        },
    ),
    (
        "the count's high byte last",
        |image, session, command, stores| {
            with_list((image, session, command), stores, |list| {
                let last = list.len() - 1;
                list.swap(last - 1, last);
            })
        },
    ),
    (
        "the count raised too early, before the record's last byte",
        |image, session, command, stores| {
            with_list((image, session, command), stores, |list| {
                let before = list.len() - 3;
                list[before..].rotate_left(1);
            })
        },
    ),
];

const WRONG_NUMBERS: [Wrong; 12] = [
    ("one store too many", |image, session, command, stores| {
        reference::cut(image, session, command, stores.saturating_add(1))
    }),
    ("one store too few", |image, session, command, stores| {
        reference::cut(image, session, command, stores.saturating_sub(1))
    }),
    ("all stores always", |image, session, command, _| {
        reference::cut(image, session, command, usize::MAX)
    }),
    ("no store ever", |image, session, command, _| {
        reference::cut(image, session, command, 0)
    }),
    (
        "none unless there are all",
        |image, session, command, stores| {
            let all = all(image, session, command);
            let made = if stores < all { 0 } else { all };
            reference::cut(image, session, command, made)
        },
    ),
    (
        "none where more are asked for than there are",
        |image, session, command, stores| {
            let all = all(image, session, command);
            let made = if stores > all { 0 } else { stores };
            reference::cut(image, session, command, made)
        },
    ),
    (
        "a record counted by its bytes",
        |image, session, command, stores| {
            let all = all(image, session, command);
            let counted = is_append(command) && stores.saturating_add(2) >= all;
            let made = if counted { all } else { stores };
            reference::cut(image, session, command, made)
        },
    ),
    ("stores of 32 bits", |image, session, command, stores| {
        reference::cut(image, session, command, stores as u32 as usize)
    }),
    ("stores of 16 bits", |image, session, command, stores| {
        reference::cut(image, session, command, usize::from(stores as u16))
    }),
    (
        "the result is the stores made",
        |image, session, command, stores| {
            let result = reference::cut(image, session, command, stores);
            match result >> 32 {
                0 => result.min(stores as u64),
                _ => result,
            }
        },
    ),
    (
        "the count is one store",
        |image, session, command, stores| {
            let result = reference::cut(image, session, command, stores);
            result - u64::from(result >> 32 == 0 && result > 1)
        },
    ),
    (
        "the result of no store is 0",
        |image, session, command, stores| {
            let result = reference::cut(image, session, command, stores);
            match (stores, result >> 32) {
                (0, 0) => 0,
                _ => result,
            }
        },
    ),
];

/// The image that a command leaves, where it is answered 9000.
pub fn done(image: &[u8], session: &[u8], command: &[u8]) -> Option<Vec<u8>> {
    let (mut image, mut session) = (image.to_vec(), session.to_vec());
    let mut response = [0; SHORTEST_RESPONSE];
    let result = reference::command(&mut image, &mut session, command, &mut response);
    (result == 0x0002_9000).then_some(image)
}

const WRONG_COMMANDS: [Wrong; 5] = [
    (
        "UPDATE BINARY has stores too",
        |image, session, command, stores| {
            let result = reference::cut(image, session, command, stores);
            if !command.starts_with(&[0x00, 0xD7]) {
                return result;
            }
            let Some(done) = done(image, session, command) else {
                return result;
            };
            let changed = (0..image.len()).filter(|at| done[*at] != image[*at]);
            let changed: Vec<usize> = changed.collect();
            for at in changed.iter().take(stores) {
                image[*at] = done[*at];
            }
            changed.len() as u64
        },
    ),
    (
        "other commands are done",
        |image, session, command, stores| {
            let result = reference::cut(image, session, command, stores);
            if let (0, Some(done)) = (result, done(image, session, command)) {
                image.copy_from_slice(&done);
            }
            result
        },
    ),
    (
        "ACTIVATE has no store",
        |image, session, command, stores| match is_activate(command) {
            true if all(image, session, command) > 0 => 0,
            _ => reference::cut(image, session, command, stores),
        },
    ),
    (
        "an Activated file has its store",
        |image, session, command, stores| {
            let result = reference::cut(image, session, command, stores);
            let view = View::new(image, session);
            let activated = view.current_file().is_some_and(|file| {
                matches!(
                    file.content,
                    Content::Biometrics {
                        activated: true,
                        ..
                    }
                )
            });
            match command {
                [0x00, 0x44, 0x00, 0x00] if result == 0 && activated => 1,
                _ => result,
            }
        },
    ),
    (
        "the rest of the free room cleared",
        |image, session, command, stores| {
            let before = image.to_vec();
            let result = reference::cut(image, session, command, stores);
            if is_append(command) && result >> 32 == 0 && result > 0 {
                let view = View::new(&before, session);
                let file = file(&view, command).expect("a file");
                let [_, free, end] = places(&before, file).expect("a body");
                let written = stores.min(result as usize - 2);
                image[free + written..end].fill(0);
            }
            result
        },
    ),
];

/// The session with another record file of its application as the current one.
fn on_another_file(image: &[u8], session: &[u8]) -> Vec<u8> {
    let mut other = session.to_vec();
    let view = View::new(image, session);
    let mut others = view
        .here()
        .filter(|file| file.has_records() && view.current != Some(file.id));
    if let (Some(current), Some(file)) = (view.current_file(), others.next()) {
        if current.has_records() {
            other[21] = 1;
            other[22..24].copy_from_slice(&file.id.to_le_bytes());
            other[24] = 0;
        }
    }
    other
}

/// The session with all rights.
fn with_all_rights(session: &[u8]) -> Vec<u8> {
    let mut opened = [0; make::SESSION_LEN];
    reference::open(&[0xFF; make::RIGHTS_LEN], &mut opened);
    [
        &opened[..make::CERTIFICATE_LEN],
        &session[make::CERTIFICATE_LEN..],
    ]
    .concat()
}

const WRONG_REFUSALS: [Wrong; 8] = [
    ("a refused cut writes", |image, session, command, stores| {
        let result = reference::cut(image, session, command, stores);
        if let (1.., Some(last)) = (result >> 32, image.last_mut()) {
            *last ^= 1;
        }
        result
    }),
    ("4 before 2", |image, session, command, stores| {
        let none = session.len() < make::SESSION_LEN || session[20] > 3 || session[21] > 2;
        match none {
            true => 4 << 32,
            false => reference::cut(image, session, command, stores),
        }
    }),
    (
        "1, since there is no response buffer",
        |image, session, command, _| {
            reference::command(image, &mut session.to_vec(), command, &mut [])
        },
    ),
    (
        "no refusal 2",
        |image, session, command, stores| match reference::cut(image, session, command, stores) {
            0x2_0000_0000 => 0,
            result => result,
        },
    ),
    (
        "no refusal 4",
        |image, session, command, stores| match reference::cut(image, session, command, stores) {
            0x4_0000_0000 => 0,
            result => result,
        },
    ),
    (
        "a longer session refused",
        |image, session, command, stores| match session.len() > make::SESSION_LEN {
            true if reference::cut(&mut image.to_vec(), session, command, 0) >> 32 == 0 => 4 << 32,
            _ => reference::cut(image, session, command, stores),
        },
    ),
    (
        "the session of another file",
        |image, session, command, stores| {
            let other = on_another_file(image, session);
            match reference::cut(&mut image.to_vec(), session, command, 0) >> 32 {
                0 => reference::cut(image, &other, command, stores),
                refusal => refusal << 32,
            }
        },
    ),
    (
        "rights that do not count",
        |image, session, command, stores| match reference::cut(
            &mut image.to_vec(),
            session,
            command,
            0,
        ) >> 32
        {
            0 => reference::cut(image, &with_all_rights(session), command, stores),
            refusal => refusal << 32,
        },
    ),
];

pub fn all_wrong() -> impl Iterator<Item = Wrong> {
    let orders = WRONG_ORDERS.into_iter().chain(WRONG_NUMBERS);
    orders.chain(WRONG_COMMANDS).chain(WRONG_REFUSALS)
}
