//! What a picture shows, and that it can be read.

use crate::cards;
use compare::view;
use draw::card::{Card, Content, File, What};
use draw::page;
use draw::picture::{Area, Block, Picture};
use std::collections::BTreeMap;

/// Each card's picture with the sides that it shows, and then the picture of a move of that card to
/// rooms that are larger, each by another length.
fn pictures() -> Vec<(String, Vec<Card>, Picture)> {
    let mut pictures = Vec::new();
    for (name, image) in cards::all() {
        let card = Card::read(&image).expect("a card");
        let picture = page::card(&card);
        pictures.push((name.clone(), vec![card], picture));
        if let Some((before, after)) = moved(&image) {
            let picture = page::moved(&before, &after);
            pictures.push((format!("{name}, moved"), vec![before, after], picture));
        }
    }
    pictures
}

/// The card before and after a move; none where larger rooms would make no card.
fn moved(image: &[u8]) -> Option<(Card, Card)> {
    let before = Card::read(image).ok()?;
    let larger = |(i, file): (usize, &File)| (file.kind, (file.room + 7 * i) as u32);
    let mut rooms: Vec<(u16, u32)> = before.files.iter().enumerate().map(larger).collect();
    // An application that is new to the card.
    if !rooms.iter().any(|(kind, _)| *kind > 0x0200) {
        rooms.extend([(0x0203, 60), (0x021A, 2)]);
    }
    let mut target = vec![0; 262_144];
    let new = malquindo::move_card(image, &rooms, &mut target).ok()?;
    Some((before, Card::read(new).expect("a card")))
}

#[test]
fn enough_pictures() {
    let pictures = pictures();
    assert!(pictures.len() > 500);
    assert!(
        pictures
            .iter()
            .filter(|(_, cards, _)| cards.len() == 2)
            .count()
            > 200
    );
}

#[test]
fn no_two_texts_overlap() {
    for (name, _, picture) in pictures() {
        let texts: Vec<_> = picture.texts().map(|text| (text.area(), text)).collect();
        for (i, (area, text)) in texts.iter().enumerate() {
            for (other_area, other) in &texts[..i] {
                let apart = !area.overlaps(other_area);
                assert!(apart, "{name}: {text:?} and {other:?}");
            }
        }
    }
}

#[test]
fn every_text_is_inside_the_picture() {
    for (name, _, picture) in pictures() {
        let whole = Area {
            x: 0.0,
            y: 0.0,
            width: picture.width,
            height: picture.height,
        };
        for text in picture.texts() {
            assert!(whole.contains(&text.area()), "{name}: {text:?}");
        }
    }
}

#[test]
fn a_text_is_in_a_block_or_beside_it() {
    for (name, _, picture) in pictures() {
        let parts: Vec<&Block> = picture
            .blocks()
            .filter(|block| block.of.is_some())
            .collect();
        for text in picture.texts() {
            let area = text.area();
            for block in parts.iter().filter(|block| block.area.overlaps(&area)) {
                assert!(block.area.contains(&area), "{name}: {text:?} on {block:?}");
                if let Some(What::Record(number)) = block.of.map(|of| of.what) {
                    assert_eq!(text.words, number.to_string(), "{name}");
                }
            }
        }
    }
}

#[test]
fn every_record_is_drawn_once() {
    for (name, cards, picture) in pictures() {
        for (side, card) in cards.iter().enumerate() {
            let mut drawn: Vec<(u16, usize)> = picture
                .blocks()
                .filter_map(|block| block.of.filter(|of| of.side == side))
                .filter_map(|of| match of.what {
                    What::Record(number) => Some((of.kind, number)),
                    _ => None,
                })
                .collect();
            drawn.sort_unstable();
            let numbers = |file: &File| {
                (1..=file.records().len())
                    .map(|n| (file.kind, n))
                    .collect::<Vec<_>>()
            };
            let there: Vec<(u16, usize)> = card.files.iter().flat_map(numbers).collect();
            assert_eq!(drawn, there, "{name}");
        }
    }
}

#[test]
fn the_blocks_of_a_file_make_its_room_on_one_scale() {
    for (name, cards, picture) in pictures() {
        let mut bars: BTreeMap<(usize, u16), Vec<Area>> = BTreeMap::new();
        for block in picture.blocks() {
            if let Some(of) = block.of {
                bars.entry((of.side, of.kind)).or_default().push(block.area);
            }
        }
        let files: usize = cards.iter().map(|card| card.files.len()).sum();
        assert_eq!(bars.len(), files, "{name}");
        let mut scale = None;
        for ((side, kind), blocks) in &bars {
            let room = cards[*side].file(*kind).expect("a file").room as f64;
            let width: f64 = blocks.iter().map(|area| area.width).sum();
            let byte = *scale.get_or_insert(width / room);
            assert!((width - room * byte).abs() < 1e-6, "{name}: {kind:04X}");
            for pair in blocks.windows(2) {
                assert!(
                    (pair[0].right() - pair[1].x).abs() < 1e-6,
                    "{name}: {kind:04X}"
                );
                assert_eq!((pair[0].y, pair[0].height), (pair[1].y, pair[1].height));
            }
        }
    }
}

#[test]
fn a_move_joins_every_record() {
    for (name, cards, picture) in pictures() {
        let bands = picture
            .blocks()
            .filter(|block| block.class.ends_with(" band"))
            .count();
        // The legend has a band too.
        let legend = usize::from(cards.len() == 2 && cards[1].records() > 0);
        let written = |file: &&File| matches!(&file.content, Content::Biometrics { written, .. } if !written.is_empty());
        let joined = match &cards[..] {
            [before, after] => {
                assert_eq!(before.records(), after.records());
                before.records() + before.files.iter().filter(written).count()
            }
            _ => 0,
        };
        assert_eq!(bands, joined + legend, "{name}");
    }
}

#[test]
fn the_reader_sees_what_the_comparison_sees() {
    for (name, image) in cards::all() {
        let card = Card::read(&image).expect("a card");
        let rooms: Vec<(u16, usize, usize)> = view::rooms(&image)
            .iter()
            .map(|room| (room.kind, room.length, room.length - room.held))
            .collect();
        let files: Vec<(u16, usize, usize)> = card
            .files
            .iter()
            .map(|file| (file.kind, file.room, file.free()))
            .collect();
        assert_eq!(files, rooms, "{name}");
        let records: Vec<&[u8]> = card
            .files
            .iter()
            .flat_map(File::records)
            .map(Vec::as_slice)
            .collect();
        let view = view::View::new(&image, &[]);
        let seen: Vec<&[u8]> = view
            .files
            .iter()
            .flat_map(view::File::records)
            .map(|range| &image[range.clone()])
            .collect();
        assert_eq!(records, seen, "{name}");
        assert_eq!(card.length, image.len());
    }
}

#[test]
fn the_svg_has_every_shape() {
    for (name, _, picture) in pictures() {
        let svg = picture.svg();
        let count = |what: &str| svg.matches(what).count();
        // The page, and the two of the stripes.
        assert_eq!(count("<rect "), picture.blocks().count() + 3, "{name}");
        assert_eq!(count("<text "), picture.texts().count(), "{name}");
        assert_eq!(count("<text "), count("</text>"), "{name}");
        assert_eq!(count("<title>"), count("</title>"), "{name}");
        assert_eq!(
            count("<rect "),
            count("</rect>") + count("/>") - count("<line "),
            "{name}"
        );
        assert!(!svg.contains("NaN") && !svg.contains("inf"), "{name}");
    }
}

/// The bars of large files bear their sizes, and the small one beside them is drawn as well.
#[test]
fn large_files() {
    let card = Card::read(&cards::large()).expect("a card");
    let picture = page::card(&card);
    let words: Vec<&str> = picture.texts().map(|text| text.words.as_str()).collect();
    for wanted in ["131,072 bytes written", "65,537 bytes written", "100,000"] {
        assert!(words.contains(&wanted), "{wanted}: {words:?}");
    }
    let small = picture
        .blocks()
        .filter(|block| block.of.is_some_and(|of| of.kind == 0x0440));
    assert_eq!(small.count(), 3);
}

/// The card to try, and its move in `docs/MOVE.md`.
#[test]
fn the_pictures_in_the_documents_are_current() {
    let image = cards::to_try();
    let card = Card::read(&image).expect("a card");
    let rooms = [0x0101, 0x0102, 0x011A].map(|kind| (kind, 100));
    let mut target = [0; 318];
    let new = malquindo::move_card(&image, &rooms, &mut target).expect("a move");
    let moved = page::moved(&card, &Card::read(new).expect("a card"));
    for (name, picture) in [("card.svg", page::card(&card)), ("move.svg", moved)] {
        let docs = concat!(env!("CARGO_MANIFEST_DIR"), "/../../docs/");
        let there = std::fs::read_to_string(format!("{docs}{name}"));
        assert!(
            there.is_ok_and(|there| there == picture.svg()),
            "docs/{name} is not current: README.md and docs/MOVE.md say how it is drawn"
        );
    }
}
