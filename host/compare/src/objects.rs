//! Data objects for a command's data field, now and then one of them odd. The objects around it
//! still have the lengths that fit, so that only the odd one itself can be what is refused.

use crate::make;
use crate::random::Random;

pub struct Objects<'a> {
    random: &'a mut Random,
    /// How many objects are made before the odd one; none is odd where they are fewer.
    before_odd: Option<usize>,
}

impl<'a> Objects<'a> {
    /// For a data field of so many objects.
    pub fn new(random: &'a mut Random, count: usize) -> Self {
        let before_odd = random.one_in(9).then(|| random.below(count));
        Self { random, before_odd }
    }

    pub fn object(&mut self, tag: &[u8], value: &[u8]) -> Vec<u8> {
        match self.before_odd {
            Some(0) => {
                self.before_odd = None;
                self.odd(tag, value)
            }
            Some(n) => {
                self.before_odd = Some(n - 1);
                make::object(tag, value)
            }
            None => make::object(tag, value),
        }
    }

    fn odd(&mut self, tag: &[u8], value: &[u8]) -> Vec<u8> {
        let right = make::object(tag, value);
        let [high, low] = (value.len() as u16).to_be_bytes();
        let with_length = |length: &[u8]| [tag, length, value].concat();
        match self.random.below(11) {
            0 => with_length(&[0x81, low]),
            1 => with_length(&[0x82, high, low]),
            2 => with_length(&[0x83, 0, high, low]),
            3 => [tag, &[0x80], value, &[0, 0]].concat(),
            4 => with_length(&[low.wrapping_add(1)]),
            5 => with_length(&[low.wrapping_sub(1)]),
            6 => vec![],
            7 => [right.clone(), right].concat(),
            8 => [right, make::object(&[0x80], &[])].concat(),
            9 => make::object(tag, &[value, &[0]].concat()),
            _ => {
                let mut tag = tag.to_vec();
                tag[0] ^= 1 << self.random.below(8);
                make::object(&tag, value)
            }
        }
    }
}
