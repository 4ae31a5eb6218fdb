//! The plain store held to everything that any store is held to: all answers,
//! all frames after a call and all packed bytes, against the second store.

use second_store::compare::{Calls, Comparer};
use second_store::layout::{Edition, INFO_NUMBERS};
use second_store::run::{all_stages, Effort};
use second_store::value::Given;
use second_store::{batch, history, names, store};
use std::marker::PhantomData;
use store_bench::plain::{self, One, Two};

/// The plain store in one edition.
struct Plain<E>(PhantomData<E>);

impl<E: plain::Edition> Plain<E> {
    const NEW: Plain<E> = Plain(PhantomData);
}

impl<E: plain::Edition> Calls for Plain<E> {
    fn edition(&self) -> Edition {
        let of_number = |edition: &Edition| edition.number() == E::NUMBER;
        Edition::ALL.into_iter().find(of_number).expect("an edition of the documents")
    }
    fn format(&self, frame: &mut [u8], f: usize, n: usize) -> u32 {
        plain::format::<E>(frame, f, n)
    }
    fn check(&self, frame: &[u8]) -> u32 {
        plain::check::<E>(frame)
    }
    fn look_up(&self, frame: &[u8], key: &[u8]) -> store::Found {
        let (number, [place, length, slots, stamp]) = plain::look_up::<E>(frame, key);
        store::Found { number, place, length, slots, stamp }
    }
    fn put(&self, frame: &mut [u8], key: &[u8], value: Given) -> u32 {
        plain::put::<E>(frame, key, value.bytes, value.stamp)
    }
    fn replace(&self, frame: &mut [u8], key: &[u8], value: Given) -> u32 {
        plain::replace::<E>(frame, key, value.bytes, value.stamp)
    }
    fn erase(&self, frame: &mut [u8], key: &[u8]) -> u32 {
        plain::erase::<E>(frame, key)
    }
    fn list(&self, frame: &[u8], asked: &names::Asked, buffer: &mut [u8]) -> names::Page {
        let names::Asked { prefix, start, delimiter } = *asked;
        let asked = plain::Asked { prefix, start, delimiter };
        let (number, [count, more]) = plain::list::<E>(frame, &asked, buffer);
        names::Page { number, count, more }
    }
    fn pack(&self, frame: &[u8], out: &mut [u8]) -> u32 {
        plain::pack::<E>(frame, out)
    }
    fn pack_before(&self, frame: &[u8], out: &mut [u8]) -> u32 {
        plain::pack_before(frame, out)
    }
    /// It has none of its own.
    fn batch(
        &self,
        frame: &mut [u8],
        second: &mut [u8],
        batch: &[u8],
        answers: &mut [u8],
    ) -> (u32, u64) {
        batch::apply(self.edition(), frame, second, batch, answers)
    }
    /// Nor this one.
    fn info(&self, frame: &[u8]) -> (u32, [u64; INFO_NUMBERS]) {
        store::info(self.edition(), frame)
    }
}

fn agrees_and_reaches_every_case(plain: &dyn Calls) {
    let effort = Effort::from_environment();
    let tally = all_stages(plain, effort).unwrap_or_else(|told| panic!("{told}"));
    let missed = tally.never_reached(plain.edition());
    assert!(missed.is_empty(), "{effort:?} never reaches {missed:#?}");
}

#[test]
fn plain_calls_agree_and_reach_every_case() {
    agrees_and_reaches_every_case(&Plain::<One>::NEW);
}

#[test]
fn plain_calls_of_edition_2_agree_and_reach_every_case() {
    agrees_and_reaches_every_case(&Plain::<Two>::NEW);
}

#[test]
fn plain_check_agrees_on_single_bytes() {
    for plain in [&Plain::<One>::NEW as &dyn Calls, &Plain::<Two>::NEW] {
        let frames = history::small_frames(plain.edition());
        history::single_bytes(&mut Comparer::new(plain), &frames)
            .unwrap_or_else(|told| panic!("{told}"));
    }
}
