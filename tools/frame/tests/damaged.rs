//! Damaged images: the verdict is the proved check's, and what is told is the rule that was broken, with its slot and bytes.

mod support;

use second_store::check::{check_before, read, Rule};
use second_store::damage::{all, undamaged, Aim};
use second_store::layout::{number, Edition};
use second_store::random::Random;
use second_store::unused::soiled;
use support::Folder;

/// Of the images that the tool takes.
const EDITION: Edition = Edition::One;

/// What is said of an image that was good by the old rule.
const HINT: &str =
    "it was good before freed bytes were wiped: `frame pack --before i i` packs it once";

#[test]
fn every_damage_is_told() {
    let folder = Folder::new("damaged");
    for damage in all(EDITION) {
        folder.write("i", &damage.bytes);
        let ran = folder.frame(&["check", "i"]);
        assert_eq!((ran.status, ran.err.as_str()), (Some(1), ""), "{}", damage.name);
        let (verdict, why) = ran.text().split_once('\n').expect("two lines or more");
        assert_eq!(verdict, format!("i: not a good frame (answer {})", damage.number()));
        let rule = match damage.aim {
            Aim::Lengths => "F is ",
            Aim::Alone(rule) | Aim::Among(rule) => rule.sentence(EDITION),
            Aim::Stamp(_) => panic!("{}: edition 1 has no stamps", damage.name),
        };
        let told = why.lines().any(|line| line.starts_with(&format!("  {rule}")));
        assert!(told, "{}: {rule}\n{why}", damage.name);
        assert!(why.lines().all(|line| line.contains("byte")), "{why}");
        let hinted = why.lines().filter(|line| *line == HINT).count();
        let before = check_before(EDITION, &damage.bytes) == number::DONE;
        assert_eq!(hinted, usize::from(before), "{}: {why}", damage.name);
        if let Aim::Alone(_) = damage.aim {
            assert_eq!(why.lines().count(), 1 + hinted, "{}: {why}", damage.name);
        }
    }
    for frame in undamaged(EDITION) {
        folder.write("i", frame);
        folder.frame(&["check", "i"]).done("i: a good frame\n");
    }
}

#[test]
fn an_image_from_before_is_moved_over() {
    let folder = Folder::new("before");
    folder.image("good", 2048, 32, "a=1\nab=22\nb=3\n");
    folder.frame(&["replace", "good", "ab", "2"]).done("");
    let good = folder.read("good");
    let reading = read(EDITION, &good).expect("the lengths agree");
    let old = soiled(&mut Random::new(1), &good, &reading, &Rule::WIPED);
    folder.write("i", &old);
    for words in [
        &["info", "i"][..],
        &["list", "i"],
        &["get", "i", "a"],
        &["put", "i", "c", "1"],
        &["replace", "i", "a", "1"],
        &["erase", "i", "a"],
        &["batch", "i", "/dev/null"],
        &["pack", "i", "i"],
        &["diff", "i", "good"],
        &["draw", "i"],
        &["export", "i"],
        &["import", "i", "/dev/null"],
    ] {
        folder.frame(words).stopped(HINT);
        assert_eq!(folder.read("i"), old, "{words:?}");
    }
    folder.frame(&["pack", "--before", "i", "moved"]).done("");
    assert_eq!(folder.read("i"), old);
    folder.frame(&["pack", "--before", "i", "i"]).done("");
    folder.frame(&["check", "i"]).done("i: a good frame\n");
    folder.frame(&["export", "i"]).done("a=1\nab=2\nb=3\n");
    folder.frame(&["pack", "good", "packed"]).done("");
    folder.frame(&["pack", "--before", "good", "good"]).done("");
    for image in ["i", "moved", "good"] {
        assert_eq!(folder.read(image), folder.read("packed"), "{image}");
    }
    folder.write("i", "no frame");
    folder.frame(&["pack", "--before", "i", "i"]).stopped("i: not a good frame (answer 1)");
    assert_eq!(folder.read("i"), b"no frame");
}
