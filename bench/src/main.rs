//! The proved store beside the plain one: times, or with `stack` the stack.

use store_bench::calls::{Call, Function, Lent, Stores, NOTHING_FOUND, STORES_1, STORES_2};
use store_bench::deepest::{deep_trees, deepest_of_edition_2, DeepTree};
use store_bench::measure::{
    edition_times, measure, page_times, page_to_check, page_to_page, visit_times, visit_to_check,
};
use store_bench::plain::layout::MOST_SLOTS;
use store_bench::plain::{Edition, One, Two};
use store_bench::stack::bytes_used;
use store_bench::workload::{page_starts, visit, wide, workload, Fill, Workload, FRAMES, WIDTHS};

fn main() {
    let arguments: Vec<String> = std::env::args().skip(1).collect();
    match arguments.iter().map(String::as_str).collect::<Vec<_>>()[..] {
        [] => times::<One>(&STORES_1),
        ["wide"] => wide_times::<One>(&STORES_1),
        ["edition2"] => times::<Two>(&STORES_2),
        ["edition2", "wide"] => wide_times::<Two>(&STORES_2),
        ["editions"] => editions(),
        ["pages"] => pages(),
        ["visit"] => visits(),
        ["stack"] => stacks(),
        _ => {
            eprintln!("no argument: times; `wide`: those of trees of wide nodes; `edition2`, `edition2 wide`: the same in edition 2; `editions`: those of edition 2 beside edition 1; `pages`: those of a listing; `visit`: those of many changes; `stack`: the stack that each call uses");
            std::process::exit(2);
        }
    }
}

fn times<E: Edition>(stores: &Stores) {
    times_head("fill");
    for (f, n) in FRAMES {
        for fill in Fill::ALL {
            times_of(stores, &workload::<E>(f, n, fill), fill.name());
        }
    }
}

fn wide_times<E: Edition>(stores: &Stores) {
    times_head("width");
    for width in WIDTHS {
        times_of(stores, &wide::<E>(width), &width.to_string());
    }
}

fn times_head(what: &str) {
    println!(
        "{:<22} {:>7} {:<7} {:>6} {:>10} {:>10} {:>6} {:>10} {:>11}",
        "call", "F", what, "slots", "ns plain", "ns proved", "ratio", "plain/slot", "proved/slot"
    );
}

fn times_of(stores: &Stores, workload: &Workload, what: &str) {
    let slots = workload.slots();
    for task in &workload.tasks {
        let measured = measure(stores, workload, task);
        println!(
            "{:<22} {:>7} {:<7} {:>6} {:>10.0} {:>10.0} {:>6.2} {:>10.1} {:>11.1}",
            task.name,
            workload.frame.len(),
            what,
            slots,
            measured.plain,
            measured.proved,
            measured.ratio,
            measured.plain / slots as f64,
            measured.proved / slots as f64,
        );
    }
}

/// The calls of edition 2 beside those of edition 1, on the same frames.
fn editions() {
    println!(
        "{:<22} {:>7} {:<7} {:>6} {:>12} {:>12} {:>6}",
        "call", "F", "fill", "slots", "ns edition 1", "ns edition 2", "ratio"
    );
    for (f, n) in FRAMES {
        for fill in Fill::ALL {
            editions_of(&workload::<One>(f, n, fill), fill.name());
        }
    }
    for width in WIDTHS {
        editions_of(&wide::<One>(width), &format!("wide {width}"));
    }
}

fn editions_of(workload: &Workload, what: &str) {
    for task in &workload.tasks {
        let [one, two, ratio] = edition_times(workload, task);
        println!(
            "{:<22} {:>7} {:<7} {:>6} {:>12.0} {:>12.0} {:>6.2}",
            task.name,
            workload.frame.len(),
            what,
            workload.slots(),
            one,
            two,
            ratio,
        );
    }
}

/// Pages of names in a full frame of the longest length, beside a check of it.
fn pages() {
    let (frame, starts) = page_starts();
    println!(
        "{:<12} {:>6} {:>10} {:>10} {:>6} {:>14}",
        "page", "names", "ns plain", "ns proved", "ratio", "proved / check"
    );
    for (name, start) in ["first", "middle", "last"].into_iter().zip(&starts) {
        let (count, [plain, proved, ratio]) = page_times(&frame, start);
        let [_, _, to_check] = page_to_check(&frame, start);
        println!(
            "{name:<12} {count:>6} {plain:>10.0} {proved:>10.0} {ratio:>6.2} {to_check:>14.2}"
        );
    }
    let [first, _, last] = &starts;
    let [_, _, ratio] = page_to_page(&frame, first, last);
    println!("the last page takes {ratio:.2} of the first one's time");
}

/// A visit's changes in a full frame of the longest length, one by one and in
/// one batch.
fn visits() {
    let (frame, changes) = visit();
    let [singly, at_once, ratio] = visit_times(&frame, &changes);
    let [_, _, to_check] = visit_to_check(&frame, &changes);
    println!("{} changes: {singly:.0} ns one by one, {at_once:.0} ns in a batch", changes.len());
    println!(
        "the batch takes {ratio:.3} of the single calls' time, and that of {to_check:.2} checks"
    );
}

fn stacks() {
    println!("{:<16} {:<8} {:>12} {:>12}", "way through", "call", "bytes plain", "bytes proved");
    deep_trees().iter().for_each(|tree| stacks_of(&STORES_1, tree));
    stacks_of(&STORES_2, &deepest_of_edition_2());
}

fn stacks_of(stores: &Stores, tree: &DeepTree) {
    for call in Call::ALL {
        let (number, plain_bytes) = stack_of(tree, call, (stores.plain)(call));
        let (proved_number, proved_bytes) = stack_of(tree, call, (stores.proved)(call));
        assert_eq!(proved_number, number, "{} answers differ", call.name());
        let call = call.name();
        println!("{:<16} {call:<8} {plain_bytes:>12} {proved_bytes:>12}", tree.name);
    }
}

/// The number of a call on a copy of the tree's frame, and the bytes of stack it used.
fn stack_of(tree: &DeepTree, call: Call, function: Function) -> (u32, usize) {
    let (mut frame, mut out) = (tree.frame.clone(), vec![0; tree.frame.len()]);
    bytes_used(function, &mut lent(tree, call, &mut frame, &mut out))
}

/// The deepest key, except for put, which adds a new one beside it.
fn lent<'a>(tree: &'a DeepTree, call: Call, frame: &'a mut [u8], out: &'a mut [u8]) -> Lent<'a> {
    let key = if call == Call::Put { &tree.absent } else { &tree.present };
    Lent { frame, out, key, value: b"", n: MOST_SLOTS, found: NOTHING_FOUND }
}
