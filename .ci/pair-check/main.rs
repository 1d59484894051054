// Every door, with every pair of faults at once: the first in the order of docs/REFUSALS.md must be given, and nothing written.
//
//   pairs PAGE [FOLDER]    PAGE is docs/REFUSALS.md. In FOLDER what the programs are to be asked, and what they owe
//
// A row for each door, and one for each pair of causes that can't stand in one input, with the reason. The status is 1 if any answer is wrong.
mod causes;
#[path = "../../include/chess_scores.rs"]
mod chess_scores;
mod doors;
mod input;
mod owed;
mod page;

use causes::Cause;
use doors::Door;
use input::Input;
use page::Page;
use std::process::ExitCode;

/// The ledger's own numbers, after the order of the page: too many lines, then too little room.
const OWN: [(&str, u8); 2] = [("LEDGER_MANY", 255), ("LEDGER_FULL", 254)];

/// A cause that can't stand in one input with those of later refusals, which, and why.
const APART: [(&str, &[&str], &str); 3] = [
    (causes::THREE_FIELDS, &["COUNTER"], "three fields have no counters"),
    (causes::NO_RECORD, &["CODE", "SIDE", "RESULT"], "a record that is not there has no bytes"),
    (causes::SHORT_PIECE, &["RESULT"], "it has no half points"),
];

/// Why a cause can't stand in one input with one of a later refusal, if it can't.
fn apart(a: &Cause, b: &Cause) -> Option<&'static str> {
    let listed = |(text, others, _): &&(&str, &[&str], &str)| a.text == *text && others.contains(&b.refusal);
    APART.iter().find(listed).map(|(_, _, why)| *why)
}

fn made(base: &Input, causes: &[&Cause]) -> Input {
    let mut input = base.clone();
    causes.iter().for_each(|cause| (cause.make)(&mut input));
    input
}

/// An order, and where in it the refusal of a cause stands.
struct Order(Vec<String>);

impl Order {
    fn of(page: &Page, door: &Door) -> Order {
        let mut order = page.order(door.order);
        order.extend(OWN.iter().filter(|(own, _)| door.causes.iter().any(|cause| cause.refusal == *own)).map(|(own, _)| own.to_string()));
        Order(order)
    }

    fn place(&self, cause: &Cause) -> Option<usize> {
        self.0.iter().enumerate().filter(|(_, name)| *name == cause.refusal).map(|(place, _)| place).nth(cause.place)
    }

    /// Names that no cause has, and causes that stand nowhere in the order.
    fn lacks(&self, causes: &[Cause]) -> Vec<String> {
        let unmet = causes.iter().filter(|cause| self.place(cause).is_none()).map(|cause| format!("{} is not in its order", cause.refusal));
        let uncaused = (0..self.0.len()).filter(|&place| !causes.iter().any(|cause| self.place(cause) == Some(place)));
        unmet.chain(uncaused.map(|place| format!("nothing causes its {}", self.0[place]))).collect()
    }
}

struct Tried {
    pairs: usize,
    apart: Vec<String>,
    wrong: Vec<String>,
}

fn number(page: &Page, refusal: &str) -> u8 {
    OWN.iter().find(|(own, _)| *own == refusal).map_or_else(|| page.number(refusal), |(_, number)| *number)
}

/// What a door says of an input, as a number and a square; a refusal must leave all as it was.
fn asked(door: &Door, input: &Input) -> (u8, u8) {
    let mut lent = input.clone();
    let code = (door.ask)(&mut lent);
    assert!(code.number == 0 || lent == *input, "{} wrote before it refused {}", door.name, code.number);
    (code.number, code.square)
}

/// Both faults in one input: they do stand there if neither changes what the other made. None, where that can't be, and why.
fn together(base: &Input, a: &Cause, b: &Cause) -> Result<Input, Option<&'static str>> {
    let [one, other, both, turned] = [&[a][..], &[b], &[a, b], &[b, a]].map(|causes| made(base, causes));
    match apart(a, b) {
        None if both == turned && both != one && both != other => Ok(both),
        why => Err(why),
    }
}

fn named(a: &Cause, b: &Cause) -> String {
    format!("{} ({}) and {} ({})", a.text, a.refusal, b.text, b.refusal)
}

fn parted(a: &Cause, b: &Cause, why: &str) -> String {
    format!("  not together: {} ({}) and {}: {why}", a.text, a.refusal, b.refusal)
}

fn try_pair(page: &Page, door: &Door, base: &Input, [a, b]: [&Cause; 2], tried: &mut Tried) {
    let text = named(a, b);
    let both = match together(base, a, b) {
        Ok(both) => both,
        Err(Some(why)) => return tried.apart.push(parted(a, b, why)),
        Err(None) => return tried.wrong.push(format!("{text} can't stand in one input, and no reason is given")),
    };
    let (said, owed) = (asked(door, &both), asked(door, &made(base, &[a])));
    tried.pairs += 1;
    if said != owed || said.0 != number(page, a.refusal) {
        tried.wrong.push(format!("{text}: {} is the first in order, with {}; given is {} with {}", a.refusal, owed.1, said.0, said.1));
    }
}

fn try_door(page: &Page, door: &Door) -> Tried {
    let (order, mut base) = (Order::of(page, door), Input::good());
    (door.base)(&mut base);
    let mut tried = Tried { pairs: 0, apart: Vec::new(), wrong: order.lacks(&door.causes) };
    if !tried.wrong.is_empty() {
        return tried;
    }
    if asked(door, &base).0 != 0 {
        tried.wrong.push("the good input is refused".to_string());
    }
    for cause in &door.causes {
        let said = asked(door, &made(&base, &[cause]));
        if said.0 != number(page, cause.refusal) {
            tried.wrong.push(format!("{} alone is {}, given is {}", cause.text, cause.refusal, said.0));
        }
    }
    for a in &door.causes {
        for b in door.causes.iter().filter(|b| order.place(a) < order.place(b)) {
            try_pair(page, door, &base, [a, b], &mut tried);
        }
    }
    tried.apart.dedup();
    try_all(page, door, &base, &order, &mut tried);
    tried
}

/// A fault of each refusal at once, and then without the first, without the first two, and so on: each in its turn is given.
fn try_all(page: &Page, door: &Door, base: &Input, order: &Order, tried: &mut Tried) {
    let mut chosen: Vec<&Cause> = Vec::new();
    for place in (0..order.0.len()).rev() {
        let stands = |cause: &&Cause| order.place(cause) == Some(place) && chosen.iter().all(|later| together(base, cause, later).is_ok());
        chosen.extend(door.causes.iter().find(stands));
        let said = asked(door, &made(base, &chosen)).0;
        if chosen.len() != order.0.len() - place || said != number(page, &order.0[place]) {
            tried.wrong.push(format!("{} and a fault of each refusal after it: given is {said}", order.0[place]));
        }
    }
}

fn main() -> ExitCode {
    let words: Vec<String> = std::env::args().skip(1).collect();
    let page = Page::read(&std::fs::read_to_string(&words[0]).expect("the page"));
    let (doors, mut pairs, mut wrong) = (doors::all(), 0, 0);
    for name in page.doors().filter(|name| !doors.iter().any(|door| door.order == *name)) {
        println!("WRONG: {name} is not asked");
        wrong += 1;
    }
    for door in &doors {
        let tried = try_door(&page, door);
        let refusals = Order::of(&page, door).0.len();
        println!("{}: {} refusals, {} causes, {} pairs", door.name, refusals, door.causes.len(), tried.pairs);
        tried.apart.iter().for_each(|text| println!("{text}"));
        tried.wrong.iter().for_each(|text| println!("  WRONG: {text}"));
        (pairs, wrong) = (pairs + tried.pairs, wrong + tried.wrong.len());
    }
    println!("pairs: {pairs} of {} doors, {wrong} wrong", doors.len());
    if let Some(folder) = words.get(1) {
        owed::write(&page, folder).expect("files for the programs");
    }
    if wrong == 0 {
        ExitCode::SUCCESS
    } else {
        ExitCode::FAILURE
    }
}
