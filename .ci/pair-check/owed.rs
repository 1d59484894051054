// What the programs are asked, with every fault alone and every pair of faults, and the rows that they owe: NAME.asked and NAME.owed.
use crate::causes::{Cause, CAPTURE, LINE, PIECE_READ, QUESTION, REAL_PLAY, RECORD};
use crate::input::Input;
use crate::page::Page;
use crate::{made, parted, together, Order};
use std::{fs, io, path::Path};

/// An input, and the number that it is refused by.
type Faulty = (Input, u8);

fn faulty(page: &Page, call: &str, base: &Input, causes: &[&[Cause]]) -> Vec<Faulty> {
    let (order, causes) = (Order(page.order(call)), causes.concat());
    assert_eq!(order.lacks(&causes), [""; 0], "{call}");
    let (mut all, mut apart) = (Vec::new(), Vec::new());
    for a in &causes {
        all.push((made(base, &[a]), page.number(a.refusal)));
        for b in causes.iter().filter(|b| order.place(a) < order.place(b)) {
            match together(base, a, b) {
                Ok(both) => all.push((both, page.number(a.refusal))),
                Err(why) => apart.push(parted(a, b, why.expect("a reason"))),
            }
        }
    }
    println!("{call}: {} refusals, {} causes, {} pairs", order.0.len(), causes.len(), all.len() - causes.len());
    apart.dedup();
    apart.iter().for_each(|text| println!("{text}"));
    all
}

fn put(folder: &Path, name: &str, asked: &[u8], numbers: &[u8], taken: &str) -> io::Result<()> {
    let rows: Vec<String> = numbers.iter().enumerate().map(|(place, number)| format!("{} refused {number}\n", place + 1)).collect();
    fs::write(folder.join(format!("{name}.asked")), asked)?;
    fs::write(folder.join(format!("{name}.owed")), format!("{}lines {} {taken} 0 refused {}\n", rows.concat(), rows.len(), rows.len()))
}

fn put_lines(folder: &Path, name: &str, faulty: &[Faulty], taken: &str) -> io::Result<()> {
    let lines: Vec<Vec<u8>> = faulty.iter().map(|(input, _)| [input.line(), b"\n".to_vec()].concat()).collect();
    let numbers: Vec<u8> = faulty.iter().map(|(_, number)| *number).collect();
    put(folder, name, &lines.concat(), &numbers, taken)
}

/// A short piece is a store's last: each has a store of its own.
fn put_stores(folder: &Path, faulty: &[Faulty]) -> io::Result<()> {
    let (whole, short): (Vec<&Faulty>, Vec<&Faulty>) = faulty.iter().partition(|(input, _)| input.run.len() == 34);
    let run: Vec<u8> = whole.iter().flat_map(|(input, _)| input.run.clone()).collect();
    put(folder, "store", &run, &whole.iter().map(|(_, number)| *number).collect::<Vec<_>>(), "loaded")?;
    short.iter().enumerate().try_for_each(|(place, (input, number))| put(folder, &format!("store.{place}"), &input.run, &[*number], "loaded"))
}

pub fn write(page: &Page, folder: &str) -> io::Result<()> {
    let (folder, good) = (Path::new(folder), Input::good());
    let (mut question, mut record) = (good.clone(), good.clone());
    question.text.question = Some(["f3e5", "pnbrqk"]);
    record.run.truncate(34);
    put_lines(folder, "ledger", &faulty(page, "line by value", &good, &[LINE]), "loaded")?;
    put_lines(folder, "real-play", &faulty(page, "line by value from real play", &good, &[LINE, REAL_PLAY]), "loaded")?;
    put_lines(folder, "captures", &faulty(page, "question", &question, &[LINE, QUESTION, CAPTURE]), "told")?;
    put_stores(folder, &faulty(page, "record by value", &record, &[PIECE_READ, RECORD]))
}
