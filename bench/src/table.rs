//! What is printed.
use std::collections::HashMap;
use std::fs;

use crate::measure::{Row, Who, ALL};

fn figure(value: Option<f64>, digits: usize) -> String {
    value.map_or_else(|| String::from("-"), |v| format!("{v:.digits$}"))
}

/// The worst ratio of a table, and the row that has it.
#[derive(Clone, Copy)]
struct Worst {
    ratio: f64,
    row: &'static str,
}

impl Worst {
    fn new() -> Worst {
        Worst { ratio: 0.0, row: "none" }
    }

    fn see(&mut self, ratio: Option<f64>, row: &'static str) {
        if let Some(ratio) = ratio.filter(|&ratio| ratio > self.ratio) {
            *self = Worst { ratio, row };
        }
    }
}

/// The worst ratios of a table, to each that we are held to.
struct Worsts {
    floor: Worst,
    memcpy: Worst,
    /// To the best peer. A row without a peer does not count.
    peer: Worst,
}

/// Prints a table of one number for each row and contestant, with the ratios; gives the worst of them.
fn table(rows: &[&Row], unit: &str, digits: usize, number: impl Fn(&Row, Who) -> Option<f64>) -> Worsts {
    print!("{:<28}", unit);
    for (_, name) in ALL {
        print!("{name:>11}");
    }
    println!("{:>10}{:>10}", "to floor", "to peer");
    let mut worst = Worsts { floor: Worst::new(), memcpy: Worst::new(), peer: Worst::new() };
    for &row in rows {
        if row.copying && worst.memcpy.ratio == 0.0 {
            println!("(the floor of the next rows is memcpy)");
        }
        print!("{:<28}", row.name);
        for (who, _) in ALL {
            print!("{:>11}", figure(number(row, who), digits));
        }
        let ours = number(row, Who::Ours);
        let ratio = |other: Option<f64>| ours.zip(other).map(|(a, b)| a / b);
        let to_floor = ratio(number(row, Who::Floor));
        let peers = [Who::Nfsserve, Who::Libtirpc, Who::Libnfs];
        let to_peer = ratio(peers.iter().filter_map(|&who| number(row, who)).reduce(f64::min));
        println!("{:>10}{:>10}", figure(to_floor, 2), figure(to_peer, 2));
        let mark = if row.copying { &mut worst.memcpy } else { &mut worst.floor };
        mark.see(to_floor, row.name);
        worst.peer.see(to_peer, row.name);
    }
    worst
}

/// What a byte of each list takes.
fn by_the_byte(rows: &[Row]) {
    let lists: Vec<&Row> = rows.iter().filter(|row| row.bytes.is_some()).collect();
    let number = |row: &Row, who| row.best(who).zip(row.bytes).map(|(time, bytes)| time / bytes as f64);
    table(&lists, "ns a byte", 3, number);
    for (who, name) in ALL {
        let grown = |pair: &[&Row]| number(pair[1], who).zip(number(pair[0], who)).map(|(long, short)| long / short);
        let grown: Vec<f64> = lists.chunks(2).filter_map(grown).collect();
        let (Some(least), Some(most)) = (grown.iter().copied().reduce(f64::min), grown.iter().copied().reduce(f64::max))
        else {
            continue;
        };
        println!("a byte of a list eight times as long, {name}: {least:.2} to {most:.2} of the time");
    }
}

/// The rows that are not only told by the byte.
fn told(rows: &[Row]) -> Vec<&Row> {
    rows.iter().filter(|row| !row.shorter).collect()
}

pub fn times(rows: &[Row]) {
    let worst = table(&told(rows), "ns, best of many", 1, Row::best);
    println!();
    by_the_byte(rows);
    println!();
    println!("worst rows: {} (to the floor), {} (to the best peer)", worst.floor.row, worst.peer.row);
    println!("worst ratio to memcpy: {:.2}", worst.memcpy.ratio);
    println!("worst ratio to the C floor: {:.2}", worst.floor.ratio);
    println!("worst ratio to the best peer: {:.2}", worst.peer.ratio);
}

/// The counts that callgrind left in the folder, one file for each mark.
pub fn instructions(rows: &[Row], folder: &str) {
    let mut counts = HashMap::new();
    for entry in fs::read_dir(folder).unwrap_or_else(|e| panic!("{folder}: {e}")) {
        let text = fs::read_to_string(entry.expect("the folder can be listed").path()).expect("a count can be read");
        let after = |start: &str| text.lines().find_map(|line| line.strip_prefix(start)).map(str::trim);
        let Some(name) = after("desc: Trigger: Client Request:") else { continue };
        let [row, who, times] = name.split('|').collect::<Vec<_>>()[..] else { continue };
        let total: f64 = after("totals:").and_then(|n| n.parse().ok()).expect("a count has its total");
        let times: f64 = times.parse().expect("a mark says how many times");
        counts.insert((row.to_owned(), who.parse::<u32>().expect("a mark says who")), total / times);
    }
    assert!(!counts.is_empty(), "callgrind left no counts in {folder}");
    table(&told(rows), "instructions", 0, |row, who| counts.get(&(row.name.to_owned(), who as u32)).copied());
}
