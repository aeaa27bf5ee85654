//! What a comparison was about, counted.
use corrections::generate::FAMILIES;
use corrections::list::List;
use corrections::reading::{self, Answer, Corrections};
use std::collections::BTreeMap;

#[derive(Default)]
pub struct Counts {
    families: BTreeMap<usize, usize>,
    /// by number, 0 for places
    lists: BTreeMap<u8, usize>,
    calls: BTreeMap<u8, usize>,
    frames: usize,
    long: usize,
    empty: usize,
    sails: usize,
    corrections: Corrections,
    tied: usize,
    permuted: usize,
}

impl Counts {
    pub fn list(&mut self, family: usize, list: &List, answer: &Answer) {
        *self.families.entry(family).or_default() += 1;
        *self.lists.entry(number(answer)).or_default() += 1;
        self.frames += list.ends.len();
        self.long += usize::from(list.ends.len() > 100);
        self.empty += usize::from(list.ends.is_empty());
        if let Ok(places) = answer {
            self.sails += places.len();
            let finishes = reading::finishes(list).unwrap();
            let more = reading::corrections(&finishes);
            self.corrections.greater += more.greater;
            self.corrections.equal += more.equal;
            self.corrections.lesser += more.lesser;
            self.tied += usize::from(reading::is_tied(&finishes, places));
        }
    }

    /// A call that had to answer this.
    pub fn call(&mut self, answer: &Answer) {
        *self.calls.entry(number(answer)).or_default() += 1;
    }

    pub fn permuted(&mut self) {
        self.permuted += 1;
    }

    pub fn calls(&self) -> usize {
        self.calls.values().sum()
    }

    pub fn print(&self) {
        println!("{:<28}{:>10}", "family", "lists");
        for (family, lists) in &self.families {
            println!("{:<28}{lists:>10}", FAMILIES[*family].name);
        }
        println!("\n{:<28}{:>10}{:>10}", "answer", "lists", "calls");
        for (number, calls) in &self.calls {
            let lists = self.lists.get(number).unwrap_or(&0);
            let name = if *number == 0 { "places".into() } else { number.to_string() };
            println!("{name:<28}{lists:>10}{calls:>10}");
        }
        println!("\n{} lists of more than 100 frames, {} without any", self.long, self.empty);
        println!("{} frames; {} sails listed", self.frames, self.sails);
        let Corrections { greater, equal, lesser } = self.corrections;
        println!(
            "of the finishes behind the first of their sail {greater} had a greater number than the one \
             that was current, {equal} an equal one, {lesser} a lesser one"
        );
        println!("{} lists in which a finish is current because it is the later of equal ones", self.tied);
        println!("{} lists permuted", self.permuted);
    }
}

fn number(answer: &Answer) -> u8 {
    answer.as_ref().err().copied().unwrap_or(0)
}
