//! The peer of `bench book`: the same calls on the `HashMap`s of std, beside a journal. As the book, it keeps a position for each
//! key, the positions under each subgraph, type and tag, and the last invalidation of each target while a fetch is under way.
use std::collections::{HashMap, HashSet};
use std::time::Instant;

#[derive(Clone, PartialEq, Eq, Hash)]
struct Key {
    sub: String,
    type_name: String,
    rep: String,
    sel: String,
}

#[derive(Clone, PartialEq, Eq, Hash)]
enum Target {
    Subgraph(String),
    OfType(String, String),
    Tag(String, String),
}

#[allow(dead_code)]
enum Event {
    Lookup(Key, u64, Option<usize>),
    Start(Key, u64),
    Settle { start: usize, value: Option<String>, tags: Vec<String>, lifetime: u64 },
    Invalidate(Target, u64),
}

#[derive(Default)]
struct Book {
    journal: Vec<Event>,
    keys: HashMap<Key, usize>,
    under: HashMap<Target, HashSet<usize>>,
    stamps: HashMap<Target, usize>,
    open: usize,
    bytes: usize,
}

fn targets(key: &Key, tags: &[String]) -> Vec<Target> {
    let mut all = vec![Target::Subgraph(key.sub.clone()), Target::OfType(key.sub.clone(), key.type_name.clone())];
    all.extend(tags.iter().map(|tag| Target::Tag(key.sub.clone(), tag.clone())));
    all
}

impl Book {
    /// The value that is kept and fresh, or the position of the Start of a fetch.
    fn look(&mut self, key: Key, now: u64) -> Result<String, usize> {
        let hit = self.keys.get(&key).copied();
        if let Some(at) = hit {
            if let Event::Settle { start, value: Some(value), lifetime, .. } = &self.journal[at] {
                if let Event::Start(_, since) = &self.journal[*start] {
                    if now - since < lifetime * 1000 {
                        let value = value.clone();
                        self.journal.push(Event::Lookup(key, now, hit));
                        return Ok(value);
                    }
                }
            }
        }
        self.journal.push(Event::Lookup(key.clone(), now, None));
        self.journal.push(Event::Start(key, now));
        self.open += 1;
        Err(self.journal.len() - 1)
    }

    fn settle(&mut self, start: usize, value: String, tags: Vec<String>, lifetime: u64) {
        let Event::Start(key, _) = &self.journal[start] else { return };
        let key = key.clone();
        let all = targets(&key, &tags);
        let late = all.iter().any(|target| self.stamps.get(target).is_some_and(|at| *at > start));
        self.open -= 1;
        if self.open == 0 {
            self.stamps.clear();
        }
        let at = self.journal.len();
        if late {
            self.journal.push(Event::Settle { start, value: None, tags, lifetime });
            return;
        }
        for target in all {
            self.under.entry(target).or_default().insert(at);
        }
        if let Some(before) = self.keys.insert(key, at) {
            self.forget(before);
        }
        self.bytes += value.len();
        self.journal.push(Event::Settle { start, value: Some(value), tags, lifetime });
    }

    fn forget(&mut self, at: usize) {
        let Event::Settle { start, tags, .. } = &self.journal[at] else { return };
        let Event::Start(key, _) = &self.journal[*start] else { return };
        for target in targets(key, tags) {
            if let Some(set) = self.under.get_mut(&target) {
                set.remove(&at);
            }
        }
    }

    fn invalidate(&mut self, target: Target) -> usize {
        let covered: Vec<usize> = self.under.get(&target).map(|set| set.iter().copied().collect()).unwrap_or_default();
        for at in &covered {
            if let Event::Settle { start, .. } = &self.journal[*at] {
                if let Event::Start(key, _) = &self.journal[*start] {
                    self.keys.remove(key);
                }
            }
            self.forget(*at);
        }
        if self.open > 0 {
            self.stamps.insert(target.clone(), self.journal.len());
        }
        self.journal.push(Event::Invalidate(target, covered.len() as u64));
        covered.len()
    }
}

fn key(number: usize) -> Key {
    Key {
        sub: "products".into(),
        type_name: "Product".into(),
        rep: format!(r#"{{"__typename":"Product","upc":"{number}"}}"#),
        sel: "{ name price }".into(),
    }
}

fn offer(number: usize) -> (String, Vec<String>) {
    (r#"{"name":"Table","price":19.90}"#.into(), vec![format!("p{number}")])
}

fn main() {
    let events: usize = std::env::args().nth(1).and_then(|word| word.parse().ok()).expect("EVENTS is a number");
    let mut book = Book { journal: Vec::with_capacity(events), ..Book::default() };
    let turns = events / 50;
    let pieces = (events - 5 * turns) / 3 - 1;
    for number in 0..pieces {
        let (value, tags) = offer(number);
        if let Err(start) = book.look(key(number), 1000) {
            book.settle(start, value, tags, 3600);
        }
    }
    let (mut hit, mut miss, mut settle, mut invalidate) = (0, 0, 0, 0);
    for turn in 0..turns {
        let wanted = key(turn);
        let start = Instant::now();
        let found = book.look(wanted, 1000);
        hit += start.elapsed().as_nanos();
        assert!(found.is_ok());
        let (value, tags) = offer(pieces + turn);
        let wanted = key(pieces + turn);
        let start = Instant::now();
        let found = book.look(wanted, 1000);
        let looked = start.elapsed().as_nanos();
        book.settle(found.expect_err("nothing is kept"), value, tags, 3600);
        settle += start.elapsed().as_nanos() - looked;
        miss += looked;
        let target = Target::Tag("products".into(), format!("p{}", pieces - turn));
        let start = Instant::now();
        book.invalidate(target);
        invalidate += start.elapsed().as_nanos();
    }
    println!("book {events} events {turns} turns hit {hit} miss {miss} settle {settle} invalidate {invalidate} ns");
}
