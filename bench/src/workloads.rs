//! Whole programs, each written once for this crate's peers: the original's types, and what std alone has.
use crate::lists::Shared;
use ecow::{EcoString, EcoVec};
use std::fmt::Write;
use std::ops::Deref;
use std::rc::Rc;

/// A text that is kept and shared.
pub trait Text: Clone {
    fn made(text: &str) -> Self;
    fn text(&self) -> &str;
    fn insert(&mut self, at: usize, part: &str);
}

impl Text for EcoString {
    fn made(text: &str) -> Self {
        EcoString::from(text)
    }

    fn text(&self) -> &str {
        self
    }

    fn insert(&mut self, at: usize, part: &str) {
        self.insert_str(at, part);
    }
}

impl Text for Rc<str> {
    fn made(text: &str) -> Self {
        Rc::from(text)
    }

    fn text(&self) -> &str {
        self
    }

    fn insert(&mut self, at: usize, part: &str) {
        *self = Rc::from([&self[..at], part, &self[at..]].concat());
    }
}

/// The types of one peer.
pub trait Kind {
    type List<T: Clone>: Shared<T>;
    type Text: Text;
    /// A text that is put together.
    type Built: Default + Write + Deref<Target = str>;
}

pub struct Original;

impl Kind for Original {
    type List<T: Clone> = EcoVec<T>;
    type Text = EcoString;
    type Built = EcoString;
}

/// std alone: `Rc<Vec<T>>`, `Rc<str>` and `String`.
pub struct Std;

impl Kind for Std {
    type List<T: Clone> = Rc<Vec<T>>;
    type Text = Rc<str>;
    type Built = String;
}

/// Numbers in no order, each from the last.
pub struct Random {
    state: u64,
}

impl Random {
    fn new() -> Self {
        Random { state: 88172645463325252 }
    }

    fn next(&mut self) -> u64 {
        self.state ^= self.state << 13;
        self.state ^= self.state >> 7;
        self.state ^= self.state << 17;
        self.state
    }

    /// A number below `limit`.
    fn below(&mut self, limit: usize) -> usize {
        (self.next() >> 11) as usize % limit.max(1)
    }
}

/// Lower case letters in no order.
fn prose(random: &mut Random, length: usize) -> String {
    (0..length).map(|_| char::from(b'a' + random.below(26) as u8)).collect()
}

const PROSE: usize = 4096;
const LONGEST: usize = 80;

/// A part of the prose, of at most so many letters.
fn part<'a>(random: &mut Random, prose: &'a str, longest: usize) -> &'a str {
    let length = random.below(longest + 1);
    let start = random.below(PROSE - longest);
    &prose[start..start + length]
}

// An undo history.

const FAN: usize = 50;

type Lines<K> = <K as Kind>::List<<K as Kind>::Text>;
type Page<K> = <K as Kind>::List<Lines<K>>;
type Document<K> = <K as Kind>::List<Page<K>>;

/// A document of so many lines in three levels.
fn made<K: Kind>(random: &mut Random, prose: &str, lines: usize) -> Document<K> {
    let (mut document, mut page, mut few) = (Document::<K>::default(), Page::<K>::default(), Lines::<K>::default());
    for line in 1..=lines {
        few.push(K::Text::made(part(random, prose, LONGEST)));
        if line % FAN == 0 {
            page.push(std::mem::take(&mut few));
        }
        if line % (FAN * FAN) == 0 {
            document.push(std::mem::take(&mut page));
        }
    }
    document
}

/// Puts a letter into some line.
fn edit<K: Kind>(random: &mut Random, document: &mut Document<K>) {
    let pages = document.items_mut();
    let at = random.below(pages.len());
    let Some(page) = pages.get_mut(at) else { return };
    let parts = page.items_mut();
    let at = random.below(parts.len());
    let Some(part) = parts.get_mut(at) else { return };
    let lines = part.items_mut();
    let at = random.below(lines.len());
    let Some(line) = lines.get_mut(at) else { return };
    let at = random.below(line.text().len() + 1);
    line.insert(at, "x");
}

/// The length of some line.
fn looked_at<K: Kind>(random: &mut Random, document: &Document<K>) -> u64 {
    let pages = document.items();
    let Some(page) = pages.get(random.below(pages.len())) else { return 0 };
    let parts = page.items();
    let Some(part) = parts.get(random.below(parts.len())) else { return 0 };
    let lines = part.items();
    lines.get(random.below(lines.len())).map_or(0, |line| line.text().len() as u64)
}

/// Edits a document so often, keeps what it was before each edit, and goes back.
fn history<K: Kind>(lines: usize, edits: u64) -> u64 {
    let mut random = Random::new();
    let prose = prose(&mut random, PROSE);
    let mut document = made::<K>(&mut random, &prose, lines);
    let mut kept = Vec::new();
    for _ in 0..edits {
        kept.push(document.clone());
        edit::<K>(&mut random, &mut document);
    }
    let mut sum = looked_at::<K>(&mut random, &document);
    for _ in 0..edits {
        if let Some(before) = kept.pop() {
            document = before;
            sum = sum.wrapping_add(looked_at::<K>(&mut random, &document));
        }
    }
    sum
}

// A symbol table.

/// The names that were read, each once, and a table that finds their numbers.
struct Interner<K: Kind> {
    names: K::List<K::Text>,
    table: Vec<u32>,
}

/// FNV-1a, folded once.
fn hash(word: &[u8]) -> u64 {
    let mut hash = 0xcbf29ce484222325u64;
    for byte in word {
        hash = (hash ^ u64::from(*byte)).wrapping_mul(0x100000001b3);
    }
    hash ^ hash >> 29
}

impl<K: Kind> Interner<K> {
    fn new() -> Self {
        Interner { names: Default::default(), table: vec![0; 64] }
    }

    /// The place of a word in the table, or of the gap where it belongs.
    fn place(&self, word: &str) -> usize {
        let mut place = hash(word.as_bytes()) as usize % self.table.len();
        for _ in 0..self.table.len() {
            let number = self.table[place] as usize;
            if number == 0 || self.names.items()[number - 1].text() == word {
                return place;
            }
            place = (place + 1) % self.table.len();
        }
        place
    }

    /// Twice as many places.
    fn grow(&mut self) {
        self.table = vec![0; 2 * self.table.len()];
        for number in 0..self.names.items().len() {
            let place = self.place(self.names.items()[number].text());
            self.table[place] = number as u32 + 1;
        }
    }

    /// The number of a word, a new one where it wasn't read before.
    fn intern(&mut self, word: &str) -> u32 {
        let place = self.place(word);
        if self.table[place] != 0 {
            return self.table[place] - 1;
        }
        let number = self.names.items().len() as u32;
        self.names.push(K::Text::made(word));
        self.table[place] = number + 1;
        if 2 * self.names.items().len() > self.table.len() {
            self.grow();
        }
        number
    }
}

/// Writes the word with this number: mostly three to twelve letters, now and then eight more.
fn spell(word: &mut String, number: u64) {
    word.clear();
    let mut letters = number.wrapping_add(1).wrapping_mul(0x9E3779B97F4A7C15);
    let mut length = 3 + letters % 10;
    if letters >> 32 & 7 == 0 {
        length += 8;
    }
    for _ in 0..length {
        letters ^= letters << 13;
        letters ^= letters >> 7;
        letters ^= letters << 17;
        word.push(char::from(b'a' + (letters % 26) as u8));
    }
}

/// Reads so many words, finds or keeps each, and binds some in scopes that are forked and left.
fn symbols<K: Kind>(bits: usize, words: u64) -> u64 {
    let mut random = Random::new();
    let mut word = String::new();
    let mut interner = Interner::<K>::new();
    let mut tokens = K::List::<K::Text>::default();
    let mut scope = K::List::<(u32, u32)>::default();
    let mut outer = Vec::new();
    let mut sum = 0u64;
    for at in 0..words {
        // Of 2, 4, 8, .. words by turns, so that few words are frequent.
        let range = 1 << (random.below(bits) + 1);
        spell(&mut word, random.below(range) as u64);
        let symbol = interner.intern(&word);
        tokens.push(interner.names.items()[symbol as usize].clone());
        match random.below(32) {
            0 => outer.push(scope.clone()),
            1 => scope = outer.pop().unwrap_or_default(),
            2..=9 => scope.push((symbol, at as u32)),
            _ => {
                let bound = scope.items().iter().rev().take(16).find(|bound| bound.0 == symbol);
                sum = sum.wrapping_add(bound.map_or(1, |bound| u64::from(bound.1)));
            }
        }
    }
    for token in tokens.items() {
        sum = sum.wrapping_add(token.text().len() as u64);
    }
    sum
}

// Templates.

const NAMES: usize = 20;

/// Fills a template with so many holes again and again, each time with one value more that is new.
fn templates<K: Kind>(holes: usize, fills: u64) -> u64 {
    let mut random = Random::new();
    let prose = prose(&mut random, PROSE);
    let mut template = Vec::new();
    for _ in 0..holes {
        template.push((K::Text::made(part(&mut random, &prose, 40)), random.below(NAMES)));
    }
    let mut values = K::List::<K::Text>::default();
    for _ in 0..NAMES {
        values.push(K::Text::made(part(&mut random, &prose, 30)));
    }
    let mut pages = Vec::new();
    for _ in 0..fills {
        let mut own = values.clone();
        let at = random.below(NAMES);
        own.items_mut()[at] = K::Text::made(part(&mut random, &prose, 30));
        let mut page = K::Built::default();
        for (literal, name) in &template {
            page.write_str(literal.text()).unwrap();
            page.write_str(own.items()[*name].text()).unwrap();
        }
        pages.push(page);
    }
    pages.iter().fold(0, |sum, page| sum.wrapping_add(page.len() as u64))
}

// A syntax tree.

const BRANCHES: usize = 10;

struct Node<K: Kind> {
    kind: u32,
    text: K::Text,
    children: K::List<Node<K>>,
}

impl<K: Kind> Clone for Node<K> {
    fn clone(&self) -> Self {
        Node { kind: self.kind, text: self.text.clone(), children: self.children.clone() }
    }
}

/// A tree with a level of nodes of each of these kinds above its leaves.
fn tree<K: Kind>(random: &mut Random, prose: &str, kinds: &[u32]) -> Node<K> {
    let text = K::Text::made(part(random, prose, 12));
    let mut node = Node::<K> { kind: kinds.first().copied().unwrap_or(0), text, children: Default::default() };
    if let [_, below @ ..] = kinds {
        for _ in 0..BRANCHES {
            node.children.push(tree(random, prose, below));
        }
    }
    node
}

/// Gives the node at the end of a path another text.
fn replace<K: Kind>(node: &mut Node<K>, path: &[usize], text: K::Text) {
    match path {
        [] => node.text = text,
        [at, rest @ ..] => {
            if let Some(child) = node.children.items_mut().get_mut(*at) {
                replace(child, rest, text);
            }
        }
    }
}

/// The lengths of the texts and the kinds, from a node down.
fn weight<K: Kind>(node: &Node<K>) -> u64 {
    let own = u64::from(node.kind) + node.text.text().len() as u64;
    node.children.items().iter().fold(own, |sum, child| sum.wrapping_add(weight(child)))
}

/// Replaces so many leaves, and keeps each tree that there was.
fn trees<K: Kind>(levels: usize, edits: u64) -> u64 {
    let mut random = Random::new();
    let prose = prose(&mut random, PROSE);
    let kinds: Vec<u32> = (1..=levels as u32).collect();
    let mut root = tree::<K>(&mut random, &prose, &kinds);
    let first = root.clone();
    let mut kept = Vec::new();
    let mut path = Vec::new();
    for _ in 0..edits {
        kept.push(root.clone());
        path.clear();
        path.extend(kinds.iter().map(|_| random.below(BRANCHES)));
        replace(&mut root, &path, K::Text::made(part(&mut random, &prose, 12)));
    }
    let sum = weight(&first).wrapping_add(weight(&root));
    kept.iter().fold(sum, |sum, root| sum.wrapping_add(u64::from(root.kind)))
}

/// What a workload is named on the command line and in the table, and its two sizes.
pub const WORKLOADS: [(&str, &str, usize, u64); 4] = [
    ("history", "undo history", 100_000, 100_000),
    ("symbols", "symbol table", 17, 1_000_000),
    ("templates", "templates", 10, 100_000),
    ("trees", "syntax trees", 6, 100_000),
];

/// What a workload saw, if there is one of this name.
pub fn sum<K: Kind>(name: &str, length: usize, count: u64) -> Option<u64> {
    Some(match name {
        "history" => history::<K>(length, count),
        "symbols" => symbols::<K>(length, count),
        "templates" => templates::<K>(length, count),
        "trees" => trees::<K>(length, count),
        _ => return None,
    })
}
