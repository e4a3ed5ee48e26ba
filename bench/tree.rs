//! Makes, finds, renames and removes the nodes of a tree, as `tree_speed` does, in a tree as one would write it with
//! std: nodes in a vector, and in each directory an ordered map from names to numbers. With the word `clock` it prints
//! the least time of a round too, of which the calls alone are timed.
//!
//! build:  rustc -C opt-level=3 -C target-cpu=native -o tree tree.rs
//! run:    ./tree wide 65536 10 make clock

use std::collections::BTreeMap;
use std::time::{Duration, Instant};

const MOST_NODES: u32 = 65_536;

#[derive(Clone, Copy, PartialEq)]
struct Moment {
    secs: i64,
    nanos: u32,
}

#[derive(Clone, Copy)]
#[allow(dead_code)]
struct Times {
    create: Moment,
    change: Moment,
    modify: Moment,
    access: Moment,
    backup: Moment,
}

const AT: Moment = Moment { secs: 1_704_164_645, nanos: 0 };

const fn all_at(at: Moment) -> Times {
    Times { create: at, change: at, modify: at, access: at, backup: at }
}

#[derive(Clone, Copy, PartialEq)]
enum Part {
    Ip,
    Dp,
}

#[derive(Clone, Copy)]
struct Extent {
    offset: u64,
    part: Part,
    block: u64,
    byte: u32,
    count: u64,
}

#[derive(Clone, Copy)]
struct RawExtent {
    offset: u64,
    letter: u8,
    block: u64,
    byte: u64,
    count: u64,
}

// ---- the tree ----

enum Kind {
    Dir(BTreeMap<String, u32>),
    File(u64, Vec<Extent>),
    #[allow(dead_code)]
    Link(String),
}

struct Node {
    parent: u32,
    uid: u64,
    times: Times,
    readonly: bool,
    kind: Kind,
}

/// A node as an index tells it.
struct Told {
    parent: u32,
    uid: u64,
    name: String,
    times: Times,
    readonly: bool,
    kind: ToldKind,
}

enum ToldKind {
    Dir,
    File(u64, Vec<RawExtent>),
    Link(String),
}

struct Tree {
    nodes: Vec<Option<Node>>,
    free: Vec<u32>,
    highest: u64,
}

fn bad(name: &str) -> bool {
    let is_long = name.chars().count() > 255;
    name.is_empty() || is_long || name.contains('/') || name.contains('\0') || name == "." || name == ".."
}

impl Tree {
    fn new() -> Tree {
        let root = Node { parent: 0, uid: 1, times: all_at(AT), readonly: false, kind: Kind::Dir(BTreeMap::new()) };
        Tree { nodes: vec![Some(root)], free: Vec::new(), highest: 1 }
    }

    fn node(&self, number: u32) -> &Node {
        self.nodes[number as usize].as_ref().unwrap()
    }

    fn node_mut(&mut self, number: u32) -> &mut Node {
        self.nodes[number as usize].as_mut().unwrap()
    }

    fn find(&self, path: &[String]) -> Result<u32, &'static str> {
        let mut number = 0;
        for name in path {
            match &self.node(number).kind {
                Kind::Dir(children) => number = *children.get(name).ok_or("NotFound")?,
                _ => return Err("NotDir"),
            }
        }
        Ok(number)
    }

    fn children(&self, number: u32) -> Result<&BTreeMap<String, u32>, &'static str> {
        match &self.node(number).kind {
            Kind::Dir(children) => Ok(children),
            _ => Err("NotDir"),
        }
    }

    fn children_mut(&mut self, number: u32) -> Result<&mut BTreeMap<String, u32>, &'static str> {
        match &mut self.node_mut(number).kind {
            Kind::Dir(children) => Ok(children),
            _ => Err("NotDir"),
        }
    }

    fn touch(&mut self, number: u32, at: Moment) {
        let times = &mut self.node_mut(number).times;
        times.change = at;
        times.modify = at;
    }

    fn make(&mut self, path: &[String], is_dir: bool, at: Moment) -> Result<u32, &'static str> {
        let (name, front) = path.split_last().ok_or("Root")?;
        if bad(name) {
            return Err("BadName");
        }
        let parent = self.find(front)?;
        if self.children(parent)?.contains_key(name) {
            return Err("Exists");
        }
        if self.nodes.len() - self.free.len() >= MOST_NODES as usize {
            return Err("TooMany");
        }
        self.highest += 1;
        let kind = if is_dir { Kind::Dir(BTreeMap::new()) } else { Kind::File(0, Vec::new()) };
        let node = Node { parent, uid: self.highest, times: all_at(at), readonly: false, kind };
        let number = match self.free.pop() {
            Some(number) => {
                self.nodes[number as usize] = Some(node);
                number
            }
            None => {
                self.nodes.push(Some(node));
                self.nodes.len() as u32 - 1
            }
        };
        self.children_mut(parent)?.insert(name.clone(), number);
        self.touch(parent, at);
        Ok(number)
    }

    fn rename(&mut self, from: &[String], to: &[String], at: Moment) -> Result<(), &'static str> {
        let (new, new_front) = to.split_last().ok_or("Root")?;
        if bad(new) {
            return Err("BadName");
        }
        let (old, old_front) = from.split_last().ok_or("Root")?;
        let old_parent = self.find(old_front)?;
        let number = *self.children(old_parent)?.get(old).ok_or("NotFound")?;
        let parent = if old_front == new_front { old_parent } else { self.find(new_front)? };
        if self.children(parent)?.contains_key(new) {
            return if from == to { Ok(()) } else { Err("Exists") };
        }
        if to.starts_with(from) {
            return Err("Inside");
        }
        self.children_mut(old_parent)?.remove(old);
        self.children_mut(parent)?.insert(new.clone(), number);
        let node = self.node_mut(number);
        node.parent = parent;
        node.times.change = at;
        self.touch(old_parent, at);
        self.touch(parent, at);
        Ok(())
    }

    fn remove(&mut self, path: &[String], at: Moment) -> Result<(), &'static str> {
        let (name, front) = path.split_last().ok_or("Root")?;
        let parent = self.find(front)?;
        let number = *self.children(parent)?.get(name).ok_or("NotFound")?;
        if let Kind::Dir(children) = &self.node(number).kind {
            if !children.is_empty() {
                return Err("NotEmpty");
            }
        }
        self.children_mut(parent)?.remove(name);
        self.nodes[number as usize] = None;
        self.free.push(number);
        self.touch(parent, at);
        Ok(())
    }

    fn from_nodes(told: &[Told], letters: (u8, u8)) -> Tree {
        let mut nodes: Vec<Option<Node>> = Vec::with_capacity(told.len());
        for (number, node) in told.iter().enumerate() {
            let kind = match &node.kind {
                ToldKind::Dir => Kind::Dir(BTreeMap::new()),
                ToldKind::File(length, raws) => Kind::File(*length, extents_of(raws, *length, letters)),
                ToldKind::Link(text) => Kind::Link(text.clone()),
            };
            if number > 0 {
                if let Kind::Dir(children) = &mut nodes[node.parent as usize].as_mut().unwrap().kind {
                    children.insert(node.name.clone(), number as u32);
                }
            }
            let Told { parent, uid, times, readonly, .. } = *node;
            nodes.push(Some(Node { parent, uid, times, readonly, kind }));
        }
        let highest = told.iter().map(|node| node.uid).max().unwrap_or(1);
        Tree { nodes, free: Vec::new(), highest }
    }

    fn to_nodes(&self, letters: (u8, u8)) -> Vec<Told> {
        let mut told: Vec<Told> = Vec::new();
        let mut open: Vec<(u32, u32, &str)> = vec![(0, 0, "")];
        while let Some((number, parent, name)) = open.pop() {
            let node = self.node(number);
            let place = told.len() as u32;
            let kind = match &node.kind {
                Kind::Dir(children) => {
                    open.extend(children.iter().rev().map(|(name, child)| (*child, place, name.as_str())));
                    ToldKind::Dir
                }
                Kind::File(length, extents) => {
                    let raws = extents.iter().map(|e| raw_of(e, letters)).collect();
                    ToldKind::File(*length, raws)
                }
                Kind::Link(text) => ToldKind::Link(text.clone()),
            };
            let Node { uid, times, readonly, .. } = *node;
            told.push(Told { parent, uid, name: name.to_string(), times, readonly, kind });
        }
        told
    }
}

fn extents_of(raws: &[RawExtent], length: u64, letters: (u8, u8)) -> Vec<Extent> {
    let mut extents: Vec<Extent> = raws
        .iter()
        .filter(|raw| raw.count > 0 && raw.offset < length)
        .map(|raw| Extent {
            offset: raw.offset,
            part: if raw.letter == letters.0 { Part::Ip } else { Part::Dp },
            block: raw.block,
            byte: raw.byte as u32,
            count: raw.count.min(length - raw.offset),
        })
        .collect();
    extents.sort_by_key(|e| e.offset);
    extents
}

fn raw_of(e: &Extent, letters: (u8, u8)) -> RawExtent {
    let letter = if e.part == Part::Ip { letters.0 } else { letters.1 };
    RawExtent { offset: e.offset, letter, block: e.block, byte: u64::from(e.byte), count: e.count }
}

// ---- what is measured ----

#[derive(Clone, Copy, PartialEq)]
enum Shape {
    Wide,
    Rising,
    Deep,
    Chain,
    Mixed,
}

fn parent_of(shape: Shape, k: u32) -> u32 {
    match shape {
        Shape::Wide | Shape::Rising => 0,
        Shape::Deep => if k % 1000 == 1 { 0 } else { k - 1 },
        Shape::Chain => k - 1,
        Shape::Mixed => {
            let group = (k - 1) / 8;
            if group == 0 { 0 } else { k.wrapping_mul(40_503) % group * 8 + 1 }
        }
    }
}

fn is_dir(shape: Shape, k: u32) -> bool {
    match shape {
        Shape::Wide | Shape::Rising => false,
        Shape::Deep | Shape::Chain => true,
        Shape::Mixed => k % 8 == 1,
    }
}

fn name_of(shape: Shape, letter: char, k: u32) -> String {
    let number = if shape == Shape::Rising { k } else { k * 40_503 % 65_536 };
    let mut name = String::with_capacity(6);
    name.push(letter);
    for place in [10_000, 1000, 100, 10, 1] {
        name.push(char::from(b'0' + (number / place % 10) as u8));
    }
    name
}

fn path_of(shape: Shape, letter: char, k: u32) -> Vec<String> {
    let mut numbers = Vec::new();
    let mut at = k;
    while at > 0 {
        numbers.push(at);
        at = parent_of(shape, at);
    }
    let mut path = Vec::with_capacity(numbers.len());
    for number in numbers.iter().rev() {
        path.push(name_of(shape, letter, *number));
    }
    path
}

#[derive(Clone, Copy, PartialEq)]
enum What {
    Make,
    Find,
    Rename,
    Remove,
    Mount,
    Tell,
}

enum Call {
    Make(Vec<String>, bool),
    Find(Vec<String>),
    Rename(Vec<String>, Vec<String>),
    Remove(Vec<String>),
}

fn call_of(shape: Shape, nodes: u32, what: What, letter: char, turn: u32) -> Call {
    match what {
        What::Make => Call::Make(path_of(shape, letter, turn), is_dir(shape, turn)),
        What::Find => {
            let k = (u64::from(turn) * 7919 % (u64::from(nodes) - 1)) as u32 + 1;
            Call::Find(path_of(shape, letter, k))
        }
        What::Rename => {
            let k = nodes - turn;
            let other = if letter == 'f' { 'g' } else { 'f' };
            let mut to = path_of(shape, letter, parent_of(shape, k));
            to.push(name_of(shape, other, k));
            Call::Rename(path_of(shape, letter, k), to)
        }
        _ => Call::Remove(path_of(shape, letter, nodes - turn)),
    }
}

fn names_in(call: &Call) -> usize {
    match call {
        Call::Make(path, _) | Call::Find(path) | Call::Remove(path) => path.len(),
        Call::Rename(from, to) => from.len() + to.len(),
    }
}

/// Calls are made ready and done in batches, which are full with so many names.
const FULL: usize = 1000;

fn answer(tree: &mut Tree, call: &Call) -> u32 {
    match call {
        Call::Make(path, is_dir) => {
            tree.make(path, *is_dir, AT).unwrap();
        }
        Call::Find(path) => return tree.find(path).unwrap(),
        Call::Rename(from, to) => tree.rename(from, to, AT).unwrap(),
        Call::Remove(path) => tree.remove(path, AT).unwrap(),
    }
    0
}

/// Does a round, and gives a sum over what was found and the time of the calls.
fn timed(tree: &mut Tree, shape: Shape, nodes: u32, what: What, letter: char) -> (u64, Duration) {
    let (mut sum, mut took) = (0u64, Duration::ZERO);
    let (mut calls, mut names) = (Vec::new(), 0);
    for turn in 1..nodes {
        let call = call_of(shape, nodes, what, letter, turn);
        names += names_in(&call);
        calls.push(call);
        if names >= FULL || turn + 1 == nodes {
            let start = Instant::now();
            for call in &calls {
                sum = sum.wrapping_mul(31).wrapping_add(u64::from(answer(tree, call)));
            }
            took += start.elapsed();
            (calls, names) = (Vec::new(), 0);
        }
    }
    (sum, took)
}

fn make_all(shape: Shape, nodes: u32) -> Tree {
    let mut tree = Tree::new();
    for turn in 1..nodes {
        answer(&mut tree, &call_of(shape, nodes, What::Make, 'f', turn));
    }
    tree
}

fn begun(shape: Shape, nodes: u32, what: What) -> Tree {
    if what == What::Make { Tree::new() } else { make_all(shape, nodes) }
}

/// Does the rounds of calls, and gives what is left, the sum of the last round, and the least time of a round.
fn call_often(shape: Shape, nodes: u32, rounds: u64, what: What) -> (Tree, u64, Duration) {
    let mut tree = begun(shape, nodes, what);
    let (mut sum, mut least) = (0, Duration::MAX);
    for at in 0..rounds {
        if at > 0 && (what == What::Make || what == What::Remove) {
            tree = begun(shape, nodes, what);
        }
        let letter = if what == What::Rename && at % 2 == 1 { 'g' } else { 'f' };
        let (found, took) = timed(&mut tree, shape, nodes, what, letter);
        (sum, least) = (found, least.min(took));
    }
    (tree, sum, least)
}

fn mount_often(shape: Shape, nodes: u32, rounds: u64) -> (Tree, u64, Duration) {
    let told = told_of(shape, nodes);
    let (mut sum, mut least) = (0, Duration::MAX);
    for _ in 0..rounds {
        let start = Instant::now();
        let tree = Tree::from_nodes(&told, (b'a', b'b'));
        least = least.min(start.elapsed());
        sum = tree.nodes.len() as u64;
    }
    (Tree::from_nodes(&told, (b'a', b'b')), sum, least)
}

fn tell_often(shape: Shape, nodes: u32, rounds: u64) -> (Tree, u64, Duration) {
    let tree = Tree::from_nodes(&told_of(shape, nodes), (b'a', b'b'));
    let (mut sum, mut least) = (0, Duration::MAX);
    for _ in 0..rounds {
        let start = Instant::now();
        let told = tree.to_nodes((b'a', b'b'));
        least = least.min(start.elapsed());
        sum = told.len() as u64;
    }
    (tree, sum, least)
}

fn with_extents(told: &mut [Told]) {
    for node in told {
        if let ToldKind::File(length, raws) = &mut node.kind {
            let count = 1 + node.uid % 65_536 * 7919 % 2_097_152;
            *length = count;
            raws.push(RawExtent { offset: 0, letter: b'b', block: 4 + node.uid % 65_536 * 3, byte: 0, count });
        }
    }
}

fn told_of(shape: Shape, nodes: u32) -> Vec<Told> {
    if shape == Shape::Chain {
        return chain(nodes);
    }
    let mut told = make_all(shape, nodes).to_nodes((b'a', b'b'));
    with_extents(&mut told);
    told
}

fn chain(nodes: u32) -> Vec<Told> {
    (0..nodes)
        .map(|k| {
            let name = if k == 0 { String::new() } else { name_of(Shape::Chain, 'f', k) };
            let (parent, uid) = (k.saturating_sub(1), u64::from(k) + 1);
            Told { parent, uid, name, times: all_at(AT), readonly: false, kind: ToldKind::Dir }
        })
        .collect()
}

fn sum_of(tree: &Tree) -> u64 {
    let mut sum = 0u64;
    for node in tree.to_nodes((b'a', b'b')) {
        sum = sum.wrapping_mul(31).wrapping_add(u64::from(node.parent)).wrapping_mul(31).wrapping_add(node.uid);
        for byte in node.name.bytes() {
            sum = sum.wrapping_mul(31).wrapping_add(u64::from(byte));
        }
        if let ToldKind::File(length, raws) = &node.kind {
            sum = sum.wrapping_mul(31).wrapping_add(*length);
            for raw in raws {
                sum = sum.wrapping_mul(31).wrapping_add(raw.block).wrapping_add(raw.offset + raw.byte + raw.count);
                sum = sum.wrapping_add(u64::from(raw.letter));
            }
        }
    }
    sum
}

fn main() {
    let words: Vec<String> = std::env::args().collect();
    let (nodes, rounds): (u32, u64) = (words[2].parse().unwrap(), words[3].parse().unwrap());
    let shape = match words[1].as_str() {
        "wide" => Shape::Wide,
        "rising" => Shape::Rising,
        "mixed" => Shape::Mixed,
        "chain" => Shape::Chain,
        _ => Shape::Deep,
    };
    let what = match words[4].as_str() {
        "make" => What::Make,
        "find" => What::Find,
        "rename" => What::Rename,
        "remove" => What::Remove,
        "mount" => What::Mount,
        _ => What::Tell,
    };
    let (tree, sum, least) = match what {
        What::Mount => mount_often(shape, nodes, rounds),
        What::Tell => tell_often(shape, nodes, rounds),
        _ => call_often(shape, nodes, rounds, what),
    };
    let _ = tree.highest;
    println!("{} nodes, {:016x}, {:016x}", tree.nodes.len() - tree.free.len(), sum_of(&tree), sum);
    if words.get(5).is_some_and(|word| word == "clock") {
        println!("{} us", least.as_micros());
    }
}
