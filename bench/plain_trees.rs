// A file system of trees over a store with soft updates, in plain Rust: the blocks, the edits and the order of writes of the proved one
// (crates/treefs), kept in memory and written to a disk in memory. It lacks limits of a store that these calls don't meet, and chains of owners.
//
//     rustc --edition 2024 -O bench/plain_trees.rs
//     plain_trees WORD ROUNDS
//
// The words are `create`, `find`, `write` and `read`. It prints how many edits were made, and a sum of the disk once all is written.

use std::collections::VecDeque;
use std::hash::{DefaultHasher, Hasher};

const BLOCK: usize = 512;
const DATA: u8 = 2;
const NODE: u8 = 3;
const INODE: u8 = 4;
const FRESH: u32 = u32::MAX;

type Bytes = [u8; BLOCK];

/// What an edit overwrote.
struct Undo {
    offset: u16,
    length: u16,
    bytes: [u8; 68],
}

/// A pending entry: its number, what it overwrote, what it adds and drops, and which entry of which block it stands behind.
struct Entry {
    number: u32,
    undo: Undo,
    more: Vec<u8>,
    adds: Added,
    behind: (u32, u32),
}

/// The blocks that an entry adds, of which there are at most 16.
struct Added {
    count: u8,
    blocks: [u32; 16],
}

/// A block in use.
struct Life {
    bytes: Bytes,
    kind: u8,
    owner: u32,
    on_disk: bool,
    entries: VecDeque<Entry>,
}

/// A store: its lives, its free blocks, and its disk.
struct Store {
    lives: Vec<Option<Box<Life>>>,
    free: Vec<u64>,
    least_free: usize,
    pending: Vec<u32>,
    next: u32,
    disk: Vec<Bytes>,
    edits: u64,
}

fn word(bytes: &Bytes, at: usize) -> u32 {
    u32::from_le_bytes(bytes[at..at + 4].try_into().unwrap())
}

fn put_word(bytes: &mut [u8], at: usize, value: u32) {
    bytes[at..at + 4].copy_from_slice(&value.to_le_bytes());
}

/// Whether bytes of a block are among its pointers.
fn has_pointers(kind: u8, from: usize, to: usize) -> bool {
    match kind {
        NODE => to > 4,
        INODE => from < 128 && to > 48,
        _ => false,
    }
}

impl Store {
    fn new(blocks: usize) -> Store {
        let mut free = vec![u64::MAX; blocks.div_ceil(64)];
        free[0] = !0b111;
        Store {
            lives: (0..blocks).map(|_| None).collect(),
            free,
            least_free: 0,
            pending: Vec::with_capacity(4096),
            next: 1,
            disk: vec![[0; BLOCK]; blocks],
            edits: 0,
        }
    }

    fn life(&self, block: u32) -> &Life {
        self.lives[block as usize].as_ref().unwrap()
    }

    fn read(&self, block: u32) -> &Bytes {
        &self.life(block).bytes
    }

    fn newest_entry(&self, block: u32) -> Option<u32> {
        self.life(block).entries.back().map(|entry| entry.number)
    }

    fn init(&mut self, kind: u8, bytes: &Bytes) -> u32 {
        while self.free[self.least_free] == 0 {
            self.least_free += 1;
        }
        let bit = self.free[self.least_free].trailing_zeros();
        self.free[self.least_free] &= self.free[self.least_free] - 1;
        let block = (self.least_free * 64) as u32 + bit;
        // A new block owns nothing.
        let owns = match kind {
            NODE => bytes[4..].iter().any(|byte| *byte != 0),
            INODE => bytes[48..128].iter().any(|byte| *byte != 0),
            _ => false,
        };
        assert!(!owns);
        let mut entries = VecDeque::with_capacity(4);
        entries.push_back(Entry {
            number: self.next,
            undo: Undo { offset: 0, length: 0, bytes: [0; 68] },
            more: Vec::new(),
            adds: Added { count: 0, blocks: [0; 16] },
            behind: (0, 0),
        });
        self.next += 1;
        self.pending.push(block);
        self.lives[block as usize] = Some(Box::new(Life {
            bytes: *bytes,
            kind,
            owner: FRESH,
            on_disk: false,
            entries,
        }));
        block
    }

    /// Writes bytes into a block, behind all of another one. Pointers that it sets are those to the blocks that it adds.
    fn propose(&mut self, block: u32, offset: usize, bytes: &[u8], adds: &[u32], behind: Option<u32>) {
        self.edits += 1;
        let behind = match behind {
            Some(other) if other != block => (other, self.newest_entry(other).unwrap_or(0)),
            _ => (0, 0),
        };
        for (place, add) in adds.iter().enumerate() {
            let life = self.lives[*add as usize].as_mut().unwrap();
            assert!(life.owner == FRESH && !adds[..place].contains(add));
            life.owner = block;
        }
        let number = self.next;
        self.next += 1;
        let life = self.lives[block as usize].as_mut().unwrap();
        assert!(life.entries.len() < 64 && offset + bytes.len() <= BLOCK);
        if has_pointers(life.kind, offset, offset + bytes.len()) {
            // Each word that changes was 0 and is one of the added blocks, in their order.
            let mut named = adds.iter();
            for at in (offset..offset + bytes.len()).step_by(4) {
                let old = word(&life.bytes, at);
                let new = u32::from_le_bytes(bytes[at - offset..at - offset + 4].try_into().unwrap());
                if old != new {
                    assert!(old == 0 && named.next() == Some(&new));
                }
            }
            assert!(named.next().is_none());
        } else {
            assert!(adds.is_empty());
        }
        let mut undo = Undo { offset: offset as u16, length: bytes.len() as u16, bytes: [0; 68] };
        let mut more = Vec::new();
        let place = &mut life.bytes[offset..offset + bytes.len()];
        if place.len() <= undo.bytes.len() {
            undo.bytes[..place.len()].copy_from_slice(place);
        } else {
            more.extend_from_slice(place);
        }
        place.copy_from_slice(bytes);
        if life.entries.is_empty() {
            self.pending.push(block);
        }
        let mut added = Added { count: adds.len() as u8, blocks: [0; 16] };
        added.blocks[..adds.len()].copy_from_slice(adds);
        life.entries.push_back(Entry { number, undo, more, adds: added, behind });
    }

    fn is_safe(&self, block: u32, entry: &Entry) -> bool {
        let (other, number) = entry.behind;
        let is_behind = other == 0
            || other == block
            || match &self.lives[other as usize] {
                Some(life) => life.entries.front().is_none_or(|first| first.number > number),
                None => true,
            };
        is_behind && entry.adds.blocks[..entry.adds.count as usize].iter().all(|add| self.life(*add).on_disk)
    }

    /// Writes all that is pending, wave by wave: how many waves.
    fn flush(&mut self) -> u32 {
        let mut waves = 0;
        while !self.pending.is_empty() {
            waves += 1;
            let mut done: Vec<(u32, usize)> = Vec::new();
            for block in &self.pending {
                let life = self.life(*block);
                let safe = life.entries.iter().take_while(|entry| self.is_safe(*block, entry)).count();
                if safe > 0 {
                    done.push((*block, safe));
                }
            }
            assert!(!done.is_empty());
            for (block, safe) in &done {
                let life = self.lives[*block as usize].as_mut().unwrap();
                let mut bytes = life.bytes;
                for entry in life.entries.iter().skip(*safe).rev() {
                    let (from, length) = (entry.undo.offset as usize, entry.undo.length as usize);
                    let old = if length <= 68 { &entry.undo.bytes[..length] } else { &entry.more[..] };
                    bytes[from..from + length].copy_from_slice(old);
                }
                self.disk[*block as usize] = bytes;
            }
            for (block, safe) in done {
                let life = self.lives[block as usize].as_mut().unwrap();
                life.entries.drain(..safe);
                life.on_disk = true;
            }
            let lives = &self.lives;
            self.pending.retain(|block| !lives[*block as usize].as_ref().unwrap().entries.is_empty());
        }
        waves
    }
}

/// A volume: its store, the block of inode 0, the key of its hash, where free numbers are looked for, and the time.
struct Volume {
    store: Store,
    top: u32,
    key: [u8; 16],
    hint: u32,
    clock: i64,
}

/// The first leaf of each tree of nodes, by its height less 1, and how many leaves a child of its top has.
const TREES: [(u32, u32); 4] = [(16, 1), (143, 127), (16_272, 16_129), (2_064_655, 2_048_383)];

/// The last block that stands on the way to a leaf, and the pointers that are missing.
struct Way {
    owner: u32,
    missing: Vec<u16>,
}

fn first_bucket(level: u32) -> u64 {
    ((1 << (3 * level)) - 1) / 7
}

/// The records of a bucket: the offset, number and name of each, and the byte behind the last.
struct Records<'a> {
    bytes: &'a [u8],
    at: usize,
}

impl<'a> Iterator for Records<'a> {
    type Item = (usize, u32, &'a [u8]);

    #[inline(always)]
    fn next(&mut self) -> Option<(usize, u32, &'a [u8])> {
        let at = self.at;
        if at + 5 > self.bytes.len() || self.bytes[at + 4] == 0 {
            return None;
        }
        let end = at + 5 + self.bytes[at + 4] as usize;
        let number = u32::from_le_bytes(self.bytes[at..at + 4].try_into().unwrap());
        let name = self.bytes.get(at + 5..end)?;
        self.at = end;
        Some((at, number, name))
    }
}

impl Volume {
    fn new(blocks: usize) -> Volume {
        let mut store = Store::new(blocks);
        let mut bytes = [0; BLOCK];
        bytes[0] = INODE;
        bytes[1] = NODE;
        bytes[128..136].copy_from_slice(b"XNTREE1\0");
        bytes[136] = 7;
        let top = store.init(INODE, &bytes);
        let first = store.init(INODE, &inode_bytes(0o040_755, 1, 0));
        store.propose(top, 48, &first.to_le_bytes(), &[first], Some(first));
        let mut key = [0; 16];
        key[0] = 7;
        Volume { store, top, key, hint: 1, clock: 0 }
    }

    /// The block of a leaf of an inode, 0 where it isn't there.
    fn leaf(&self, inode: u32, leaf: u32) -> u32 {
        let bytes = self.store.read(inode);
        if leaf < 16 {
            return word(bytes, 48 + 4 * leaf as usize);
        }
        let height = TREES.iter().rposition(|tree| tree.0 <= leaf).unwrap();
        let (first, mut each) = TREES[height];
        let mut rest = leaf - first;
        let mut block = word(bytes, 112 + 4 * height);
        while block != 0 {
            let at = 4 + 4 * (rest / each) as usize;
            rest %= each;
            block = word(self.store.read(block), at);
            if each == 1 {
                return block;
            }
            each /= 127;
        }
        0
    }

    fn way(&self, inode: u32, leaf: u32) -> Way {
        let mut offsets = Vec::with_capacity(5);
        if leaf < 16 {
            offsets.push(48 + 4 * leaf as u16);
        } else {
            let height = TREES.iter().rposition(|tree| tree.0 <= leaf).unwrap();
            let (first, mut each) = TREES[height];
            let mut rest = leaf - first;
            offsets.push(112 + 4 * height as u16);
            loop {
                offsets.push(4 + 4 * (rest / each) as u16);
                rest %= each;
                if each == 1 {
                    break;
                }
                each /= 127;
            }
        }
        let (mut owner, mut there) = (inode, 0);
        for offset in &offsets {
            let block = word(self.store.read(owner), *offset as usize);
            if block == 0 {
                break;
            }
            there += 1;
            owner = block;
        }
        Way { owner, missing: offsets.split_off(there) }
    }

    fn inode(&self, number: u32) -> u32 {
        self.leaf(self.top, number - 1)
    }

    fn hash(&self, name: &[u8]) -> u64 {
        let mut hasher = DefaultHasher::new();
        hasher.write(&self.key);
        hasher.write(name);
        hasher.finish()
    }

    /// The bytes of a candidate, its block, and the byte at which it begins.
    fn candidate(&self, directory: u32, hash: u64, level: u32) -> (u32, u32, usize) {
        let bucket = (first_bucket(level) + hash % (1 << (3 * level))) as u32;
        if bucket == 0 { (0, directory, 128) } else { (bucket, self.leaf(directory, bucket - 1), 0) }
    }

    fn find(&self, directory: u32, name: &[u8]) -> Option<u32> {
        let hash = self.hash(name);
        for level in 0..9 {
            let (_, block, start) = self.candidate(directory, hash, level);
            if block != 0 {
                let records = Records { bytes: &self.store.read(block)[start..], at: 0 };
                for (_, number, there) in records {
                    if number != 0 && there == name {
                        return Some(number);
                    }
                }
            }
        }
        None
    }

    /// Attaches blocks that were begun for the first pointers that a way misses, each with a wait.
    fn grow(&mut self, way: &Way, begun: &[u32]) {
        let mut owner = way.owner;
        for (offset, block) in way.missing.iter().zip(begun) {
            self.store.propose(owner, *offset as usize, &block.to_le_bytes(), &[*block], None);
            let first = [self.store.read(*block)[0]];
            self.store.propose(*block, 0, &first, &[], Some(owner));
            owner = *block;
        }
    }

    /// Begins the nodes that a way misses before its leaf, whose type is told.
    fn begin_nodes(&mut self, way: &Way, last: u8) -> Vec<u32> {
        let nodes = way.missing.len().saturating_sub(1);
        (0..nodes)
            .map(|place| {
                let mut bytes = [0; BLOCK];
                bytes[0] = if place + 1 == nodes { last } else { NODE };
                self.store.init(NODE, &bytes)
            })
            .collect()
    }

    fn create(&mut self, directory: u32, name: &[u8]) -> Result<u32, ()> {
        let parent = self.inode(directory);
        if self.find(parent, name).is_some() {
            return Err(());
        }
        let mut number = self.hint;
        let table = loop {
            let way = self.way(self.top, number - 1);
            if !way.missing.is_empty() {
                break way;
            }
            number += 1;
        };
        self.hint = number + 1;
        let hash = self.hash(name);
        let mut place = None;
        for level in 0..9 {
            let (bucket, block, start) = self.candidate(parent, hash, level);
            if block == 0 {
                place = Some((bucket, 0, 0));
                break;
            }
            let bytes = &self.store.read(block)[start..];
            let mut records = Records { bytes, at: 0 };
            while records.next().is_some() {}
            if records.at + 5 + name.len() <= bytes.len() {
                place = Some((bucket, block, start + records.at));
                break;
            }
        }
        let (bucket, mut block, offset) = place.ok_or(())?;
        let inode = self.store.init(INODE, &inode_bytes(0o100_644, 0, self.clock));
        let nodes = self.begin_nodes(&table, INODE);
        let mut made = Vec::new();
        let mut way = None;
        if block == 0 {
            let missing = self.way(parent, bucket - 1);
            made = self.begin_nodes(&missing, DATA);
            made.push(self.store.init(DATA, &[0; BLOCK]));
            way = Some(missing);
        }
        self.grow(&table, &nodes);
        let holder = nodes.last().copied().unwrap_or(table.owner);
        let at = *table.missing.last().unwrap() as usize;
        self.store.propose(holder, at, &inode.to_le_bytes(), &[inode], Some(inode));
        if let Some(way) = way {
            self.grow(&way, &made);
            block = *made.last().unwrap();
        }
        let mut record = [0; 260];
        put_word(&mut record, 0, number);
        record[4] = name.len() as u8;
        record[5..5 + name.len()].copy_from_slice(name);
        self.store.propose(block, offset, &record[..5 + name.len()], &[], Some(holder));
        Ok(number)
    }

    /// Writes bytes at the end of a file: what goes there into the inode, and the rest into leaves.
    fn append(&mut self, number: u32, bytes: &[u8]) {
        let inode = self.inode(number);
        let mut rest = bytes;
        while !rest.is_empty() {
            let size = u64::from_le_bytes(self.store.read(inode)[16..24].try_into().unwrap());
            let taken = self.append_some(inode, size as usize, rest);
            rest = &rest[taken..];
        }
    }

    fn append_some(&mut self, inode: u32, size: usize, bytes: &[u8]) -> usize {
        if size < 384 {
            let taken = bytes.len().min(384 - size);
            self.store.propose(inode, 128 + size, &bytes[..taken], &[], None);
            self.resize(inode, size + taken, None);
            return taken;
        }
        let (leaf, within) = ((size / BLOCK) as u32, size % BLOCK);
        let there = self.leaf(inode, leaf);
        if there != 0 {
            let taken = bytes.len().min(BLOCK - within);
            self.store.propose(there, within, &bytes[..taken], &[], None);
            self.resize(inode, size + taken, Some(there));
            return taken;
        }
        let way = self.way(inode, leaf);
        let nodes = self.begin_nodes(&way, DATA);
        let beside = if leaf < 16 { 16 - leaf } else { 127 - (leaf - 16) % 127 };
        let count = ((within + bytes.len()).div_ceil(BLOCK)).min(beside as usize);
        let mut leaves = Vec::with_capacity(count);
        let mut taken = 0;
        for place in 0..count {
            let from = if place == 0 { within } else { 0 };
            let part = (bytes.len() - taken).min(BLOCK - from);
            let mut block = [0; BLOCK];
            block[from..from + part].copy_from_slice(&bytes[taken..taken + part]);
            taken += part;
            leaves.push(self.store.init(DATA, &block));
        }
        self.grow(&way, &nodes);
        let holder = nodes.last().copied().unwrap_or(way.owner);
        let mut at = *way.missing.last().unwrap() as usize;
        for run in leaves.chunks(16) {
            let mut pointers = [0; 64];
            for (place, block) in run.iter().enumerate() {
                put_word(&mut pointers, 4 * place, *block);
            }
            self.store.propose(holder, at, &pointers[..4 * run.len()], run, None);
            at += 4 * run.len();
        }
        self.resize(inode, size + taken, Some(holder));
        taken
    }

    fn resize(&mut self, inode: u32, size: usize, behind: Option<u32>) {
        let mut fields = [0; 24];
        fields[..8].copy_from_slice(&(size as u64).to_le_bytes());
        fields[8..16].copy_from_slice(&self.clock.to_le_bytes());
        fields[16..24].copy_from_slice(&self.clock.to_le_bytes());
        self.store.propose(inode, 16, &fields, &[], behind);
    }

    /// Reads bytes of a file from a place on: how many there are.
    fn read(&self, number: u32, at: usize, bytes: &mut [u8]) -> usize {
        let inode = self.inode(number);
        let block = self.store.read(inode);
        let size = u64::from_le_bytes(block[16..24].try_into().unwrap()) as usize;
        let count = bytes.len().min(size.saturating_sub(at));
        let mut done = 0;
        while done < count {
            let place = at + done;
            let (source, from, end) = if place < 384 {
                (&block[..], 128 + place, 512)
            } else {
                match self.leaf(inode, (place / BLOCK) as u32) {
                    0 => (&[0; BLOCK][..], place % BLOCK, BLOCK),
                    leaf => (&self.store.read(leaf)[..], place % BLOCK, BLOCK),
                }
            };
            let part = (count - done).min(end - from);
            bytes[done..done + part].copy_from_slice(&source[from..from + part]);
            done += part;
        }
        count
    }
}

fn inode_bytes(mode: u16, parent: u32, time: i64) -> Bytes {
    let mut bytes = [0; BLOCK];
    bytes[0] = DATA;
    bytes[1] = NODE;
    bytes[2..4].copy_from_slice(&mode.to_le_bytes());
    bytes[4] = 1;
    bytes[24..32].copy_from_slice(&time.to_le_bytes());
    bytes[32..40].copy_from_slice(&time.to_le_bytes());
    put_word(&mut bytes, 40, parent);
    bytes
}

fn main() {
    let mut words = std::env::args().skip(1);
    let word = words.next().expect("a word");
    let rounds: u32 = words.next().expect("how many rounds").parse().expect("a number");
    let mut volume = Volume::new(32_768);
    volume.store.flush();
    let mut name = *b"file-00000";
    let mut set = |number: u32| {
        let mut rest = number;
        for digit in name[5..].iter_mut().rev() {
            *digit = b'0' + (rest % 10) as u8;
            rest /= 10;
        }
        name
    };
    let files = if word == "create" { rounds } else { 10_000 };
    for number in 0..files {
        volume.create(1, &set(number)).unwrap();
        if number % 50 == 49 {
            volume.store.flush();
        }
    }
    let parent = volume.inode(1);
    let mut answer = 0u64;
    let mut bytes = [0; 4096];
    match word.as_str() {
        "find" => {
            for number in 0..rounds {
                answer += volume.find(parent, &set(number % 10_000)).map_or(0, u64::from);
            }
        }
        "write" => {
            for number in 0..rounds {
                bytes[0] = number as u8;
                volume.append(2 + number, &bytes);
                if number % 16 == 15 {
                    volume.store.flush();
                }
            }
        }
        "read" => {
            volume.append(2, &bytes);
            for _ in 0..rounds {
                answer += volume.read(2, 0, &mut bytes) as u64;
            }
        }
        _ => {}
    }
    let waves = volume.store.flush();
    let mut hasher = DefaultHasher::new();
    for block in &volume.store.disk {
        hasher.write(block);
    }
    println!("{} edits, {waves} waves, answer {answer}, disk {:016x}", volume.store.edits, hasher.finish());
}
