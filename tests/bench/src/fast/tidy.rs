//! The tidy table over the places: what is kept is found first, with its new
//! numbers and where its transfers stand; then each kept piece is copied whole,
//! and the names in it are put right.

use super::check::check_into;
use super::places::Places;
use super::rules::Code;
use super::Refusal;

const ABSENT: u8 = u8::MAX;

/// Writes the tidy table, and gives its length.
#[inline(never)]
pub fn tidy(table: &[u8], out: &mut [u8]) -> Result<usize, Refusal> {
    let mut places = Places::new();
    check_into(table, &mut places)?;
    let mut kept = Kept {
        t: table,
        places: &places,
        functions: List::new(),
        blocks: [List::new(); 16],
        spawns: [List::new(); 16],
        transfers: [0; 512],
    };
    let length = kept.find();
    let out = out.get_mut(..length).ok_or(Refusal::Plain(23))?;
    kept.write(out);
    Ok(length)
}

/// Old numbers in their new order, and the new number of each.
#[derive(Clone, Copy)]
struct List<const N: usize> {
    order: [u8; N],
    number: [u8; N],
    count: u8,
}

impl<const N: usize> List<N> {
    fn new() -> Self {
        List {
            order: [0; N],
            number: [ABSENT; N],
            count: 0,
        }
    }

    #[inline(always)]
    fn mention(&mut self, name: u8) {
        let number = &mut self.number[usize::from(name)];
        if *number == ABSENT {
            *number = self.count;
            self.order[usize::from(self.count)] = name;
            self.count += 1;
        }
    }

    #[inline(always)]
    fn get(&self, place: usize) -> Option<usize> {
        (place < usize::from(self.count)).then(|| self.order[place].into())
    }

    fn old(&self) -> impl Iterator<Item = usize> + '_ {
        self.order[..usize::from(self.count)]
            .iter()
            .map(|&name| name.into())
    }
}

/// What a table keeps: functions, and of each by its old number the blocks and
/// the spawn calls; where the transfer of block b of function f stands, at
/// 32 f + b.
struct Kept<'a> {
    t: &'a [u8],
    places: &'a Places,
    functions: List<16>,
    blocks: [List<32>; 16],
    spawns: [List<8>; 16],
    transfers: [u16; 512],
}

impl Kept<'_> {
    /// Finds what is kept, and gives the tidy table's length.
    fn find(&mut self) -> usize {
        let mut length = 6;
        let mut k = 0;
        self.functions.mention(0);
        while let Some(f) = self.functions.get(k) {
            length += 4 + self.find_blocks(f);
            k += 1;
        }
        length
    }

    /// The same of a function: the bytes of its kept blocks and spawn calls.
    fn find_blocks(&mut self, f: usize) -> usize {
        let (t, places) = (self.t, self.places);
        let code = Code::new(t, places);
        let (blocks, spawns) = (&mut self.blocks[f], &mut self.spawns[f]);
        let functions = &mut self.functions;
        let mut spawned = |functions: &mut List<16>, spawn: u8| {
            spawns.mention(spawn);
            functions.mention(t[places.spawn(f, spawn.into()).unwrap_or(0)]);
        };
        let mut length = 0;
        let mut k = 0;
        blocks.mention(0);
        while let Some(b) = blocks.get(k) {
            let head = places.block(f, b).unwrap_or(0);
            let nesting = head + usize::from(t[head]) + 3;
            let depth = usize::from(t[nesting]);
            for &spawn in &t[nesting + 1..nesting + 1 + depth] {
                spawned(functions, spawn);
            }
            let at = code.transfer(head);
            self.transfers[32 * f + b] = at as u16;
            match t[at] {
                0 => blocks.mention(t[at + 1]),
                1 => {
                    let end = code.expression_end(at + 1);
                    blocks.mention(t[end]);
                    blocks.mention(t[end + 1]);
                }
                2 => {
                    functions.mention(t[at + 1]);
                    blocks.mention(t[behind_call(t, at)]);
                }
                3 => {}
                4 => {
                    blocks.mention(t[at + 1]);
                    spawned(functions, t[at + 2]);
                }
                _ => {
                    blocks.mention(t[at + 1]);
                    blocks.mention(t[at + 2]);
                }
            }
            length += self.places.end_of_block(f, b, t.len()) - head;
            k += 1;
        }
        let spawn_length = |s| spawn_bytes(t, places, f, s).len();
        length + self.spawns[f].old().map(spawn_length).sum::<usize>()
    }

    /// Writes the tidy table where there is just room for it.
    fn write(&self, out: &mut [u8]) {
        let length = out.len() as u32;
        out[..4].copy_from_slice(&length.to_be_bytes());
        out[4] = 1;
        out[5] = self.functions.count;
        let mut at = 6;
        for f in self.functions.old() {
            at = self.write_function(f, out, at);
        }
    }

    fn write_function(&self, f: usize, out: &mut [u8], mut at: usize) -> usize {
        let begin = self.places.function(f).unwrap_or(0);
        out[at..at + 2].copy_from_slice(&self.t[begin..begin + 2]);
        out[at + 2] = self.blocks[f].count;
        out[at + 3] = self.spawns[f].count;
        at += 4;
        for s in self.spawns[f].old() {
            let spawn = spawn_bytes(self.t, self.places, f, s);
            let copied = &mut out[at..at + spawn.len()];
            copied.copy_from_slice(spawn);
            renamed(&self.functions, &mut copied[0]);
            at += spawn.len();
        }
        for b in self.blocks[f].old() {
            let head = self.places.block(f, b).unwrap_or(0);
            let block = &self.t[head..self.places.end_of_block(f, b, self.t.len())];
            let copied = &mut out[at..at + block.len()];
            copied.copy_from_slice(block);
            self.rename(f, usize::from(self.transfers[32 * f + b]) - head, copied);
            at += block.len();
        }
        at
    }

    /// Puts the names of a block right, whose transfer stands at an offset.
    #[inline(always)]
    fn rename(&self, f: usize, at: usize, block: &mut [u8]) {
        let (blocks, spawns) = (&self.blocks[f], &self.spawns[f]);
        let nesting = usize::from(block[0]) + 3;
        let depth = usize::from(block[nesting]);
        for name in &mut block[nesting + 1..nesting + 1 + depth] {
            renamed(spawns, name);
        }
        let last = block.len() - 1;
        match block[at] {
            0 => renamed(blocks, &mut block[at + 1]),
            2 => {
                renamed(&self.functions, &mut block[at + 1]);
                renamed(blocks, &mut block[last]);
            }
            3 => {}
            4 => {
                renamed(blocks, &mut block[at + 1]);
                renamed(spawns, &mut block[at + 2]);
            }
            _ => {
                renamed(blocks, &mut block[last - 1]);
                renamed(blocks, &mut block[last]);
            }
        }
    }
}

#[inline(always)]
fn renamed<const N: usize>(list: &List<N>, name: &mut u8) {
    *name = list.number[usize::from(*name)];
}

/// The offset of a call's return block.
#[inline(always)]
fn behind_call(t: &[u8], at: usize) -> usize {
    at + 3 + usize::from(t[at + 2])
}

/// The bytes of a spawn call.
#[inline(always)]
fn spawn_bytes<'a>(t: &'a [u8], places: &Places, f: usize, s: usize) -> &'a [u8] {
    let at = places.spawn(f, s).unwrap_or(0);
    &t[at..at + 2 + usize::from(t[at + 1])]
}
