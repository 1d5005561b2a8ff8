//! A safe wrapper of the static library. Each call takes what it changes by `&mut`, so that Rust rules out the overlaps that
//! `include/boltclover.h` forbids. No dependency but `core`; for every target that the library is built for.
#![no_std]

#[cfg(not(target_endian = "little"))]
compile_error!("Boltclover is for little-endian targets");

/// A length, room or count of bytes: 64 bits on every target, whatever `usize` has.
type Size = u64;

/// A node's number; `Node::NONE` names none. Not to be mixed up with a vertex's.
#[derive(Clone, Copy, PartialEq, Eq, Debug)]
pub struct Node(pub u16);

/// A vertex's number; `Vertex::NONE` names none.
#[derive(Clone, Copy, PartialEq, Eq, Debug)]
pub struct Vertex(pub u32);

impl Node {
    pub const NONE: Node = Node(u16::MAX);
}

impl Vertex {
    pub const NONE: Vertex = Vertex(u32::MAX);
}

/// The numbers given back.
#[derive(Clone, Copy, PartialEq, Eq, Debug)]
pub enum Refusal {
    /// `Table::fault` says why.
    NotSound = 1,
    NoRecordRoom = 2,
    NoSuchNode = 3,
    NotOuter = 4,
    SameNode = 5,
    TouchOutside = 6,
    NotGrowing = 7,
    NoBlossomSlot = 8,
    NoCommandRoom = 9,
    NoListingRoom = 10,
    NotExpandable = 11,
    BadRecord = 12,
    BadBegin = 13,
}

/// Which of a conflict's two nodes a refusal is for. A virtual conflict's one node is the first.
#[derive(Clone, Copy, PartialEq, Eq, Debug)]
pub enum Side {
    First = 1,
    Second = 2,
}

/// A conflict or a virtual conflict that was refused: the number, and the side, which 3, 4 and 6 name and no other does.
#[derive(Clone, Copy, PartialEq, Eq, Debug)]
pub struct Refused {
    pub refusal: Refusal,
    pub side: Option<Side>,
}

impl From<Refused> for Refusal {
    fn from(refused: Refused) -> Refusal {
        refused.refusal
    }
}

/// The rules that a sound table meets, as docs/RULES-IN-WORDS.md tells them.
#[derive(Clone, Copy, PartialEq, Eq, Debug)]
pub enum Rule {
    S1 = 1,
    S2 = 2,
    S3 = 3,
    S4 = 4,
    S5 = 5,
    S6 = 6,
    S7 = 7,
    S8 = 8,
}

/// Why a table is damaged: the first rule that is broken, and the smallest slot that breaks it.
#[derive(Clone, Copy, PartialEq, Eq, Debug)]
pub struct Fault {
    pub rule: Rule,
    pub slot: Node,
}

/// Why a run stopped.
#[derive(Clone, Copy, PartialEq, Eq, Debug)]
pub enum Stop {
    TapeEmpty,
    AllowanceUsed,
    OutputFull,
    BadRecord,
}

/// Two nodes that touch.
#[derive(Clone, Copy, Debug)]
pub struct Conflict {
    pub node_1: Node,
    pub node_2: Node,
    pub touch_1: Node,
    pub touch_2: Node,
    pub vertex_1: Vertex,
    pub vertex_2: Vertex,
}

/// A node that touches a virtual vertex.
#[derive(Clone, Copy, Debug)]
pub struct VirtualConflict {
    pub node: Node,
    pub touch: Node,
    pub vertex: Vertex,
    pub virtual_vertex: Vertex,
}

/// Whom a defect is paired with, as the defect sees it.
#[derive(Clone, Copy, PartialEq, Eq, Debug)]
pub enum Partner {
    /// No entry of the listing names it.
    Nobody,
    Defect { partner: Node, through: Vertex, peer_through: Vertex },
    Virtual { through: Vertex, virtual_vertex: Vertex },
}

/// What a run hands out. `rest` is the unread part of the tape.
#[derive(Clone, Copy, Debug)]
pub struct Run<'tape> {
    pub stop: Stop,
    pub handled: u32,
    pub written: usize,
    pub rest: &'tape [u8],
}

pub const WORDS: usize = 2819;
pub const COMMAND_ROOM: usize = 4096;
pub const RUN_ROOM: usize = 4104;

/// A table, made or taken from words that were kept. Only the calls change it.
#[derive(Clone)]
pub struct Table {
    words: [u16; WORDS],
}

extern "C" {
    fn boltclover_make(table: *mut u16, begin: u16) -> u16;
    fn boltclover_reset(table: *mut u16) -> u16;
    fn boltclover_sound(table: *const u16) -> u16;
    fn boltclover_fault(table: *const u16, slot: *mut u16) -> u16;
    fn boltclover_conflict(
        table: *mut u16,
        node_1: u16,
        node_2: u16,
        touch_1: u16,
        touch_2: u16,
        vertex_1: u32,
        vertex_2: u32,
        out: *mut u8,
        room: Size,
        written: *mut Size,
        side: *mut u16,
    ) -> u16;
    fn boltclover_virtual_conflict(
        table: *mut u16,
        node: u16,
        touch: u16,
        vertex: u32,
        virtual_vertex: u32,
        out: *mut u8,
        room: Size,
        written: *mut Size,
        side: *mut u16,
    ) -> u16;
    fn boltclover_expand(table: *mut u16, node: u16, out: *mut u8, room: Size, written: *mut Size) -> u16;
    fn boltclover_list(table: *const u16, out: *mut u8, room: Size, written: *mut Size) -> u16;
    fn boltclover_partner(
        table: *const u16,
        defect: u16,
        kind: *mut u16,
        partner: *mut u16,
        through: *mut u32,
        peer_through: *mut u32,
    ) -> u16;
    fn boltclover_run(
        table: *mut u16,
        tape: *const u8,
        length: Size,
        out: *mut u8,
        room: Size,
        allowance: u32,
        stop: *mut u16,
        handled: *mut u32,
        written: *mut Size,
        unread: *mut Size,
    ) -> u16;
}

fn refusal(number: u16) -> Refusal {
    match number {
        1 => Refusal::NotSound,
        2 => Refusal::NoRecordRoom,
        3 => Refusal::NoSuchNode,
        4 => Refusal::NotOuter,
        5 => Refusal::SameNode,
        6 => Refusal::TouchOutside,
        7 => Refusal::NotGrowing,
        8 => Refusal::NoBlossomSlot,
        9 => Refusal::NoCommandRoom,
        10 => Refusal::NoListingRoom,
        11 => Refusal::NotExpandable,
        12 => Refusal::BadRecord,
        13 => Refusal::BadBegin,
        _ => unreachable!("no call gives another number"),
    }
}

fn rule(number: u16) -> Option<Rule> {
    match number {
        0 => None,
        1 => Some(Rule::S1),
        2 => Some(Rule::S2),
        3 => Some(Rule::S3),
        4 => Some(Rule::S4),
        5 => Some(Rule::S5),
        6 => Some(Rule::S6),
        7 => Some(Rule::S7),
        8 => Some(Rule::S8),
        _ => unreachable!("there are eight rules"),
    }
}

fn told<T>(number: u16, done: T) -> Result<T, Refusal> {
    if number == 0 {
        Ok(done)
    } else {
        Err(refusal(number))
    }
}

fn told_with_side<T>(number: u16, side: u16, done: T) -> Result<T, Refused> {
    let side = match side {
        1 => Some(Side::First),
        2 => Some(Side::Second),
        _ => None,
    };
    told(number, done).map_err(|refusal| Refused { refusal, side })
}

impl Table {
    /// A fresh table: slots below `begin`, 1 to 256, are for defects.
    pub fn new(begin: u16) -> Result<Table, Refusal> {
        let mut table = Table { words: [0; WORDS] };
        let number = unsafe { boltclover_make(table.words.as_mut_ptr(), begin) };
        told(number, table)
    }

    pub fn reset(&mut self) -> Result<(), Refusal> {
        told(unsafe { boltclover_reset(self.words.as_mut_ptr()) }, ())
    }

    pub fn is_sound(&self) -> bool {
        unsafe { boltclover_sound(self.words.as_ptr()) == 1 }
    }

    /// Why the table is damaged; `None` exactly if it is sound.
    pub fn fault(&self) -> Option<Fault> {
        let mut slot = 0;
        let number = unsafe { boltclover_fault(self.words.as_ptr(), &mut slot) };
        rule(number).map(|rule| Fault { rule, slot: Node(slot) })
    }

    /// A table from words that were kept, whatever they are: every call finds out whether it is sound.
    pub fn from_words(words: [u16; WORDS]) -> Table {
        Table { words }
    }

    /// The words to keep. As bytes, the low one first, they are what `./boltclover fault` reads.
    pub fn words(&self) -> &[u16; WORDS] {
        &self.words
    }

    /// The commands, in the first bytes of `out`, which has at least `COMMAND_ROOM` bytes.
    pub fn conflict<'out>(&mut self, c: Conflict, out: &'out mut [u8]) -> Result<&'out [u8], Refused> {
        let (mut written, mut side) = (0, 0);
        let number = unsafe {
            boltclover_conflict(
                self.words.as_mut_ptr(),
                c.node_1.0,
                c.node_2.0,
                c.touch_1.0,
                c.touch_2.0,
                c.vertex_1.0,
                c.vertex_2.0,
                out.as_mut_ptr(),
                out.len() as Size,
                &mut written,
                &mut side,
            )
        };
        told_with_side(number, side, &out[..written as usize])
    }

    pub fn virtual_conflict<'out>(&mut self, c: VirtualConflict, out: &'out mut [u8]) -> Result<&'out [u8], Refused> {
        let (mut written, mut side) = (0, 0);
        let number = unsafe {
            boltclover_virtual_conflict(
                self.words.as_mut_ptr(),
                c.node.0,
                c.touch.0,
                c.vertex.0,
                c.virtual_vertex.0,
                out.as_mut_ptr(),
                out.len() as Size,
                &mut written,
                &mut side,
            )
        };
        told_with_side(number, side, &out[..written as usize])
    }

    pub fn expand<'out>(&mut self, node: Node, out: &'out mut [u8]) -> Result<&'out [u8], Refusal> {
        let mut written = 0;
        let number = unsafe { boltclover_expand(self.words.as_mut_ptr(), node.0, out.as_mut_ptr(), out.len() as Size, &mut written) };
        told(number, &out[..written as usize])
    }

    /// The pairs, in the first bytes of `out`, which has at least 16 bytes for each present defect.
    pub fn list<'out>(&self, out: &'out mut [u8]) -> Result<&'out [u8], Refusal> {
        let mut written = 0;
        let number = unsafe { boltclover_list(self.words.as_ptr(), out.as_mut_ptr(), out.len() as Size, &mut written) };
        told(number, &out[..written as usize])
    }

    /// Whom a present defect is paired with: what the listing says of it, with no list written.
    pub fn partner(&self, defect: Node) -> Result<Partner, Refusal> {
        let (mut kind, mut partner, mut through, mut peer_through) = (0, 0, 0, 0);
        let number = unsafe { boltclover_partner(self.words.as_ptr(), defect.0, &mut kind, &mut partner, &mut through, &mut peer_through) };
        let (partner, through, peer_through) = (Node(partner), Vertex(through), Vertex(peer_through));
        let answer = match kind {
            0 => Partner::Nobody,
            1 => Partner::Defect { partner, through, peer_through },
            _ => Partner::Virtual { through, virtual_vertex: peer_through },
        };
        told(number, answer)
    }

    /// Handles the requests of a tape, at most `allowance` of them, padded with zeros to a multiple of four bytes or not. The answers are
    /// the first `written` bytes of `out`.
    pub fn run<'tape>(&mut self, tape: &'tape [u8], out: &mut [u8], allowance: u32) -> Result<Run<'tape>, Refusal> {
        let (mut stop, mut handled, mut written, mut unread) = (0, 0, 0, 0);
        let number = unsafe {
            boltclover_run(
                self.words.as_mut_ptr(),
                tape.as_ptr(),
                tape.len() as Size,
                out.as_mut_ptr(),
                out.len() as Size,
                allowance,
                &mut stop,
                &mut handled,
                &mut written,
                &mut unread,
            )
        };
        let stop = match stop {
            0 => Stop::TapeEmpty,
            1 => Stop::AllowanceUsed,
            2 => Stop::OutputFull,
            _ => Stop::BadRecord,
        };
        let (written, unread) = (written as usize, unread as usize);
        told(number, Run { stop, handled, written, rest: &tape[tape.len() - unread..] })
    }
}
