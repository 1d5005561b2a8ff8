//! A caller of the wrapper: makes a table, brings two events into conflict, lists the pair, is refused, runs a tape, and asks what is wrong with a
//! damaged table.
use boltclover::{Conflict, Node, Table, Vertex, VirtualConflict};

fn narrow(bytes: &[u8]) -> u16 {
    u16::from_le_bytes([bytes[0], bytes[1]])
}

fn wide(bytes: &[u8]) -> u32 {
    u32::from_le_bytes([bytes[0], bytes[1], bytes[2], bytes[3]])
}

/// Says each record in words.
fn say(mut bytes: &[u8]) {
    while !bytes.is_empty() {
        let (record, rest) = bytes.split_at(2 + narrow(bytes) as usize);
        let field = &record[4..];
        match narrow(&record[2..]) {
            16 => println!("  node {} {}", narrow(field), ["stays", "grows", "shrinks"][narrow(&field[2..]) as usize]),
            17 => println!("  blossom {} is made", narrow(field)),
            18 => println!("  blossom {} is taken apart", narrow(field)),
            19 if narrow(&field[2..]) > 0 => println!("  end {} at side {}", narrow(field), narrow(&field[2..])),
            19 => println!("  end {}", narrow(field)),
            20 => println!("  {} pairs with {}, through vertices {} and {}", narrow(field), narrow(&field[2..]), wide(&field[4..]), wide(&field[8..])),
            _ => println!("  {} pairs with the virtual vertex {}, through vertex {}", narrow(field), wide(&field[6..]), wide(&field[2..])),
        }
        bytes = rest;
    }
}

/// Two defects that touch, each by itself.
fn touch(node_1: u16, node_2: u16) -> Conflict {
    Conflict {
        node_1: Node(node_1),
        node_2: Node(node_2),
        touch_1: Node(node_1),
        touch_2: Node(node_2),
        vertex_1: Vertex(10 + node_1 as u32),
        vertex_2: Vertex(10 + node_2 as u32),
    }
}

fn main() {
    let mut out = [0u8; 8192];
    println!("make a table of 0 defect slots: {:?}", Table::new(0).err());
    let mut table = Table::new(128).unwrap();

    println!("conflict of 0 and 1:");
    say(table.conflict(touch(0, 1), &mut out).unwrap());
    println!("list:");
    say(table.list(&mut out).unwrap());
    println!("partner of 1: {:?}", table.partner(Node(1)));
    println!("partner of 2: {:?}", table.partner(Node(2)));

    println!("conflict of 0 with itself: {:?}", table.conflict(touch(0, 0), &mut out));
    println!("conflict of 2 with 256: {:?}", table.conflict(touch(2, 256), &mut out));
    println!("conflict with 4,095 bytes of room: {:?}", table.conflict(touch(2, 3), &mut out[..4095]));
    println!("expansion of 128: {:?}", table.expand(Node(128), &mut out));
    let virtual_conflict = VirtualConflict { node: Node(2), touch: Node(2), vertex: Vertex::NONE, virtual_vertex: Vertex(99) };
    println!("virtual conflict at no vertex: {:?}", table.virtual_conflict(virtual_conflict, &mut out));

    // Conflict 2 with 0 and 2 with 1, which makes a blossom; then the listing; then a record that is cut short.
    let mut tape = vec![];
    for (a, b) in [(2, 0), (2, 1)] {
        for field in [18, 1, a, b, a, b, 10 + a, 0, 10 + b, 0u16] {
            tape.extend(field.to_le_bytes());
        }
    }
    tape.extend([2, 0, 5, 0, 18, 0]);
    let run = table.run(&tape, &mut out, 1000).unwrap();
    println!("run of {} bytes: {:?}, {} handled, {} bytes, {} unread", tape.len(), run.stop, run.handled, run.written, run.rest.len());
    say(&out[..run.written]);
    println!("sound: {}, fault: {:?}", table.is_sound(), table.fault());

    // The same table with a word overwritten.
    let mut words = *table.words();
    words[0] = 77;
    let damaged = Table::from_words(words);
    println!("with a word overwritten: {}, fault: {:?}", damaged.is_sound(), damaged.fault());
}
