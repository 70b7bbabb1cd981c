//! Many clients over one checker. Nodes that all of them use are kept; what a client adds is taken back when its turn ends, so the
//! next one finds the checker as the first did, whatever became of the programs before.

use std::error::Error;
use tsarovima::{Checker, Cycle, Node, Refusal};

/// What is said to a client.
enum Verdict {
    /// The arrow of its last node.
    Sound(String),
    /// The place in its program of the node that was refused, and why.
    Refused(usize, Refusal),
    Endless(Cycle),
    Empty,
}

/// Checks one client's program over the nodes that are kept, and leaves the checker as it was.
fn serve(checker: &mut Checker<'_>, program: &[Node]) -> Verdict {
    let mark = checker.kept();
    let verdict = verdict(checker, program);
    checker.take_back(mark).expect("no client takes back what was kept before it");
    verdict
}

fn verdict(checker: &mut Checker<'_>, program: &[Node]) -> Verdict {
    let mut last = None;
    for (place, node) in program.iter().enumerate() {
        match checker.offer(*node) {
            Ok(kept) => last = Some(kept.number),
            Err(refusal) => return Verdict::Refused(place, refusal),
        }
    }
    match (checker.close(), last) {
        (Err(cycle), _) => Verdict::Endless(cycle),
        (Ok(listing), Some(last)) => listing.arrow(last).map_or(Verdict::Empty, |arrow| Verdict::Sound(arrow.to_string())),
        (Ok(_), None) => Verdict::Empty,
    }
}

fn main() -> Result<(), Box<dyn Error>> {
    let mut checker = Checker::new();

    // Every client may use these: a key, and a node that hands it out whatever comes in.
    let key = checker.offer(Node::Word(8))?.number;
    let unit = checker.offer(Node::Unit)?.number;
    let shared = checker.offer(Node::Comp(unit, key))?.number;
    let next = checker.kept() as u16;

    let clients: [(&str, Vec<Node>); 6] = [
        ("sound", vec![Node::Case(shared, shared)]),
        ("clash", vec![Node::Comp(key, key)]),
        ("endless", vec![Node::Iden, Node::Take(next), Node::Pair(next, next + 1)]),
        ("no such child", vec![Node::InjL(9)]),
        ("too long", vec![Node::Unit; 1022]),
        ("sound again", vec![Node::Case(shared, shared)]),
    ];
    for (name, program) in &clients {
        match serve(&mut checker, program) {
            Verdict::Sound(arrow) => println!("{}: {}", name, arrow),
            Verdict::Refused(place, refusal) => println!("{}: node {} refused: {}", name, place, refusal),
            Verdict::Endless(cycle) => println!("{}: {}", name, cycle),
            Verdict::Empty => println!("{}: no program", name),
        }
    }

    // The same, a thousand times over: nothing is left behind.
    for turn in 0..1000 {
        serve(&mut checker, &clients[turn % clients.len()].1);
    }
    println!("after {} clients {} nodes are kept", 1000 + clients.len(), checker.kept());
    Ok(())
}
