//! Letters that go there and back between two threads over two channels of std: what the bench measures the boxes against.
use std::sync::mpsc::{channel, Receiver, Sender};
use std::thread;

const TRIPS: u32 = 100_000;

#[allow(dead_code)]
#[derive(Clone, Copy)]
struct Reply {
    replica: u32,
    client: u32,
    seq: u32,
    serve: u64,
    stamp: u64,
    value: u32,
}

fn letter(seq: u32) -> Reply {
    Reply { replica: 0, client: 0, seq, serve: 0, stamp: 0, value: 0 }
}

fn ask(to: Sender<Reply>, from: Receiver<Reply>) {
    for k in 0..TRIPS {
        to.send(letter(k)).unwrap();
        from.recv().unwrap();
    }
}

fn answer(to: Sender<Reply>, from: Receiver<Reply>) {
    for k in 0..TRIPS {
        from.recv().unwrap();
        to.send(letter(k)).unwrap();
    }
}

fn main() {
    let (there, asked) = channel();
    let (back, answered) = channel();
    let asker = thread::spawn(move || ask(there, answered));
    answer(back, asked);
    asker.join().unwrap();
}
