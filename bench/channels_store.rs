//! A small store over channels of std: what the bench measures a run of the store against. Each client and each replica has a thread of its
//! own, a ticket is one `fetch_add`, and a replica holds its pairs in a `HashMap`.
//!
//! usage: channels_store CLIENTS REPLICAS CALLS KEYS READ_QUORUM WRITE_QUORUM
use std::collections::HashMap;
use std::env;
use std::sync::atomic::{AtomicU64, Ordering};
use std::sync::mpsc::{channel, Receiver, Sender};
use std::sync::Arc;
use std::thread;

#[derive(Clone, Copy)]
enum Ask {
    Read,
    Write { value: u32 },
    Repair { stamp: u64, value: u32 },
}

#[derive(Clone, Copy)]
struct Request {
    client: u32,
    seq: u32,
    start: u64,
    key: u32,
    ask: Ask,
}

#[derive(Clone, Copy)]
enum Note {
    Ask(Request),
    Done,
}

#[derive(Clone, Copy)]
struct Reply {
    replica: u32,
    seq: u32,
    serve: u64,
    stamp: u64,
    value: u32,
}

struct Entry {
    start: u64,
    finish: u64,
    took: Vec<Reply>,
}

#[derive(Clone, Copy)]
struct Settings {
    clients: u32,
    replicas: u32,
    calls: u32,
    keys: u32,
    read_quorum: usize,
    write_quorum: usize,
}

/// Serves requests until every client is done, and gives the journal.
fn serve(replica: u32, clients: u32, clock: &AtomicU64, inbox: Receiver<Note>, outboxes: Vec<Sender<Reply>>) -> Vec<(Request, Reply)> {
    let mut held: HashMap<u32, (u64, u32)> = HashMap::new();
    let mut journal = Vec::new();
    let mut done = 0;
    while done < clients {
        let Note::Ask(request) = inbox.recv().unwrap() else {
            done += 1;
            continue;
        };
        let serve = clock.fetch_add(1, Ordering::SeqCst);
        let pair = held.entry(request.key).or_default();
        let (stamp, value) = match request.ask {
            Ask::Read => *pair,
            Ask::Write { value } => (request.start, value),
            Ask::Repair { stamp, value } => (stamp, value),
        };
        if stamp > pair.0 {
            *pair = (stamp, value);
        }
        let reply = Reply { replica, seq: request.seq, serve, stamp, value };
        journal.push((request, reply));
        if !matches!(request.ask, Ask::Repair { .. }) {
            // A client that is done takes no more replies.
            let _ = outboxes[request.client as usize].send(reply);
        }
    }
    journal
}

/// The first replies to this call of different replicas, as many as the quorum.
fn take(inbox: &Receiver<Reply>, seq: u32, quorum: usize) -> Vec<Reply> {
    let mut took: Vec<Reply> = Vec::new();
    while took.len() < quorum {
        let reply = inbox.recv().unwrap();
        if reply.seq == seq && took.iter().all(|other| other.replica != reply.replica) {
            took.push(reply);
        }
    }
    took
}

/// Sends the freshest pair to each replica whose reply is older.
fn repair(read: Request, finish: u64, took: &[Reply], outboxes: &[Sender<Note>]) {
    let freshest = took.iter().fold(took[0], |best, reply| if reply.stamp > best.stamp { *reply } else { best });
    for older in took.iter().filter(|reply| reply.stamp < freshest.stamp) {
        let ask = Ask::Repair { stamp: freshest.stamp, value: freshest.value };
        outboxes[older.replica as usize].send(Note::Ask(Request { start: finish, ask, ..read })).unwrap();
    }
}

/// Makes the calls of a client, and gives an entry for each.
fn make_calls(client: u32, of: Settings, clock: &AtomicU64, inbox: Receiver<Reply>, outboxes: Vec<Sender<Note>>) -> Vec<Entry> {
    let mut word = 12345 + u64::from(client);
    let mut entries = Vec::new();
    for seq in 1..=of.calls {
        word ^= word << 13;
        word ^= word >> 7;
        word ^= word << 17;
        let key = (word % u64::from(of.keys)) as u32;
        let (ask, quorum) = match (word >> 32) % 2 {
            0 => (Ask::Write { value: client * of.calls + seq }, of.write_quorum),
            _ => (Ask::Read, of.read_quorum),
        };
        let start = clock.fetch_add(1, Ordering::SeqCst);
        let request = Request { client, seq, start, key, ask };
        for outbox in &outboxes {
            outbox.send(Note::Ask(request)).unwrap();
        }
        let took = take(&inbox, seq, quorum);
        let finish = clock.fetch_add(1, Ordering::SeqCst);
        if let Ask::Read = ask {
            repair(request, finish, &took, &outboxes);
        }
        entries.push(Entry { start, finish, took });
    }
    for outbox in &outboxes {
        outbox.send(Note::Done).unwrap();
    }
    entries
}

/// As many channels: their senders, and their receivers.
fn channels<T>(count: u32) -> (Vec<Sender<T>>, Vec<Receiver<T>>) {
    (0..count).map(|_| channel()).unzip()
}

fn settings() -> Settings {
    let mut numbers = env::args().skip(1).map(|word| word.parse::<u32>().unwrap());
    let mut next = || numbers.next().unwrap();
    Settings {
        clients: next(),
        replicas: next(),
        calls: next(),
        keys: next(),
        read_quorum: next() as usize,
        write_quorum: next() as usize,
    }
}

fn main() {
    let of = settings();
    let clock = Arc::new(AtomicU64::new(1));
    let (to_replicas, asked) = channels(of.replicas);
    let (to_clients, answered) = channels(of.clients);
    let mut replicas = Vec::new();
    for (replica, inbox) in (0..).zip(asked) {
        let (clock, outboxes) = (Arc::clone(&clock), to_clients.clone());
        replicas.push(thread::spawn(move || serve(replica, of.clients, &clock, inbox, outboxes)));
    }
    let mut clients = Vec::new();
    for (client, inbox) in (0..).zip(answered) {
        let (clock, outboxes) = (Arc::clone(&clock), to_replicas.clone());
        clients.push(thread::spawn(move || make_calls(client, of, &clock, inbox, outboxes)));
    }
    let entries: Vec<Vec<Entry>> = clients.into_iter().map(|client| client.join().unwrap()).collect();
    let journals: Vec<Vec<(Request, Reply)>> = replicas.into_iter().map(|replica| replica.join().unwrap()).collect();
    let took: usize = entries.iter().flatten().map(|entry| entry.took.len()).sum();
    let last = entries.iter().flatten().map(|entry| entry.finish.max(entry.start)).max().unwrap();
    let served = journals.iter().flatten().map(|(_, reply)| reply.serve).max().unwrap();
    println!("{took} replies taken, ticket {last} the last of a call, {served} the last served");
}
