//! What `collect --window SECONDS --out FOLDER PIPE..` does, in careful Rust without an audit: `collect_peer SECONDS
//! FOLDER PIPE..`. A thread reads each pipe and cuts it at line ends; adders take the pieces from a bounded channel and
//! sum them, first alone and then in a map behind a lock; after each window the map is taken, sorted and written.

use std::collections::HashMap;
use std::fs::{self, File};
use std::io::{BufWriter, Read, Write};
use std::sync::mpsc::{sync_channel, Receiver};
use std::sync::{Arc, Mutex};
use std::thread;
use std::time::{Duration, Instant};

type Sums = HashMap<Vec<u8>, u64>;

fn read_pipe(path: &str, to: &std::sync::mpsc::SyncSender<Vec<u8>>) {
    let mut file = File::open(path).unwrap();
    let mut begun = Vec::new();
    let mut room = vec![0; 65536];
    loop {
        let count = file.read(&mut room).unwrap();
        if count == 0 {
            break;
        }
        match room[..count].iter().rposition(|byte| *byte == b'\n') {
            None => begun.extend_from_slice(&room[..count]),
            Some(at) => {
                begun.extend_from_slice(&room[..=at]);
                let piece = std::mem::replace(&mut begun, room[at + 1..count].to_vec());
                to.send(piece).unwrap();
            }
        }
    }
    if !begun.is_empty() {
        to.send(begun).unwrap();
    }
}

fn add_pieces(pieces: &Mutex<Receiver<Vec<u8>>>, sums: &Mutex<Sums>) {
    loop {
        let Ok(piece) = pieces.lock().unwrap().recv() else { return };
        let mut own: HashMap<&[u8], u64> = HashMap::new();
        for line in std::str::from_utf8(&piece).unwrap().lines() {
            if line.is_empty() {
                continue;
            }
            let (stack, weight) = line.rsplit_once(' ').unwrap();
            *own.entry(stack.as_bytes()).or_default() += weight.parse::<u64>().unwrap();
        }
        let mut all = sums.lock().unwrap();
        for (stack, weight) in own {
            match all.get_mut(stack) {
                Some(sum) => *sum += weight,
                None => {
                    all.insert(stack.to_vec(), weight);
                }
            }
        }
    }
}

fn write(folder: &str, number: u64, sums: Sums) {
    if sums.is_empty() {
        return;
    }
    let mut rows: Vec<_> = sums.into_iter().collect();
    rows.sort_unstable();
    let begun = format!("{folder}/{number}.part");
    let mut file = BufWriter::new(File::create(&begun).unwrap());
    for (stack, weight) in rows {
        file.write_all(&stack).unwrap();
        writeln!(file, " {weight}").unwrap();
    }
    file.into_inner().unwrap().sync_all().unwrap();
    fs::rename(begun, format!("{folder}/{number}.folded")).unwrap();
}

fn main() {
    let words: Vec<String> = std::env::args().collect();
    let (seconds, folder) = (words[1].parse().unwrap(), words[2].clone());
    let (to, pieces) = sync_channel(64);
    let (pieces, sums) = (Arc::new(Mutex::new(pieces)), Arc::new(Mutex::new(Sums::new())));
    for path in words[3..].to_vec() {
        let to = to.clone();
        thread::spawn(move || read_pipe(&path, &to));
    }
    drop(to);
    let adders: Vec<_> = (0..words.len() - 3)
        .map(|_| {
            let (pieces, sums) = (pieces.clone(), sums.clone());
            thread::spawn(move || add_pieces(&pieces, &sums))
        })
        .collect();
    let (mut number, mut begun) = (1, Instant::now());
    loop {
        let is_over = adders.iter().all(|adder| adder.is_finished());
        if is_over || begun.elapsed() >= Duration::from_secs(seconds) {
            write(&folder, number, std::mem::take(&mut *sums.lock().unwrap()));
            number += 1;
            begun = Instant::now();
        }
        if is_over {
            return;
        }
        thread::sleep(Duration::from_millis(5));
    }
}
