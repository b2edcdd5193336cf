//! A plain comm manager for one thread: it plays a script as `comm_driver` without an argument does, and writes the
//! same text, with the same limits and stock. It changes states in place, and keeps no history.
mod changes;
mod lines;
mod out;
mod player;
mod val;

use player::Player;
use std::io::{BufRead, BufReader, Write};

const PIECE: usize = 1 << 16;

fn or_exit<T>(result: std::io::Result<T>) -> T {
    result.unwrap_or_else(|_| std::process::exit(1))
}

fn main() {
    if std::env::args_os().len() > 1 {
        std::process::exit(3);
    }
    let mut input = BufReader::with_capacity(PIECE, std::io::stdin().lock());
    let mut stdout = std::io::stdout().lock();
    let mut player = Player::new();
    let mut line = Vec::new();
    let mut number = 0;
    while or_exit(input.read_until(b'\n', &mut line)) > 0 {
        number += 1;
        if line.last() == Some(&b'\n') {
            line.pop();
        }
        if !line.iter().all(|b| matches!(b, b' ' | b'\t' | b'\r')) {
            player.line(number, &line);
        }
        if player.out.len() >= PIECE {
            or_exit(stdout.write_all(&player.out));
            player.out.clear();
        }
        line.clear();
    }
    or_exit(stdout.write_all(&player.out));
}
