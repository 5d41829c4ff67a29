//! Programs that are no lifters at all: each does something odd.

use std::io::{self, Read, Write};
use std::process::{Command, abort, exit};
use std::thread::sleep;
use std::time::Duration;

fn main() {
    let odd = std::env::args().nth(1).unwrap_or_default();
    let mut out = io::stdout().lock();
    match odd.as_str() {
        "nothing" => {}
        "status" => {
            eprintln!("\u{1b}[31mno\u{7} luck");
            exit(3);
        }
        "abort" => abort(),
        "hang" => sleep(Duration::from_secs(100)),
        // It reads nothing, so that the pipe of its input is never emptied.
        "hang with children" => {
            let mut children = Command::new("sh");
            // The number of a child, where somebody asks for it.
            let file = std::env::args().nth(2).unwrap_or("/dev/null".to_string());
            children.args(["-c", "sleep 100 & echo $! >\"$0\"; sleep 100", &file]);
            let _ = children.status();
        }
        "leave a child" => {
            let mut child = Command::new("sh");
            let file = std::env::args().nth(2).unwrap_or_default();
            let leave = "sleep 100 <&- >&- 2>&- & echo $! >\"$0\"";
            let _ = child.args(["-c", leave, &file]).status();
        }
        "child keeps the output" => {
            let _ = Command::new("sleep").arg("100").spawn();
        }
        "endless" => while out.write_all(&[b'1'; 4096]).is_ok() {},
        "endless errors" => {
            let mut text = String::new();
            let _ = io::stdin().read_to_string(&mut text);
            for _ in 0..1_000 {
                let _ = io::stderr().write_all(&[b'e'; 4096]);
            }
        }
        "rubbish" => {
            let _ = out.write_all(b"\xff\x00\x1b[31m rubbish\n\n");
        }
        _ => {
            let _ = out.write_all(odd.as_bytes());
        }
    }
}
