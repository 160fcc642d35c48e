//! Prints the report of a script on standard input, and ends with the command's status. From the top of the repository:
//!   rustc -O -L library/out -l static=dex -o replay_rs library/examples/replay.rs && ./replay_rs < examples/two_traders.csv

use std::io::{self, Read, Write};
use std::process::ExitCode;

extern "C" {
    fn dex_replay(script: *const u8, length: usize, room: *mut u8, room_size: usize, size: *mut usize) -> u8;
}

/// What a script was answered: the text where it is a report, else the status and the line that tells why.
fn replay(script: &[u8]) -> Result<Vec<u8>, (u8, Vec<u8>)> {
    let mut room = vec![0; 5 * script.len() + 65536];
    loop {
        let mut size = 0;
        // SAFETY: slices' pointers are not null, and a borrow as `&mut` overlaps nothing. `library/dex.h` says what a caller keeps.
        let status = unsafe { dex_replay(script.as_ptr(), script.len(), room.as_mut_ptr(), room.len(), &mut size) };
        if size > room.len() {
            room.resize(size, 0);
            continue;
        }
        room.truncate(size);
        return if status == 0 { Ok(room) } else { Err((status, room)) };
    }
}

fn main() -> io::Result<ExitCode> {
    let mut script = Vec::new();
    io::stdin().read_to_end(&mut script)?;
    let (status, text) = match replay(&script) {
        Ok(report) => (0, report),
        Err(refusal) => refusal,
    };
    io::stdout().write_all(&text)?;
    Ok(ExitCode::from(status))
}
