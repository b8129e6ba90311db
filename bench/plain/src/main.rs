//! The service's job in plain Rust (docs/RULES.md): messages on standard input, a line for each on standard output. It
//! is written to be fast and proves nothing; bench/run measures the service beside it, and holds both to the same lines.

mod table;

use std::io::{self, Read, Write};
use table::{Answer, Table};

fn main() {
    // A reader that goes away ends the run quietly.
    let _ = serve();
}

fn serve() -> io::Result<()> {
    let mut input = io::stdin().lock();
    let mut output = io::stdout().lock();
    let mut table = Table::closed();
    let mut buffer = vec![0; 1 << 16];
    let mut lines = Vec::with_capacity(1 << 20);
    let mut waiting = 0;
    loop {
        let got = input.read(&mut buffer[waiting..])?;
        let end = waiting + got;
        let mut at = 0;
        let mut over = got == 0;
        // Every whole message at hand, and one write for all their lines.
        loop {
            let rest = &buffer[at..end];
            if rest.is_empty() {
                break;
            }
            let length = match rest {
                [1, high, low, ..] => usize::from(*high) << 8 | usize::from(*low),
                [1] | [1, _] => 0,
                _ => usize::MAX,
            };
            let cut = rest.len() < 3 || rest.len() - 3 < length;
            if length > 160 || cut && got == 0 {
                lines.extend_from_slice(b"refused 11\n");
                over = true;
                break;
            }
            if cut {
                break;
            }
            answer(&mut table, &rest[3..3 + length], &mut lines);
            at += 3 + length;
        }
        output.write_all(&lines)?;
        output.flush()?;
        lines.clear();
        if over {
            return Ok(());
        }
        buffer.copy_within(at..end, 0);
        waiting = end - at;
    }
}

fn word(bytes: &[u8]) -> u32 {
    u32::from_be_bytes([bytes[0], bytes[1], bytes[2], bytes[3]])
}

fn answer(table: &mut Table, body: &[u8], lines: &mut Vec<u8>) {
    let right = match body {
        [0, fields @ ..] => fields.len() >= 4 && fields.len() % 4 == 0,
        [8, fields @ ..] => fields.len() % 4 == 0,
        [1, ..] => body.len() == 2,
        [2, ..] => body.len() == 10,
        [3, ..] => body.len() == 6,
        [4..=6, ..] => body.len() == 5,
        [7 | 9, ..] => body.len() == 1,
        _ => false,
    };
    if !right {
        return line(lines, Answer::Refused(10));
    }
    let kind = body[0];
    if kind != 0 && table.is_closed() {
        return line(lines, Answer::Refused(1));
    }
    let said = match kind {
        0 => table.open(word(&body[1..]), &body[5..]),
        1 => table.begin(body[1]),
        2 => table.ticket(word(&body[1..]), body[5], word(&body[6..])),
        3 => table.prepared(word(&body[1..]), body[5]),
        4 => table.abort(word(&body[1..])),
        5 => table.decide(word(&body[1..])),
        6 => table.forget(word(&body[1..])),
        7 => table.sweep(),
        8 => table.propose(&body[1..]),
        _ => {
            lines.extend_from_slice(b"order");
            table.order(|n| number(lines, n));
            return lines.push(b'\n');
        }
    };
    line(lines, said);
}

fn line(lines: &mut Vec<u8>, said: Answer) {
    let (text, n) = match said {
        Answer::Ok => return lines.extend_from_slice(b"ok\n"),
        Answer::Good => return lines.extend_from_slice(b"good\n"),
        Answer::Bad => return lines.extend_from_slice(b"bad\n"),
        Answer::Begin(n) => (&b"begin"[..], n),
        Answer::Commit(n) => (&b"commit"[..], n),
        Answer::Cycle(n) => (&b"cycle"[..], n),
        Answer::Swept(n) => (&b"swept"[..], n),
        Answer::Refused(n) => (&b"refused"[..], n),
    };
    lines.extend_from_slice(text);
    number(lines, n);
    lines.push(b'\n');
}

/// A space and a decimal number.
fn number(lines: &mut Vec<u8>, mut n: u32) {
    let mut digits = [b' '; 11];
    let mut at = digits.len();
    loop {
        at -= 1;
        digits[at] = b'0' + (n % 10) as u8;
        n /= 10;
        if n == 0 {
            break;
        }
    }
    lines.extend_from_slice(&digits[at - 1..]);
}
