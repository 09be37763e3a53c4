// The same job as crates/storagebench, in plain Rust: inserts in random order into an ordered table, and ranks opened and closed in a full triangle.
// Its arguments are `inserts` or `ranks`, how many, and how often. It prints a sum over what it made, and the time to standard error.
use std::cmp::Ordering;
use std::time::Instant;

#[derive(Clone, Copy)]
struct Row {
    code: u64,
    fields: [u64; 7],
}

const BLANK: Row = Row { code: 0, fields: [0; 7] };

#[derive(Clone, Copy)]
struct Value {
    #[allow(dead_code)]
    negative: bool,
    mantissa: u64,
    #[allow(dead_code)]
    exponent: i8,
}

const ZERO: Value = Value { negative: false, mantissa: 0, exponent: 0 };

fn scatter(x: u64) -> u64 {
    let a = x ^ (x << 13);
    let b = a ^ (a >> 7);
    b ^ (b << 17)
}

fn seek(rows: &[Row], used: usize, code: u64) -> Result<usize, usize> {
    let mut low = 0;
    let mut high = used;
    while low < high {
        let mid = low + (high - low) / 2;
        match rows[mid].code.cmp(&code) {
            Ordering::Less => low = mid + 1,
            Ordering::Equal => return Ok(mid),
            Ordering::Greater => high = mid,
        }
    }
    Err(low)
}

fn put(rows: &mut [Row], used: usize, row: Row) -> Option<usize> {
    match seek(rows, used, row.code) {
        Ok(k) => {
            rows[k] = row;
            Some(used)
        }
        Err(k) => {
            if used == rows.len() {
                return None;
            }
            rows.copy_within(k..used, k + 1);
            rows[k] = row;
            Some(used + 1)
        }
    }
}

fn insert_all(rows: &mut [Row], n: usize) -> usize {
    rows.fill(BLANK);
    let mut used = 0;
    let mut x = 88172645463325252u64;
    for _ in 0..n {
        x = scatter(x);
        if let Some(more) = put(rows, used, Row { code: x, fields: [x; 7] }) {
            used = more;
        }
    }
    used
}

fn tri(n: usize) -> usize {
    n * (n + 1) / 2
}

fn open_rank(cells: &mut [Value], n: usize, r: usize) -> bool {
    if n >= 2000 || r > n || tri(n + 1) > cells.len() {
        return false;
    }
    for i in (r..n).rev() {
        let from = tri(i);
        let to = tri(i + 1);
        cells.copy_within(from..from + r, to);
        cells.copy_within(from + r..from + i + 1, to + r + 1);
    }
    cells[tri(r)..tri(r + 1)].fill(ZERO);
    for k in r + 1..n + 1 {
        cells[tri(k) + r] = ZERO;
    }
    true
}

fn close_rank(cells: &mut [Value], n: usize, r: usize) -> bool {
    if n > 2000 || r >= n || tri(n) > cells.len() {
        return false;
    }
    for i in r..n - 1 {
        let to = tri(i);
        let from = tri(i + 1);
        cells.copy_within(from..from + r, to);
        cells.copy_within(from + r + 1..from + i + 2, to + r);
    }
    cells[tri(n - 1)..tri(n)].fill(ZERO);
    true
}

fn inserts(n: usize, times: usize) {
    let mut rows = vec![BLANK; n];
    let start = Instant::now();
    let mut used = 0;
    for _ in 0..times {
        used = insert_all(&mut rows, n);
    }
    let nanos = start.elapsed().as_nanos();
    let mut sum = 0u64;
    for (i, r) in rows.iter().enumerate() {
        sum = sum.wrapping_add(r.code.wrapping_mul(i as u64)).wrapping_add(r.fields[6]);
    }
    println!("{used} records, sum {sum}");
    eprintln!("{nanos}");
}

fn ranks(n: usize, times: usize) {
    let mut cells = vec![ZERO; tri(n)];
    let mut x = 88172645463325252u64;
    for c in cells.iter_mut() {
        x = scatter(x);
        *c = Value { negative: x & 1 == 1, mantissa: x >> 8, exponent: 3 };
    }
    let start = Instant::now();
    let mut granted = 0;
    for k in 0..times {
        let r = k.wrapping_mul(577) % n;
        granted += close_rank(&mut cells, n, r) as usize;
        granted += open_rank(&mut cells, n - 1, r) as usize;
    }
    let nanos = start.elapsed().as_nanos();
    let mut sum = 0u64;
    for (i, c) in cells.iter().enumerate() {
        sum = sum.wrapping_add(c.mantissa.wrapping_mul(i as u64));
    }
    println!("{granted} ranks turned, sum {sum}");
    eprintln!("{nanos}");
}

fn main() {
    let words: Vec<String> = std::env::args().collect();
    let n = words[2].parse().unwrap();
    let times = words[3].parse().unwrap();
    if words[1] == "inserts" {
        inserts(n, times)
    } else {
        ranks(n, times)
    }
}
