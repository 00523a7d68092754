// The clause lines of documents 01 and 02 by plain nested loops, for comparing seconds: `clauses N M REFERENCE LIST` writes what the
// clause program writes for list 1 or 2 and one of two fixed references of 16 states, 2 propositions and 1 set, header left out. The
// reference `one` is one strongly connected component; `many` has eight, of two states each.
// rustc -O clauses.rs
use std::io::Write;

const R: usize = 16;
const K: usize = 2;
const S: usize = 1;
const L: usize = 1 << K;

struct Out {
    buffer: Vec<u8>,
}

impl Out {
    fn literal(&mut self, negative: bool, mut variable: usize) {
        if negative {
            self.buffer.push(b'-');
        }
        let mut digits = [0u8; 20];
        let mut at = 20;
        loop {
            at -= 1;
            digits[at] = b'0' + (variable % 10) as u8;
            variable /= 10;
            if variable == 0 {
                break;
            }
        }
        self.buffer.extend_from_slice(&digits[at..]);
        self.buffer.push(b' ');
    }

    fn end(&mut self) {
        self.buffer.extend_from_slice(b"0\n");
        if self.buffer.len() > 65536 - 80 {
            self.flush();
        }
    }

    fn flush(&mut self) {
        std::io::stdout().lock().write_all(&self.buffer).unwrap();
        self.buffer.clear();
    }
}

/// Where the letters 0 to 3 lead from u.
fn destinations(u: usize, reference: &str) -> [usize; L] {
    match reference {
        "one" => [0, 1, 2, 3].map(|l| (u * 3 + l * 5 + 1) % R),
        // Stay; the other state of the component; the next component; stay.
        "many" => [u, u ^ 1, (u + 2).min(R - 1), u],
        _ => panic!("no such reference"),
    }
}

/// For each two states whether both lie in one component: ways through the states below 1, below 2, .. are joined.
fn components(to: &[[usize; L]; R]) -> [[bool; R]; R] {
    let mut reaches = [[false; R]; R];
    for u in 0..R {
        reaches[u][u] = true;
        for l in 0..L {
            reaches[u][to[u][l]] = true;
        }
    }
    for between in 0..R {
        for u in 0..R {
            for v in 0..R {
                reaches[u][v] |= reaches[u][between] && reaches[between][v];
            }
        }
    }
    let mut together = [[false; R]; R];
    for u in 0..R {
        for v in 0..R {
            together[u][v] = reaches[u][v] && reaches[v][u];
        }
    }
    together
}

fn main() {
    let words: Vec<String> = std::env::args().skip(1).collect();
    let (n, m): (usize, usize) = (words[0].parse().unwrap(), words[1].parse().unwrap());
    let mut to = [[0; L]; R];
    for u in 0..R {
        to[u] = destinations(u, &words[2]);
    }
    let together = if words[3] == "2" { components(&to) } else { [[true; R]; R] };
    let marks = |u: usize, l: usize| (u + l) % (1 << S);
    let (own, other) = (1usize << m, 1usize << S);

    // For each q, u, p, v how many of those before it have paths.
    let mut ends = Vec::with_capacity(n * R * n * R);
    let mut kept = 0;
    for _ in 0..n {
        for u in 0..R {
            for _ in 0..n {
                for v in 0..R {
                    ends.push(kept);
                    if together[u][v] {
                        kept += 1;
                    }
                }
            }
        }
    }
    let step = |q: usize, l: usize, p: usize| 1 + (q * L + l) * n + p;
    let mark = |q: usize, l: usize, i: usize, p: usize| n * n * L + 1 + ((q * L + l) * m + i) * n + p;
    let between = |q: usize, u: usize, p: usize, v: usize| ends[((q * R + u) * n + p) * R + v];
    let path = |between: usize, i: usize, j: usize| n * n * L + n * n * L * m + 1 + (between * own + i) * other + j;
    let mut out = Out { buffer: Vec::with_capacity(65536) };

    for q in 0..n {
        for l in 0..L {
            for p in 0..n {
                out.literal(false, step(q, l, p));
            }
            out.end();
        }
    }
    out.literal(false, path(between(0, 0, 0, 0), 0, 0));
    out.end();
    for q in 0..n {
        for p in 0..n {
            for u in 0..R {
                for l in 0..L {
                    let w = to[u][l];
                    out.literal(true, path(between(q, u, q, u), 0, 0));
                    out.literal(true, step(q, l, p));
                    out.literal(false, path(between(p, w, p, w), 0, 0));
                    out.end();
                }
            }
        }
    }
    for q in 0..n {
        for p in 0..n {
            for t in 0..n {
                for u in 0..R {
                    for v in 0..R {
                        if !together[u][v] {
                            continue;
                        }
                        for l in 0..L {
                            let (w, f) = (to[v][l], marks(v, l));
                            if !together[v][w] {
                                continue;
                            }
                            let (shorter, longer) = (between(q, u, p, v), between(q, u, t, w));
                            for i in 0..own {
                                for j in 0..other {
                                    for k in 0..own {
                                        out.literal(true, path(shorter, i, j));
                                        out.literal(true, step(p, l, t));
                                        for b in 0..m {
                                            out.literal(k >> b & 1 == 1, mark(p, l, b, t));
                                        }
                                        out.literal(false, path(longer, i | k, j | f));
                                        out.end();
                                    }
                                }
                            }
                        }
                    }
                }
            }
        }
    }
    for q in 0..n {
        for p in 0..n {
            for v in 0..R {
                for l in 0..L {
                    let (w, f) = (to[v][l], marks(v, l));
                    if !together[v][w] {
                        continue;
                    }
                    let open = between(q, w, p, v);
                    for i in 0..own {
                        for j in 0..other {
                            for k in 0..own {
                                if (i | k == own - 1) != (j | f == other - 1) {
                                    out.literal(true, path(open, i, j));
                                    out.literal(true, step(p, l, q));
                                    for b in 0..m {
                                        out.literal(k >> b & 1 == 1, mark(p, l, b, q));
                                    }
                                    out.end();
                                }
                            }
                        }
                    }
                }
            }
        }
    }
    out.flush();
}
