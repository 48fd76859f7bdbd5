// What `latchsym trace FILE` does, in plain safe Rust as one writes it without thinking of speed: the lines are read into a
// list of commands and then run over a chain in words, readers stand in a map, and the output is kept to the end. A peer to
// measure against, with the same output.
use std::collections::BTreeMap;
use std::io::Write;
#[derive(Clone, Copy)]
struct Item {
    a: u64,
    b: u64,
    tag: u64,
}
#[derive(Clone, Copy)]
enum Command {
    Insert(Item),
    Erase(u64),
    Write(u32),
    Flip,
    End,
    Start(u32, u64),
    Read(u32, u32),
}
#[derive(Clone, Copy, PartialEq)]
enum Place {
    First,
    Root,
    A,
    B,
    Tag,
    Left,
    Right,
    Found,
    Missing,
    Stuck,
}
#[derive(Clone, Copy)]
struct Reader {
    key: u64,
    first: u64,
    item: Item,
    node: u32,
    left: u32,
    place: Place,
    loads: u64,
    tries: u64,
}
fn number(w: &[u8]) -> Option<u64> {
    if let Some(h) = w.strip_prefix(b"0x") {
        if h.is_empty() || h.len() > 16 {
            return None;
        }
        h.iter().try_fold(0u64, |v, c| {
            Some(v << 4 | (*c as char).to_digit(16)? as u64)
        })
    } else {
        if w.is_empty() || w.len() > 20 {
            return None;
        }
        w.iter().try_fold(0u64, |v, c| {
            if !c.is_ascii_digit() {
                return None;
            }
            v.checked_mul(10)?.checked_add((c - b'0') as u64)
        })
    }
}
fn short(w: &[u8]) -> Option<u32> {
    u32::try_from(number(w)?).ok()
}
fn count(w: &[u8]) -> Option<u32> {
    short(w).filter(|n| *n > 0)
}
fn command_in(l: &[u8]) -> Option<Command> {
    let w: Vec<&[u8]> = l.split(|c| *c == b' ').collect();
    Some(match w.as_slice() {
        [b"insert", a, b, t] => Command::Insert(Item {
            a: number(a)?,
            b: number(b)?,
            tag: number(t)?,
        }),
        [b"erase", a] => Command::Erase(number(a)?),
        [b"write", b"flip"] => Command::Flip,
        [b"write", b"end"] => Command::End,
        [b"write", k] => Command::Write(count(k)?),
        [b"start", r, k] => Command::Start(short(r)?, number(k)?),
        [b"read", r, k] => Command::Read(short(r)?, count(k)?),
        _ => return None,
    })
}
struct World {
    w: Vec<u64>,
    n: u32,
    closed: bool,
    recs: Vec<(u32, Item)>,
    free: Vec<u32>,
    plan: Vec<(usize, u64)>,
    made: usize,
    readers: BTreeMap<u32, Reader>,
}
impl World {
    fn begin(&mut self, ins: Option<Item>, a: u64) -> Result<(), u32> {
        if self.made < self.plan.len() {
            return Err(5);
        }
        let place;
        if let Some(i) = ins {
            if if self.closed { i.a > i.b } else { i.a >= i.b } {
                return Err(1);
            }
            if self.recs.iter().any(|(_, x)| {
                if self.closed {
                    !(x.b < i.a || i.b < x.a)
                } else {
                    !(x.b <= i.a || i.b <= x.a)
                }
            }) {
                return Err(2);
            }
            if self.recs.len() == self.n as usize {
                return Err(4);
            }
            place = self
                .recs
                .iter()
                .position(|(_, x)| i.a < x.a)
                .unwrap_or(self.recs.len());
        } else {
            place = self.recs.iter().position(|(_, x)| x.a == a).ok_or(3u32)?;
        }
        if self.w[0] > 4294967292 {
            return Err(6);
        }
        self.plan.clear();
        self.made = 0;
        let s = self.w[0];
        let before = |c: usize, r: &[(u32, Item)]| {
            if place == 0 {
                1 + c
            } else {
                3 + 7 * r[place - 1].0 as usize + 4 + 2 * c
            }
        };
        let link = |p: usize, r: &[(u32, Item)]| r.get(p).map_or(0, |x| x.0 as u64 + 1);
        if let Some(i) = ins {
            let node = self.free.pop().unwrap();
            let o = 3 + 7 * node as usize;
            self.plan.extend([(o, i.a), (o + 1, i.b), (o + 2, i.tag)]);
            for c in 0..2 {
                self.plan.extend([
                    (0, s + 1 + c as u64),
                    (o + 3 + 2 * c, 0),
                    (o + 4 + 2 * c, link(place, &self.recs)),
                    (before(c, &self.recs), node as u64 + 1),
                ]);
            }
            self.recs.insert(place, (node, i));
        } else {
            for c in 0..2 {
                self.plan.extend([
                    (0, s + 1 + c as u64),
                    (before(c, &self.recs), link(place + 1, &self.recs)),
                ]);
            }
            let r = self.recs.remove(place);
            self.free.push(r.0);
        }
        Ok(())
    }
    fn write(&mut self, most: u64, flip: bool) {
        for _ in 0..most {
            let Some(&(w, v)) = self.plan.get(self.made) else {
                return;
            };
            self.w[w] = v;
            self.made += 1;
            if flip && w == 0 {
                return;
            }
        }
    }
    fn read(&mut self, id: u32, most: u32, out: &mut Vec<u8>) {
        let Some(r) = self.readers.get_mut(&id) else {
            writeln!(out, "refused 9").unwrap();
            return;
        };
        for _ in 0..most {
            r.loads += 1;
            let c = (r.first & 1) as usize;
            let o = 3 + 7 * r.node as usize;
            let v = self.w[match r.place {
                Place::Root => 1 + c,
                Place::A => o,
                Place::B => o + 1,
                Place::Tag => o + 2,
                Place::Left => o + 3 + 2 * c,
                Place::Right => o + 4 + 2 * c,
                _ => 0,
            }];
            match r.place {
                Place::First => {
                    r.first = v;
                    r.place = Place::Root;
                }
                Place::A => {
                    r.item.a = v;
                    r.place = Place::B;
                }
                Place::B => {
                    r.item.b = v;
                    r.place = Place::Tag;
                }
                Place::Tag => {
                    r.item.tag = v;
                    r.place = if r.key < r.item.a {
                        Place::Left
                    } else if if self.closed {
                        r.key > r.item.b
                    } else {
                        r.key >= r.item.b
                    } {
                        Place::Right
                    } else {
                        Place::Found
                    };
                }
                Place::Root | Place::Left | Place::Right => {
                    if r.place == Place::Root {
                        r.left = self.n;
                    }
                    if v == 0 {
                        r.place = Place::Missing;
                    } else if r.left == 0 || v > self.n as u64 {
                        r.place = Place::Stuck;
                    } else {
                        r.left -= 1;
                        r.node = (v - 1) as u32;
                        r.place = Place::A;
                    }
                }
                _ => {
                    if r.place != Place::Stuck && v == r.first {
                        write!(out, "{} {:#x} -> ", id, r.key).unwrap();
                        if r.place == Place::Found {
                            write!(out, "{}", r.item.tag).unwrap();
                        } else {
                            out.push(b'-');
                        }
                        writeln!(out, " gen {} loads {} tries {}", v / 2, r.loads, r.tries)
                            .unwrap();
                        self.readers.remove(&id);
                        return;
                    }
                    r.place = Place::First;
                    r.tries += 1;
                }
            }
        }
    }
}
fn main() {
    let f = std::env::args().nth(1).unwrap();
    let b = std::fs::read(&f).unwrap();
    let mut commands = vec![];
    let mut head = None;
    let bad = |n: usize| -> ! {
        eprintln!("{f}: line {n} is not understood");
        std::process::exit(1)
    };
    for (n, l) in b.split_inclusive(|c| *c == b'\n').enumerate() {
        let l = l.strip_suffix(b"\n").unwrap_or(l);
        if l.len() > 4096 {
            bad(n + 1)
        }
        if n == 0 {
            let w: Vec<&[u8]> = l.split(|c| *c == b' ').collect();
            head = match w.as_slice() {
                [b"latchtrace", b"1", o, c] | [b"latchtrace", b"1", o, c, _]
                    if *o == b"halfopen" || *o == b"closed" =>
                {
                    short(c).and_then(|c| {
                        Some((*o == b"closed", c, w.get(4).map_or(Some(0), |s| number(s))?))
                    })
                }
                _ => None,
            };
            if head.is_none() {
                bad(1)
            }
            continue;
        }
        if l.is_empty() || l[0] == b'#' {
            continue;
        }
        match command_in(l) {
            Some(c) => commands.push(c),
            None => bad(n + 1),
        }
    }
    let Some((closed, n, start)) = head else {
        bad(1)
    };
    if n == 0 || n > 65536 || start % 2 == 1 || start > 4294967294 {
        eprintln!("refused 10");
        std::process::exit(1);
    }
    let mut w = World {
        w: vec![0; 7 * n as usize + 3],
        n,
        closed,
        recs: vec![],
        free: (0..n).rev().collect(),
        plan: vec![],
        made: 0,
        readers: BTreeMap::new(),
    };
    w.w[0] = start;
    let mut out = vec![];
    for c in commands {
        let r = match c {
            Command::Insert(i) => w.begin(Some(i), 0),
            Command::Erase(a) => w.begin(None, a),
            Command::Write(k) => {
                w.write(k as u64, false);
                Ok(())
            }
            Command::Flip => {
                w.write(u64::MAX, true);
                Ok(())
            }
            Command::End => {
                w.write(u64::MAX, false);
                Ok(())
            }
            Command::Start(id, key) => {
                if w.readers.contains_key(&id) {
                    Err(8)
                } else {
                    w.readers.insert(
                        id,
                        Reader {
                            key,
                            first: 0,
                            item: Item { a: 0, b: 0, tag: 0 },
                            node: 0,
                            left: 0,
                            place: Place::First,
                            loads: 0,
                            tries: 1,
                        },
                    );
                    Ok(())
                }
            }
            Command::Read(id, k) => {
                w.read(id, k, &mut out);
                Ok(())
            }
        };
        if let Err(e) = r {
            writeln!(out, "refused {e}").unwrap();
        }
    }
    writeln!(out, "seq {} gen {}", w.w[0], w.w[0] / 2).unwrap();
    std::io::stdout().write_all(&out).unwrap();
}
