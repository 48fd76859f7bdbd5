// What `latchsym annotate --kallsyms FILE LOG` does, in plain safe Rust as one writes it without thinking of speed: the listing
// is read whole into a sorted Vec, the log line by line, and each word of a line is looked at. A peer to measure against, with
// the same output for a listing that is as the kernel writes it, by rising address, with its modules behind it.
use std::collections::HashMap;
use std::io::{BufRead, BufReader, BufWriter, Write};

/// How far apart two symbols of a module lie at least if nothing between them is the module's.
const REACH: u64 = 1 << 20;

/// A page less its first byte.
const PAGE: u64 = 4095;

struct Symbol<'a> {
    addr: u64,
    name: &'a [u8],
    module: Option<&'a [u8]>,
}

struct Region<'a> {
    start: u64,
    end: u64,
    module: Option<&'a [u8]>,
}

struct Catalog<'a> {
    symbols: Vec<Symbol<'a>>,
    regions: Vec<Region<'a>>,
}

fn hexadecimal(digits: &[u8]) -> Option<u64> {
    if digits.is_empty() || digits.len() > 16 {
        return None;
    }
    digits.iter().try_fold(0u64, |value, digit| {
        Some(value << 4 | (*digit as char).to_digit(16)? as u64)
    })
}

fn symbol_in(line: &[u8]) -> Option<Symbol<'_>> {
    let blank = line.iter().position(|byte| *byte == b' ')?;
    let addr = hexadecimal(&line[..blank])?;
    let rest = line.get(blank + 3..)?;
    match rest.iter().position(|byte| *byte == b'\t') {
        None => Some(Symbol {
            addr,
            name: rest,
            module: None,
        }),
        Some(tab) => Some(Symbol {
            addr,
            name: &rest[..tab],
            module: Some(rest[tab + 1..].strip_prefix(b"[")?.strip_suffix(b"]")?),
        }),
    }
}

/// The regions of the kernel and of the modules: the page of a symbol, and what lies up to a near one.
fn regions_of<'a>(symbols: &[Symbol<'a>]) -> Vec<Region<'a>> {
    let address_of = |name: &[u8]| {
        let mut own = symbols.iter().filter(|symbol| symbol.module.is_none());
        own.find(|symbol| symbol.name == name)
            .map(|symbol| symbol.addr)
    };
    let between = |start, end| Some(address_of(start)?..address_of(end)?);
    let kernel = match between(b"_stext", b"_end") {
        Some(whole) => vec![whole],
        None => [
            between(b"_stext", b"_etext"),
            between(b"_sinittext", b"_einittext"),
        ]
        .into_iter()
        .flatten()
        .collect(),
    };
    let of_kernel = |addr| kernel.iter().find(|region| region.contains(&addr));
    let mut marks: Vec<_> = kernel.iter().map(|region| (region.start, None)).collect();
    marks.extend(
        symbols
            .iter()
            .filter(|symbol| symbol.module.is_some() && of_kernel(symbol.addr).is_none())
            .map(|symbol| (symbol.addr, symbol.module)),
    );
    marks.sort_by_key(|mark| mark.0);
    marks.dedup_by_key(|mark| mark.0);
    let mut regions: Vec<Region> = vec![];
    for (at, (from, module)) in marks.iter().enumerate() {
        let (next, owner) = marks.get(at + 1).copied().unwrap_or((u64::MAX, None));
        let end = match of_kernel(*from) {
            Some(region) => region.end,
            None if owner == *module && next - from < REACH => next,
            None => next.min((from | PAGE).saturating_add(1)),
        };
        match regions.last_mut() {
            Some(last) if last.end == *from && last.module == *module => last.end = end,
            _ => regions.push(Region {
                start: *from,
                end,
                module: *module,
            }),
        }
    }
    regions
}

impl<'a> Catalog<'a> {
    fn of(listing: &'a [u8]) -> Catalog<'a> {
        let mut symbols: Vec<Symbol> = listing
            .split(|byte| *byte == b'\n')
            .filter_map(symbol_in)
            .filter(|symbol| symbol.addr != 0)
            .collect();
        let regions = regions_of(&symbols);
        let at: HashMap<Option<&[u8]>, Vec<(u64, u64)>> =
            regions.iter().fold(HashMap::new(), |mut at, region| {
                at.entry(region.module)
                    .or_default()
                    .push((region.start, region.end));
                at
            });
        symbols.retain(|symbol| {
            at.get(&symbol.module).is_some_and(|own| {
                let before = own.partition_point(|region| region.0 <= symbol.addr);
                before > 0 && symbol.addr < own[before - 1].1
            })
        });
        symbols.sort_by_key(|symbol| symbol.addr);
        Catalog { symbols, regions }
    }

    /// Puts a blank and the text of the answer for an address into `text`, or nothing.
    fn answer(&self, addr: u64, text: &mut Vec<u8>) {
        text.clear();
        let before = self.regions.partition_point(|region| region.start <= addr);
        let Some(region) = before.checked_sub(1).map(|last| &self.regions[last]) else {
            return;
        };
        if addr >= region.end {
            return;
        }
        let above = self.symbols.partition_point(|symbol| symbol.addr <= addr);
        match above.checked_sub(1).map(|last| &self.symbols[last]) {
            Some(last) if last.addr >= region.start => {
                let first = self
                    .symbols
                    .partition_point(|symbol| symbol.addr < last.addr);
                let next = self.symbols.get(above).map_or(u64::MAX, |next| next.addr);
                text.push(b' ');
                text.extend_from_slice(self.symbols[first].name);
                let size = next.min(region.end) - last.addr;
                write!(text, "+{:#x}/{:#x}", addr - last.addr, size).unwrap();
            }
            _ if region.module.is_none() => return,
            _ => text.extend_from_slice(b" ?"),
        }
        if let Some(module) = region.module {
            text.extend_from_slice(b" [");
            text.extend_from_slice(module);
            text.push(b']');
        }
    }
}

fn is_word_byte(byte: u8) -> bool {
    byte.is_ascii_alphanumeric() || byte == b'_'
}

fn address_of_word(word: &[u8]) -> Option<u64> {
    match word
        .strip_prefix(b"0x")
        .or_else(|| word.strip_prefix(b"0X"))
    {
        Some(digits) if digits.len() >= 9 => hexadecimal(digits),
        None if word.len() == 16 => hexadecimal(word),
        _ => None,
    }
}

/// Writes a line with the text of the answer behind each address in it.
fn annotate(
    catalog: &Catalog,
    line: &[u8],
    text: &mut Vec<u8>,
    out: &mut impl Write,
) -> std::io::Result<()> {
    let (mut written, mut at) = (0, 0);
    while at < line.len() {
        if !is_word_byte(line[at]) {
            at += 1;
            continue;
        }
        let start = at;
        while at < line.len() && is_word_byte(line[at]) {
            at += 1;
        }
        let Some(addr) = address_of_word(&line[start..at]) else {
            continue;
        };
        while at < line.len() && matches!(line[at], b'>' | b']' | b')') {
            at += 1;
        }
        catalog.answer(addr, text);
        if !line[at..].starts_with(text) {
            out.write_all(&line[written..at])?;
            out.write_all(text)?;
            written = at;
        }
    }
    out.write_all(&line[written..])
}

fn main() -> std::io::Result<()> {
    let files: Vec<String> = std::env::args().skip(1).collect();
    let listing = std::fs::read(&files[0])?;
    let catalog = Catalog::of(&listing);
    let mut log = BufReader::with_capacity(1 << 16, std::fs::File::open(&files[1])?);
    let mut out = BufWriter::with_capacity(1 << 16, std::io::stdout().lock());
    let (mut line, mut text) = (vec![], vec![]);
    while log.read_until(b'\n', &mut line)? > 0 {
        annotate(&catalog, &line, &mut text, &mut out)?;
        line.clear();
    }
    out.flush()
}
