// SPDX-License-Identifier: MIT OR Apache-2.0
//! What is found, what is refused, and catalogs and readers on threads.

use latchsym::{
    pooled_table, table, table_with_room, Catalog, Error, Found, Item, Listings, Readers, Step,
    Writer,
};
use std::sync::atomic::{AtomicBool, Ordering};
use std::thread;

const SYMBOLS: &[u8] =
    b"ffffffff81000000 T _stext\nffffffff81000100 T do_one\nffffffff81002000 T _end\n\
    ffffffffc0000010 t ext4_a\t[ext4]\nffffffffc0000040 t ext4_b\t[ext4]\n";
const MODULES: &[u8] = b"ext4 8192 1 - Live 0xffffffffc0000000\n";
const EXT4_A: u64 = 0xffff_ffff_c000_0018;
const DO_ONE: u64 = 0xffff_ffff_8100_0108;
const ITEM: Item = Item { a: 0x1000, b: 0x2000, tag: 7 };

fn listings() -> Listings<'static> {
    Listings { modules: Some(MODULES), ..Listings::new(SYMBOLS) }
}

fn opened() -> Catalog<'static> {
    listings().open().expect("listings that are right")
}

fn shown(catalog: &Catalog<'_>, addr: u64) -> String {
    catalog.find(addr).unwrap().map_or("none".into(), |found| found.to_string())
}

#[test]
fn an_address_has_a_symbol() {
    let catalog = opened();
    let found = catalog.find(EXT4_A).unwrap().unwrap();
    assert_eq!((found.name, found.module), (Some(&b"ext4_a"[..]), &b"ext4"[..]));
    assert_eq!((found.offset, found.size, found.module_number), (8, 0x30, 1));
    assert_eq!(shown(&catalog, EXT4_A), "ext4_a+0x8/0x30 [ext4]");
    assert_eq!(shown(&catalog, DO_ONE), "do_one+0x8/0x1f00");
    assert_eq!(shown(&catalog, 0xffff_ffff_c000_0001), "? [ext4]");
    assert_eq!(shown(&catalog, 0x1000), "none");
    let caller = catalog.find_caller(0xffff_ffff_c000_0040).unwrap().unwrap();
    assert_eq!(caller.to_string(), "ext4_a+0x30/0x30 [ext4]");
    assert_eq!((catalog.counts().modules, catalog.counts().symbols), (1, 4));
    assert!(latchsym::version() / 10000 == 1);
}

#[test]
fn a_listing_of_no_use_is_noted() {
    let opened = |kallsyms| Listings { modules: Some(MODULES), ..Listings::new(kallsyms) }.open();
    let hidden = opened(b"0000000000000000 T _stext\n".as_slice()).unwrap();
    assert!(hidden.counts().symbols_note().unwrap().starts_with("every address is 0"));
    assert!(hidden.counts().modules_note().unwrap().contains("one boot"));
    let counts = *opened(SYMBOLS).unwrap().counts();
    assert_eq!((counts.modules_note(), counts.symbols_note()), (None, None));
}

#[test]
fn names_outlive_the_catalog() {
    let text = SYMBOLS.to_vec();
    let name = Listings::new(&text).open().unwrap().find(EXT4_A).unwrap().unwrap().name;
    assert_eq!(name, Some(&b"ext4_a"[..]));
}

#[test]
fn many_addresses_are_told_as_each_alone() {
    let catalog = opened();
    let addresses = [EXT4_A, 0x1000, DO_ONE, 0xffff_ffff_c000_0001];
    let answers = catalog.find_many(&addresses).unwrap();
    for (addr, answer) in addresses.iter().zip(&answers) {
        assert_eq!(catalog.find_many(&[*addr]).unwrap(), [*answer]);
        let alone = catalog.find(*addr).unwrap();
        assert_eq!(alone.is_some(), answer.is_in_a_region());
        assert_eq!(
            alone.and_then(|it| it.name).map(<[u8]>::len),
            answer.has_symbol().then_some(answer.name_len)
        );
    }
    assert!(catalog.find_many(&[]).unwrap().is_empty());
    let mut rooms = [Default::default(); 9];
    catalog.find_many_into(&addresses, &mut rooms).unwrap();
    assert_eq!(rooms[..4], answers);
}

#[test]
fn threads_find_in_one_view() {
    let view = opened().view().unwrap();
    let view = &view;
    thread::scope(|scope| {
        for _ in 0..4 {
            scope.spawn(move || {
                for _ in 0..1000 {
                    let found = view.find(EXT4_A).unwrap();
                    assert_eq!(found.to_string(), "ext4_a+0x8/0x30 [ext4]");
                    assert_eq!(view.find_caller(0xffff_ffff_c000_0040).unwrap().offset, 0x30);
                    assert_eq!(view.find(0xffff_ffff_c000_0001).unwrap().to_string(), "? [ext4]");
                    assert!(view.find(0x1000).is_none() && view.find_caller(0).is_none());
                }
            });
        }
    });
    assert!(Listings::new(b"").open().unwrap().view().unwrap().find(DO_ONE).is_none());
}

#[test]
#[should_panic(expected = "not as many rooms")]
fn rooms_are_as_many_as_addresses() {
    let _ = opened().find_many_into(&[1, 2], &mut [Default::default()]);
}

#[test]
fn modules_have_regions_and_symbols() {
    let catalog = opened();
    let names: Vec<_> = catalog.modules().unwrap().map(|it| (it.number, it.name)).collect();
    assert_eq!(names, [(0, &b"-"[..]), (1, &b"ext4"[..])]);
    let regions: Vec<_> = catalog.regions(1).collect();
    assert_eq!(
        (regions.len(), regions[0].a, regions[0].is_init),
        (1, 0xffff_ffff_c000_0000, false)
    );
    assert_eq!(catalog.symbols(1).count(), 2);
    assert_eq!(catalog.symbols(9).count(), 0);
    assert_eq!(catalog.addresses_of(1, b"ext4_b").collect::<Vec<_>>(), [0xffff_ffff_c000_0040]);
    assert_eq!(catalog.addresses_of(0, b"ext4_b").count(), 0);
    assert!(catalog.module(2).is_none());
}

#[test]
fn listings_are_refused() {
    let bad = Listings { regions: b"latchregions 1\nx\n", ..listings() };
    let error = bad.open().unwrap_err();
    assert_eq!(error, Error::BadLine(2));
    assert!(error.to_string().ends_with(": line 2"), "{error}");
    assert_eq!(Listings { modules: None, ..bad }.open().unwrap_err(), Error::BadListings);
}

#[test]
fn a_change_leaves_the_other_modules() {
    let first = Listings { modules: None, ..listings() }.open().unwrap();
    let second = first.change(b"gone ext4\nffffffffc0100000 t xfs_a\t[xfs]\n").unwrap();
    drop(first);
    assert_eq!(second.find(EXT4_A).unwrap().map(|found| found.to_string()), None);
    assert_eq!(shown(&second, 0xffffffffc0100010), "xfs_a+0x10/0x1000 [xfs]");
    assert_eq!(second.change(b"gone a\nchange 1.5\n").unwrap_err(), Error::BadLine(2));
    assert_eq!(opened().change(b"").unwrap_err(), Error::BadHandle);
}

#[test]
fn listings_whose_modules_change_are_named_at_each_moment() {
    let kernel: String = (1..200).map(|it| format!("ffffffff8100{it:02x}00 T k{it}\n")).collect();
    let listing = |name: &str, page: u64| {
        let addr = 0xffffffffc0000000_u64 + page * 4096;
        let module = format!("{addr:x} t {name}\t[{name}]\nffffffffd0000000 t stays\t[stays]\n");
        format!("ffffffff81000000 T _stext\n{kernel}ffffffff81100000 T _end\n{module}").into_bytes()
    };
    let (mut follower, _readers) = latchsym::follower(64, 1).unwrap();
    for step in 0..100 {
        follower.show(listing(&format!("m{step}"), step % 7), None, step).unwrap();
        if step == 50 {
            follower.forget(40);
        }
    }
    for step in 45..100 {
        let named = |addr| follower.find_since(step, addr).unwrap().map(|it| it.to_string());
        let own = 0xffffffffc0000008 + step % 7 * 4096;
        assert_eq!(named(own), Some(format!("m{step}+0x8/0x1000 [m{step}]")));
        assert_eq!(named(0xffffffffd0000010).as_deref(), Some("stays+0x10/0x1000 [stays]"));
        assert_eq!(named(0xffffffffc0000008 + (step + 1) % 7 * 4096), None);
    }
}

#[test]
fn a_shared_catalog_goes_to_a_thread() {
    let first = opened();
    let second = first.share().unwrap();
    drop(first);
    let text = thread::spawn(move || shown(&second, EXT4_A)).join().unwrap();
    assert_eq!(text, "ext4_a+0x8/0x30 [ext4]");
}

#[test]
fn an_update_is_seen_whole() {
    let (mut writer, mut readers) = table(4, 1).unwrap();
    assert_eq!(writer.step(), Ok(Step::End));
    writer.begin_insert(ITEM).unwrap();
    assert_eq!(writer.begin_erase(ITEM.a), Err(Error::UpdateInHand));
    let mut reader = readers.get(0).unwrap();
    let mut flips = 0;
    loop {
        match writer.step().unwrap() {
            Step::End => break,
            step => flips += i32::from(step == Step::Flip),
        }
        let found = reader.try_find(0x1fff).unwrap().unwrap();
        assert_eq!(found.item, (flips == 2).then_some(ITEM));
    }
    assert_eq!((flips, writer.finish()), (2, Ok(1)));
}

#[test]
fn refusals_change_nothing() {
    let (mut writer, _readers) = table(2, 1).unwrap();
    writer.insert(ITEM).unwrap();
    assert_eq!(writer.insert(Item { a: 5, b: 5, tag: 0 }), Err(Error::BadItem));
    assert_eq!(writer.insert(Item { a: 0x1fff, ..ITEM }), Err(Error::Overlap));
    assert_eq!(writer.erase(1), Err(Error::NoSuchItem));
    let three = [1, 2, 3].map(|a| Item { a, b: a + 1, tag: a });
    assert_eq!(writer.batch(&[], &three), Err(Error::Full));
    assert_eq!(writer.find(0x1000), Ok(Found { item: Some(ITEM), generation: 1 }));
    assert_eq!(writer.batch(&[0x1000], &three[..1]), Ok(2));
    assert!(!Error::Full.to_string().is_empty());
    for (nodes, readers) in [(0, 1), (65537, 1), (4, 0), (4, 65)] {
        assert_eq!(table(nodes, readers).err(), Some(Error::BadCapacity));
    }
}

#[test]
fn readers_are_added_and_the_table_enlarged() {
    let (mut writer, mut readers) = table_with_room(1, 2, 3).unwrap();
    writer.begin_insert(ITEM).unwrap();
    writer.add_reader(&mut readers).unwrap();
    assert_eq!(writer.add_reader(&mut readers), Err(Error::BadCapacity));
    assert_eq!(writer.enlarge(4, &mut readers), Err(Error::UpdateInHand));
    writer.finish().unwrap();
    writer.enlarge(4, &mut readers).unwrap();
    writer.insert(Item { a: 1, b: 2, tag: 3 }).unwrap();
    assert_eq!(readers.len(), 3);
    for mut reader in readers.iter_mut() {
        assert_eq!(reader.find(1).unwrap().generation, 2);
    }
    drop(writer);
    assert_eq!(readers.get(2).unwrap().find(0x1000).unwrap().item, Some(ITEM));
    assert!(readers.get(3).is_none());
}

#[test]
fn readers_are_taken_back() {
    let (mut writer, mut readers) = table(4, 2).unwrap();
    for left in [1, 0] {
        writer.take_reader(&mut readers).unwrap();
        assert_eq!(readers.len(), left);
    }
    assert_eq!(writer.take_reader(&mut readers), Err(Error::BadCapacity));
    writer.add_reader(&mut readers).unwrap();
    writer.enlarge(5, &mut readers).unwrap();
    assert_eq!(readers.get(0).unwrap().find(1).unwrap().item, None);
}

#[test]
fn threads_share_the_readers_of_a_pool() {
    let (mut writer, pool) = pooled_table(4, 2).unwrap();
    let (mut busy, is_over) = (0, AtomicBool::new(false));
    thread::scope(|scope| {
        for _ in 0..3 {
            scope.spawn(|| {
                let mut last = 0;
                while !is_over.load(Ordering::SeqCst) {
                    let found = pool.find(0x1800).unwrap();
                    assert_eq!(found.item.is_some(), found.generation % 2 == 1);
                    assert!(found.generation >= last);
                    last = found.generation;
                }
            });
        }
        for nodes in 4..1000 {
            writer.insert(ITEM).unwrap();
            while writer.enlarge_pool(nodes, &pool) == Err(Error::Busy) {
                busy += 1;
            }
            writer.erase(ITEM.a).unwrap();
        }
        is_over.store(true, Ordering::SeqCst);
    });
    assert_eq!(writer.enlarge_pool(4, &pool), Err(Error::BadCapacity));
    assert_eq!(pool.try_find(0x1800).unwrap().unwrap().generation, 2 * 996);
    assert_eq!(pooled_table(4, 65).err(), Some(Error::BadCapacity));
    println!("{busy} times busy");
}

#[test]
fn an_item_has_a_name() {
    let catalog = opened();
    let (mut writer, mut readers) = table(4, 1).unwrap();
    let mut reader = readers.get(0).unwrap();
    let (mut name, mut module) = ([0; 512], [0; 3]);
    let (found, answer) =
        reader.try_find_name(&catalog, EXT4_A, &mut name, &mut module).unwrap().unwrap();
    assert!(found.item.is_none() && !answer.is_in_a_region());
    let region = catalog.regions(1).next().unwrap();
    writer.insert(Item { a: region.a, b: region.b, tag: 1 }).unwrap();
    let (found, answer) =
        reader.try_find_name(&catalog, EXT4_A, &mut name, &mut module).unwrap().unwrap();
    assert_eq!((found.item.unwrap().tag, &name[..answer.name_len]), (1, &b"ext4_a"[..]));
    assert_eq!((&module, answer.module_len, answer.offset), (b"ext", 4, 8));
}

#[test]
fn readers_look_up_on_threads() {
    fn is_send<T: Send>() {}
    is_send::<Writer>();
    is_send::<Readers>();
    let (mut writer, mut readers) = table(4, 3).unwrap();
    let is_over = AtomicBool::new(false);
    thread::scope(|scope| {
        for mut reader in readers.iter_mut() {
            let is_over = &is_over;
            scope.spawn(move || {
                let mut last = 0;
                while !is_over.load(Ordering::Relaxed) {
                    let Found { item, generation } = reader.find(0x1000).unwrap();
                    assert_eq!(item, (generation % 2 == 1).then_some(ITEM));
                    assert!(last <= generation);
                    last = generation;
                }
            });
        }
        for _ in 0..2000 {
            writer.insert(ITEM).unwrap();
            writer.erase(ITEM.a).unwrap();
        }
        is_over.store(true, Ordering::Relaxed);
    });
}

#[test]
fn an_address_is_named_by_the_listing_of_its_time() {
    const ADDR: u64 = 0xffffffffc0000018;
    let text = |name: &str| format!("ffffffffc0000010 t {name}\t[{name}]\n").into_bytes();
    let name = |found: Result<Option<latchsym::Symbol<'_>>, Error>| {
        found.map(|symbol| String::from_utf8_lossy(symbol.unwrap().name.unwrap()).into_owned())
    };
    let (mut follower, mut readers) = latchsym::follower_with_room(8, 1, 2).unwrap();
    follower.add_reader(&mut readers).unwrap();
    assert_eq!(follower.find(1, ADDR).unwrap_err(), Error::Forgotten);
    for load in 1..=4u64 {
        let generation = follower.show(text(&format!("load{load}")), None, 10 * load).unwrap();
        assert_eq!(generation, load);
        assert_eq!(readers.get(1).unwrap().find(ADDR).unwrap().generation, load);
    }
    assert_eq!(follower.show(text("late"), None, 39), Err(Error::BadStamp));
    assert_eq!(name(follower.find(2, ADDR)).unwrap(), "load2");
    assert_eq!(name(follower.find_since(29, ADDR)).unwrap(), "load2");
    assert_eq!(name(follower.find_caller(3, ADDR)).unwrap(), "load3");
    assert_eq!(name(follower.find_caller_since(1000, ADDR)).unwrap(), "load4");
    follower.forget(2);
    assert_eq!(follower.find(1, ADDR).unwrap_err(), Error::Forgotten);
    assert_eq!(name(follower.find(2, ADDR)).unwrap(), "load2");
    follower.forget_since(40);
    assert_eq!(follower.find_since(39, ADDR).unwrap_err(), Error::Forgotten);
    assert_eq!(name(follower.find(4, ADDR)).unwrap(), "load4");
}

#[test]
fn a_listing_that_outgrows_the_table_of_a_follower_is_shown_once_it_is_enlarged() {
    const ADDR: u64 = 0xffffffffc0000018;
    let small = || b"ffffffffc0000010 t one\t[a]\n".to_vec();
    let large = || b"ffffffffc0000010 t two\t[a]\nffffffffc0200000 t two\t[b]\n".to_vec();
    let is_named = |follower: &latchsym::Follower, generation, wanted: &[u8]| {
        follower.find(generation, ADDR).unwrap().unwrap().name == Some(wanted)
    };
    let (mut follower, mut readers) = latchsym::follower(1, 2).unwrap();
    follower.show(small(), None, 10).unwrap();
    assert_eq!(follower.show(large(), None, 20), Err(Error::Full));
    assert_eq!(follower.enlarge(0, &mut readers), Err(Error::BadCapacity));
    follower.enlarge(3, &mut readers).unwrap();
    assert_eq!(follower.show(large(), None, 20), Ok(2));
    assert_eq!(readers.get(1).unwrap().find(ADDR).unwrap().generation, 2);
    assert!(is_named(&follower, 1, b"one") && is_named(&follower, 2, b"two"));

    let (mut follower, pool) = latchsym::followed_pool(1, 2).unwrap();
    follower.show(small(), None, 10).unwrap();
    assert_eq!(follower.show(large(), None, 20), Err(Error::Full));
    assert_eq!(follower.enlarge_pool(0, &pool), Err(Error::BadCapacity));
    follower.enlarge_pool(3, &pool).unwrap();
    assert_eq!(follower.show(large(), None, 20), Ok(2));
    assert_eq!(pool.find(ADDR).unwrap().generation, 2);
    assert!(is_named(&follower, 1, b"one") && is_named(&follower, 2, b"two"));
    assert_eq!(latchsym::followed_pool(4, 65).err(), Some(Error::BadCapacity));
}

#[test]
fn code_that_is_noted_goes_before_the_listing_until_it_is_gone() {
    const ADDR: u64 = 0xffffffffc0000018;
    fn found(symbol: Result<Option<latchsym::Symbol<'_>>, Error>) -> (String, u64, u64) {
        let symbol = symbol.unwrap().unwrap();
        (symbol.to_string(), symbol.offset, symbol.module_number)
    }
    let (mut follower, mut readers) = latchsym::follower(8, 1).unwrap();
    let listed = ("listed+0x8/0xff0 [bpf]".to_string(), 8, 1);
    follower.show(b"ffffffffc0000010 t listed\t[bpf]\n".to_vec(), None, 10).unwrap();
    assert_eq!(follower.note_gone(ADDR, 5), Ok(None));
    let name = b"noted".to_vec();
    let code = latchsym::Code { addr: ADDR, len: 10000, name: &name, module: b"bpf" };
    assert_eq!(follower.note(code, 20), Ok(2));
    drop(name);
    let mut follower = Box::new(follower);
    let noted = ("noted+0x270f/0x2710 [bpf]".to_string(), 9999, u64::MAX);
    assert_eq!(found(follower.find_since(20, ADDR + 9999)), noted);
    assert_eq!(found(follower.find(1, ADDR)), listed);
    assert_eq!(follower.find_caller(2, ADDR + 10000).unwrap().unwrap().offset, 10000);
    assert!(follower.find(2, ADDR + 10000).unwrap().is_none());
    assert_eq!(
        (follower.note_gone(ADDR, 30), follower.note_gone(ADDR, 30)),
        (Ok(Some(3)), Ok(None))
    );
    assert_eq!(readers.get(0).unwrap().find(ADDR).unwrap().generation, 3);
    assert_eq!(found(follower.find_since(29, ADDR + 9999)), noted);
    assert_eq!(found(follower.find_since(30, ADDR)), listed);
    follower.forget(2);
    follower.forget_since(29);
    assert_eq!(found(follower.find(2, ADDR + 9999)), noted);
    follower.forget(3);
    assert_eq!(found(follower.find(2, ADDR)), listed);
    let code = latchsym::Code { addr: ADDR, len: 1, name: b"short", module: b"" };
    assert_eq!((follower.note(code, 40), follower.note_gone(ADDR, 50)), (Ok(4), Ok(Some(5))));
    assert_eq!(found(follower.find(4, ADDR)), ("short+0x0/0x1 []".to_string(), 0, u64::MAX));
    follower.forget_since(50);
    assert_eq!(found(follower.find(4, ADDR)), listed);
}

#[test]
fn a_name_is_found_in_all_modules() {
    let text =
        b"ffffffffc0000010 t one\t[a]\nffffffffc0001010 t two\t[b]\nffffffffc0001020 t one\t[b]\n";
    let catalog = Listings::new(text).open().unwrap();
    let places: Vec<_> = (0..).map_while(|from| catalog.find_name(b"one", from).unwrap()).collect();
    assert_eq!(places, [(1, 0), (2, 1)]);
    assert_eq!(catalog.find_name(b"three", 0), Ok(None));
}
