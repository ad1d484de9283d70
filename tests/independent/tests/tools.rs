//! The tools on the key example: what they print and leave, what refuses them, and which uses are wrong.

mod common;

use common::*;
use independent::print::MOST_INPUT;
use independent::tools::{start, Ended, Folder};

fn key() -> Folder {
    let requests = list(&[(1, &[9, 12]), (0, &[5, 9]), (1, &[9, 12])]);
    Folder::from([
        ("s".to_string(), bytes(KEY_SCHEME)),
        ("m".to_string(), bytes(KEY_MATRIX)),
        ("q".to_string(), requests),
    ])
}

/// The use must give the status and print the text; the folder afterwards is given back.
fn used(words: &str, mut folder: Folder, status: u8, said: &str) -> Folder {
    let words: Vec<&str> = words.split(' ').collect();
    let ended = start(&words, &mut folder);
    assert_eq!((ended.status, ended.said.as_str()), (status, said));
    folder
}

#[test]
fn check_says_how_much_there_is() {
    let scheme = "s: a scheme of 4 rights, 3 types, 2 commands\n";
    let both = format!("{scheme}m: a matrix of 3 things, 2 cells, 2 entries\n");
    assert_eq!(used("check s", key(), 0, scheme), key());
    assert_eq!(used("check s m", key(), 0, &both), key());
    let refused = "m: refused with number 2 at position 0\n";
    assert_eq!(used("check m s", key(), 1, refused), key());
    let refused = format!("{scheme}s: refused with number 2 at position 0\n");
    assert_eq!(used("check s s", key(), 1, &refused), key());
}

#[test]
fn run_writes_what_the_list_leaves() {
    let text = "request command result test steps\n0 1 0 255 3\n1 0 0 255 2\n2 1 14 1 2\n";
    let after = used("run s m q m", key(), 0, &format!("{text}m: 77 bytes\n"));
    assert_eq!(after["m"][..8], [4, 0, 7, 0, 4, 3, 12, 0]);
    assert_eq!(after["m"][67..69], [12, 0]);
    assert_eq!(after["m"][69], 10);

    let mut cut = key();
    cut.get_mut("q").unwrap().truncate(19);
    let said = "request command result test steps\n0 1 0 255 3\nbad 10 1\nout: 61 bytes\n";
    assert_eq!(used("run s m q out", cut, 1, said).len(), 4);

    let refused = "m: refused with number 2 at position 0; nothing was written\n";
    assert_eq!(used("run m s q out", key(), 1, refused), key());
}

#[test]
fn convert_writes_both_or_neither() {
    let after = used("convert s m a b", key(), 0, "a: 55 bytes\nb: 125 bytes\n");
    assert_eq!(after["a"][4], 8);
    assert_eq!(after["b"][..8], [4, 0, 7, 0, 8, 3, 12, 0]);

    // 33 rights can't be converted; a matrix of another scheme is told before that.
    let mut many = key();
    many.get_mut("s").unwrap()[4] = 33;
    let refused = "m: refused with number 6 at position 0; nothing was written\n";
    assert_eq!(used("convert s m a b", many.clone(), 1, refused), many);
    many.get_mut("m").unwrap()[4] = 33;
    let refused = "s: refused with number 21 at position 0; nothing was written\n";
    assert_eq!(used("convert s m a b", many.clone(), 1, refused), many);
}

#[test]
fn hold_and_release_write_the_mark() {
    let mut held = key();
    held.get_mut("m").unwrap()[17] = 8;
    for id in ["9", "09", "00009"] {
        let after = used(&format!("hold s m {id} m"), key(), 0, "m: 61 bytes\n");
        assert_eq!(after, held);
        let again = used(&format!("hold s m {id} m"), after, 0, "m: 61 bytes\n");
        assert_eq!(again, held);
        let after = used(&format!("release s m {id} m"), again, 0, "m: 61 bytes\n");
        assert_eq!(after, key());
        let again = used(&format!("release s m {id} m"), after, 0, "m: 61 bytes\n");
        assert_eq!(again, key());
    }
    // Into another file, also one that is named like the id; and what was there is replaced.
    for out in ["a", "9", "s", "q"] {
        let said = format!("{out}: 61 bytes\n");
        let after = used(&format!("hold s m 9 {out}"), key(), 0, &said);
        assert_eq!(after["m"], key()["m"]);
        assert_eq!(after[out], held["m"]);
    }
    // An id is no file's name.
    let mut odd = key();
    odd.insert("9.new".to_string(), bytes(KEY_SCHEME));
    used("hold 9.new m 9 a", odd.clone(), 0, "a: 61 bytes\n");
    odd.insert("9".to_string(), bytes(KEY_SCHEME));
    used("hold 9 m 9 9", odd, 0, "9: 61 bytes\n");
}

#[test]
fn hold_and_release_refuse_in_their_order() {
    let refused = "m: refused with number 12 at position 0; nothing was written\n";
    for id in [
        "0", "00000", "8", "10", "13", "265", "65535", "65536", "65545", "99999",
    ] {
        for tool in ["hold", "release"] {
            let words = format!("{tool} s m {id} m");
            assert_eq!(used(&words, key(), 1, refused), key());
        }
    }
    // The scheme's fault, the matrix's, and only then 12.
    let mut bad = key();
    bad.get_mut("m").unwrap()[10] = 9;
    let refused = "m: refused with number 2 at position 8; nothing was written\n";
    assert_eq!(used("hold s m 99999 a", bad.clone(), 1, refused), bad);
    bad.get_mut("s").unwrap().push(0);
    let refused = "s: refused with number 8 at position 47; nothing was written\n";
    assert_eq!(used("release s m 0 a", bad.clone(), 1, refused), bad);

    let mut folder = key();
    let ended = start(&["hold", "s", "none", "9", "a"], &mut folder);
    let refused = "none: refused with number 1 at position 0; nothing was written\n";
    assert_eq!((ended.status, &ended.said[..]), (1, refused));
    assert_eq!((ended.told, folder), (vec!["none: ".to_string()], key()));
}

/// The key example with its old image.
fn both_images() -> Folder {
    let mut folder = key();
    folder.insert("o".to_string(), bytes(OLD_KEY_MATRIX));
    folder
}

#[test]
fn forward_and_back_write_the_other_image() {
    let after = used("forward s o n", both_images(), 0, "n: 61 bytes\n");
    assert_eq!(after["n"], after["m"]);
    let after = used("back s n b", after, 0, "b: 59 bytes\n");
    assert_eq!(after["b"], after["o"]);
    // Into the file itself, and into that of the scheme.
    let after = used("forward s o o", both_images(), 0, "o: 61 bytes\n");
    assert_eq!(after["o"], after["m"]);
    let after = used("back s o o", after, 0, "o: 59 bytes\n");
    assert_eq!(after, both_images());
    let after = used("back s m s", both_images(), 0, "s: 59 bytes\n");
    assert_eq!(after["s"], after["o"]);
    // Marks stay.
    let mut held = both_images();
    held.get_mut("o").unwrap()[15] = 8;
    let after = used("forward s o n", held, 0, "n: 61 bytes\n");
    assert_eq!((after["n"][10], after["n"][17], after["n"][24]), (4, 8, 4));
}

#[test]
fn forward_and_back_refuse_in_their_order() {
    let refused = |words: &str, folder: Folder, name: &str, number: u8, at: usize| {
        let said =
            format!("{name}: refused with number {number} at position {at}; nothing was written\n");
        assert_eq!(used(words, folder.clone(), 1, &said), folder);
    };
    refused("forward s m n", both_images(), "m", 2, 0);
    refused("back s o n", both_images(), "o", 2, 0);
    refused("forward o s n", both_images(), "o", 2, 0);
    let mut above = both_images();
    above.get_mut("m").unwrap()[6] = 13;
    refused("back s m n", above.clone(), "m", 23, 0);
    refused("back s m m", above.clone(), "m", 23, 0);
    above.get_mut("m").unwrap().push(0);
    refused("back s m n", above.clone(), "m", 1, 61);
    above.get_mut("o").unwrap()[24] = 9;
    refused("forward s o n", above.clone(), "o", 7, 20);
    // The scheme's fault comes first.
    above.get_mut("s").unwrap().push(0);
    refused("back s m n", above.clone(), "s", 8, 47);
    refused("forward s o n", above, "s", 8, 47);

    for tool in ["forward", "back"] {
        let mut folder = both_images();
        let ended = start(&[tool, "s", "none", "a"], &mut folder);
        let said = "none: refused with number 1 at position 0; nothing was written\n";
        assert_eq!((ended.status, &ended.said[..]), (1, said));
        let told = vec!["none: ".to_string()];
        assert_eq!((ended.told, folder), (told, both_images()));

        let mut folder = both_images();
        folder.insert("long".to_string(), vec![0; MOST_INPUT + 1]);
        let ended = start(&[tool, "none", "long", "a"], &mut folder);
        let told = ["none: ", "long: longer than 65536 bytes"].map(String::from);
        assert_eq!((ended.status, &ended.said[..]), (1, ""));
        assert_eq!(ended.told, told);
    }
}

/// An image that was moved and asked: once a key number is used up, the way back is closed.
#[test]
fn a_used_up_number_closes_the_way_back() {
    let mut folder = both_images();
    // Its one command creates and destroys a key.
    let scheme = "05 00 01 00 04 03 03 00 01 / \
        0C 00 02 00 01 01 00 02 03 00 00 00 04 00 00 00";
    folder.insert("s".to_string(), bytes(scheme));
    folder.insert("q".to_string(), list(&[(0, &[13])]));
    let folder = used("forward s o m", folder, 0, "m: 61 bytes\n");
    let folder = used("back s m o", folder, 0, "o: 59 bytes\n");
    let said = "request command result test steps\n0 0 0 255 2\nm: 61 bytes\n";
    let folder = used("run s m q m", folder, 0, said);
    assert_eq!(folder["m"][..8], [4, 0, 7, 0, 4, 3, 13, 0]);
    let refused = "m: refused with number 23 at position 0; nothing was written\n";
    assert_eq!(used("back s m o", folder.clone(), 1, refused), folder);
}

#[test]
fn check_and_run_meet_things_on_hold() {
    let mut held = key();
    held.get_mut("m").unwrap()[17] = 8;
    let said = "s: a scheme of 4 rights, 3 types, 2 commands\nm: a matrix of 3 things, 2 cells, 2 entries\n";
    used("check s m", held.clone(), 0, said);
    let text = "request command result test steps\n0 1 18 255 0\n1 0 18 255 0\n2 1 18 255 0\n";
    let after = used(
        "run s m q m",
        held.clone(),
        0,
        &format!("{text}m: 61 bytes\n"),
    );
    assert_eq!(after, held);
    let said = "a: 55 bytes\nb: 125 bytes\n";
    let after = used("convert s m a b", held, 0, said);
    assert_eq!((after["b"][10], after["b"][17], after["b"][24]), (4, 8, 4));
}

#[test]
fn all_files_are_loaded_first() {
    let mut folder = key();
    folder.insert("long".to_string(), vec![0; MOST_INPUT + 1]);
    let ended = start(&["run", "none", "m", "long", "out"], &mut folder);
    let told = ["none: ", "long: longer than 65536 bytes"];
    let wanted = Ended {
        status: 1,
        said: String::new(),
        told: told.map(String::from).to_vec(),
    };
    assert_eq!(ended, wanted);
}

#[test]
fn wrong_uses_do_nothing() {
    for words in [
        "",
        "frob s",
        "check",
        "check s m q",
        "run s m q",
        "run s m q a b",
        "convert s m a a",
        "convert s m a a.new",
        "convert s m a.new a",
        "run s m a.new a",
        "hold s m 5",
        "hold s m  a",
        "hold s m 5 a b",
        "release s m a",
        "hold s m -5 a",
        "hold s m +5 a",
        "hold s m 5x a",
        "hold s m 0x5 a",
        "hold s m 000005 a",
        "hold s m 100000 a",
        "release s m a 5",
        "hold s a.new 5 a",
        "release a.new m 5 a",
        "Hold s m 5 a",
        "hold",
        "release s",
        "forward",
        "forward s m",
        "forward s m a b",
        "back s",
        "back s m 5 a",
        "Back s m a",
        "forward s a.new a",
        "forward a.new m a",
        "back s a.new a",
        "back a.new m a",
    ] {
        assert_eq!(used(words, key(), 2, ""), key());
    }
    used("convert s m s m", key(), 0, "s: 55 bytes\nm: 125 bytes\n");
}
