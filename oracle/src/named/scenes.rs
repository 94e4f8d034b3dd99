//! Scenes: arrows, R buttons, what is asked of the device, what is saved.

use super::All;
use crate::cases::{
    bank, button, done, fader, index, level, moved, nothing, plain, pressed, push_state, refused, restore,
    saved_device, saved_scene, scene, scenes, settings, step, to, BankIs, Record,
};
use crate::names::ABSENT;

const LEFT: u8 = 0x62;
const RIGHT: u8 = 0x63;

/// Remember on, bank 0 on driver 3 with these scenes, no fader: no call but those for scenes.
fn with_scenes(names: &[u16]) -> Vec<Record> {
    let mut profile = vec![settings(false, true), bank(0, BankIs { driver: 3, rec: 1, ..plain(2) })];
    profile.extend(names.iter().map(|&n| scene(0, n)));
    profile
}

pub fn add(all: &mut All) {
    arrows(all);
    rec(all);
    saved(all);
}

fn arrows(all: &mut All) {
    let ours = with_scenes(&[20, 21, 22]);
    let theirs = with_scenes(&[]);
    for (what, note) in [("right", RIGHT), ("left", LEFT)] {
        all.add(
            &format!("slip: session and device know no scene, the {what} arrow loads scene 0"),
            &ours,
            vec![step(pressed(note, 0.0), &[done(), nothing(), scenes(&[22, 21, 20]), done()])],
            "event 0 done messages 34 calls 4 used 7 saved 1
             ...
             message e00000
             message 90087f
             call open 3 0 0 0000000000000000
             call current 3 0 0 0000000000000000
             call scenes 3 0 0 0000000000000000
             call load 3 0 2 0000000000000000
             saved 01000200000000000200020000000000
             = scene 0 0",
        );
    }
    all.add(
        "slip: at the list's end the arrow does nothing",
        &ours,
        vec![restore(&[saved_scene(2, 2)]), step(pressed(RIGHT, 0.0), &[]), restore(&[saved_scene(2, 0)]), step(pressed(LEFT, 0.0), &[])],
        "event 1 done messages 0 calls 0 used 0 saved 0\n= scene 0 2\nevent 3 done messages 0 calls 0 used 0 saved 0\n= scene 0 0",
    );
    all.add(
        "an arrow that asks the device and loads nothing saves too",
        &ours,
        vec![step(pressed(RIGHT, 0.0), &[done(), index(1), scenes(&[20, 22])])],
        "event 0 done messages 0 calls 3 used 5 saved 1
         call open 3 0 *
         call current 3 0 *
         call scenes 3 0 *
         saved 01000200000000000200020002000000
         = scene 0 2",
    );
    all.add(
        "the device's scene, as a position in our list, is where the arrow starts",
        &ours,
        vec![step(pressed(RIGHT, 0.0), &[done(), index(1), scenes(&[5, 21]), scenes(&[5, 21]), done()])],
        "event 0 done messages 34 calls 5 used 9 saved 1
         ...
         call load 3 0 2 0000000000000000
         saved 01000200000000000200020002000000",
    );
    let unknown = "= scene 0 0";
    for (what, answers) in [
        ("the open is refused", vec![refused(), done(), scenes(&[20]), done()]),
        ("the device cannot say", vec![done(), nothing(), scenes(&[20]), done()]),
        ("the current scene is refused", vec![done(), refused(), scenes(&[20]), done()]),
        ("its list is refused", vec![done(), index(0), refused(), scenes(&[20]), done()]),
        ("its index is beyond its list", vec![done(), index(1), scenes(&[20]), scenes(&[20]), done()]),
        ("its index is 4294967295", vec![done(), index(u32::MAX), scenes(&[20]), scenes(&[20]), done()]),
        ("its scene is not in ours", vec![done(), index(0), scenes(&[5]), scenes(&[20]), done()]),
    ] {
        all.add(
            &format!("where the device is stays unknown: {what}"),
            &ours,
            vec![step(pressed(RIGHT, 0.0), &answers)],
            &format!("event 0 done messages 34 calls * saved 1\n...\ncall load 3 0 0 *\nsaved *\n{unknown}"),
        );
    }
    all.add(
        "a scene unknown to the device loads by its place in our list",
        &ours,
        vec![restore(&[saved_scene(2, 0)]), step(pressed(RIGHT, 0.0), &[done(), scenes(&[5]), done()])],
        "event 1 done messages 34 calls 3 used 4 saved 1\n...\ncall load 3 0 1 *\nsaved *\n= scene 0 1",
    );
    for (what, answers) in [
        ("open", vec![refused()]),
        ("list", vec![done(), refused()]),
        ("load", vec![done(), scenes(&[20, 21, 22]), refused()]),
    ] {
        all.add(
            &format!("a refused {what} loads nothing and shows nothing"),
            &ours,
            vec![restore(&[saved_scene(2, 0)]), step(pressed(RIGHT, 0.0), &answers)],
            "event 1 done messages 0 calls * saved 0\n= scene 0 0",
        );
    }
    all.add(
        "the device's own list is asked each time",
        &theirs,
        vec![step(
            pressed(RIGHT, 0.0),
            &[done(), scenes(&[20, 21]), index(0), scenes(&[20, 21]), scenes(&[20, 21]), scenes(&[20, 21]), done()],
        )],
        "event 0 done messages 34 calls 7 used 15 saved 1
         ...
         call open 3 0 0 0000000000000000
         call scenes 3 0 0 0000000000000000
         call current 3 0 0 0000000000000000
         call scenes 3 0 0 0000000000000000
         call scenes 3 0 0 0000000000000000
         call scenes 3 0 0 0000000000000000
         call load 3 0 1 0000000000000000
         saved *",
    );
    all.add(
        "the list that shrinks between the asks: beyond it nothing is loaded",
        &theirs,
        vec![restore(&[saved_scene(2, 0)]), step(pressed(RIGHT, 0.0), &[done(), scenes(&[20, 21]), scenes(&[20])])],
        "event 1 done messages 0 calls 3 used 6 saved 0\n= scene 0 0",
    );
    all.add(
        "an empty or refused list: the arrow does nothing, and saves nothing",
        &theirs,
        vec![step(pressed(RIGHT, 0.0), &[done(), scenes(&[])]), step(pressed(RIGHT, 0.0), &[refused()])],
        "event 0 done messages 0 calls 2 used 2 saved 0\nevent 1 done messages 0 calls 1 used 1 saved 0",
    );
    all.add(
        "scenes without a device: the arrow saves and loads nothing",
        &[settings(false, true), bank(0, plain(2)), scene(0, 20)],
        vec![step(pressed(RIGHT, 0.0), &[])],
        "event 0 done messages 0 calls 0 used 0 saved 1\nsaved 0100020000000000\n! scene *",
    );
    all.add(
        "a bank without a driver asks the one most of its faders use, first on a tie",
        &[
            settings(false, false),
            bank(0, plain(2)),
            fader(0, 1, to(5, 7)),
            fader(0, 2, to(4, 7)),
            fader(0, 3, to(4, 7)),
            fader(0, 4, to(5, 7)),
        ],
        vec![step(pressed(RIGHT, 0.0), &[refused()])],
        "event 0 done messages 0 calls 1 used 1 saved 0\ncall open 5 0 0 0000000000000000",
    );
    all.add(
        "the globals' faders do not count for the bank's driver",
        &[settings(false, false), bank(0, plain(2)), fader(255, 1, to(5, 7))],
        vec![step(pressed(RIGHT, 0.0), &[])],
        "event 0 done messages 0 calls 0 used 0 saved 0",
    );
    all.add(
        "a position beyond the list steps back into it",
        &ours,
        vec![
            restore(&[saved_scene(2, u32::MAX)]),
            step(pressed(RIGHT, 0.0), &[done(), scenes(&[20, 21, 22]), done()]),
            restore(&[saved_scene(2, 9)]),
            step(pressed(LEFT, 0.0), &[scenes(&[20, 21, 22]), done()]),
        ],
        "restore 0 done
         = scene 0 4294967295
         event 1 done messages 34 *
         ...
         call load 3 0 2 *
         saved 01000200000000000200020002000000
         event 3 done *
         = scene 0 2",
    );
    let both = [
        settings(false, true),
        bank(0, BankIs { driver: 3, ..plain(2) }),
        bank(1, BankIs { driver: 4, ..plain(3) }),
        scene(0, 20),
        scene(0, 21),
        scene(0, 22),
        scene(1, 30),
        scene(1, 31),
        scene(1, 32),
    ];
    all.add(
        "each bank has a position of its own",
        &both,
        vec![
            restore(&[saved_scene(2, 1), saved_scene(3, 0), saved_device(3)]),
            step(pressed(RIGHT, 0.0), &[done(), scenes(&[]), done()]),
            restore(&[saved_device(2)]),
            step(pressed(RIGHT, 0.0), &[done(), scenes(&[]), done()]),
        ],
        "event 1 done *
         ...
         call load 4 0 1 *
         saved 0100030000000000020002000100000002000300010000*
         = scene 0 1
         = scene 1 1
         event 3 done *
         ...
         call load 3 0 2 *
         saved *
         = scene 0 2
         = scene 1 1",
    );
    all.add(
        "equal names: the first of the device's list is loaded, and the first of ours is where it is",
        &with_scenes(&[20, 21, 20]),
        vec![restore(&[saved_scene(2, 1)]), step(pressed(RIGHT, 0.0), &[done(), scenes(&[5, 20, 20]), done()])],
        "event 1 done *\n...\ncall load 3 0 1 *\nsaved *\n= scene 0 2",
    );
    all.add(
        "equal names: a device on the last of them is taken to be on our first",
        &with_scenes(&[20, 21, 20]),
        vec![step(pressed(RIGHT, 0.0), &[done(), index(2), scenes(&[20, 21, 20]), scenes(&[20, 21, 20]), done()])],
        "event 0 done *\n...\ncall load 3 0 1 *\nsaved *\n= scene 0 1",
    );
    all.add(
        "a loaded scene forgets which faders were muted before the solo",
        &[&with_scenes(&[])[..2], &[fader(0, 1, to(3, 7).mute(17)), scene(0, 20)]].concat(),
        vec![
            step(pressed(0x08, 0.0), &[done(), level(1.0), level(1.0), done(), level(0.0)]),
            step(pressed(RIGHT, 0.0), &[nothing(), scenes(&[20]), done(), level(0.0)]),
        ],
        "event 0 done *\n= soloed 1\n= muted 1\nevent 1 done *\n= soloed 0\n! muted *",
    );
    all.add(
        "a loaded scene clears solo and all marks, previous moves stay, the live list is due",
        &[
            &with_scenes(&[20, 21])[..2],
            &[fader(0, 1, to(4, 7).free()), fader(0, 2, to(4, 8)), scene(0, 20), scene(0, 21)],
        ]
        .concat(),
        vec![
            step(moved(0, 0, 0.0), &[]),
            step(crate::cases::tick(0.0), &[done(), done()]),
            step(pressed(0x08, 0.0), &[level(0.5), done()]),
            step(pressed(RIGHT, 0.0), &[done(), nothing(), scenes(&[20]), done()]),
        ],
        "event 2 done *
         = soloed 1
         = mark 0 0
         = due 0
         event 3 done *
         = soloed 0
         = silenced 8 *
         ! mark *
         = last 0 0 *
         = due 1",
    );
}

fn rec(all: &mut All) {
    let ours = with_scenes(&[20, 21, 22]);
    all.add(
        "R n loads the n-th of the list the arrows page; its lamp lags by one push",
        &ours,
        vec![step(pressed(0x01, 0.0), &[done(), scenes(&[21, 20]), done()]), step(push_state(0.0), &[])],
        "event 0 done messages 34 calls 3 used 5 saved 1
         message 901000
         message 900800
         message 900000
         message 901800
         message 901100
         message 900900
         message 900100
         ...
         message e00000
         message 90097f
         call open 3 0 *
         call scenes 3 0 *
         call load 3 0 0 *
         saved *
         = loaded 2
         = scene 0 1
         event 1 done messages 32 calls 0 used 0 saved 0
         ...
         message 90017f
         ...",
    );
    all.add(
        "R beyond the list does nothing",
        &ours,
        vec![step(pressed(0x03, 0.0), &[])],
        "event 0 done messages 0 calls 0 used 0 saved 0\n= loaded 0",
    );
    all.add(
        "rec of the profile is another action: the bank's transport, not the default, answers",
        &[
            settings(false, false),
            bank(0, BankIs { rec: 2, ..plain(2) }),
            fader(0, 1, to(3, 7)),
            crate::cases::transport(0, 0, 4, 9, 6),
            button(3, 0, 1),
        ],
        vec![step(pressed(0x00, 0.0), &[done(), done()])],
        "event 0 done messages 0 calls 2 used 2 saved 0\ncall open 4 9 0 *\ncall command 4 9 6 0000000000000000",
    );
    all.add(
        "rec of the profile is another action, nothing bound: the default button runs, scene or not",
        &[settings(false, false), bank(0, BankIs { rec: 2, ..plain(2) }), fader(0, 1, to(3, 7)), button(3, 0, 1)],
        vec![step(pressed(0x00, 0.0), &[done(), done()])],
        "event 0 done messages 0 calls 2 used 2 saved 0\ncall open 3 0 0 *\ncall command 3 7 1 0000000000000000",
    );
    let default = |command: u16| {
        vec![settings(false, false), bank(0, plain(2)), fader(0, 1, to(3, 7)), button(3, 0, command), button(3, 0, 1)]
    };
    all.add(
        "rec without an action: the default button scene loads, its open carries no name",
        &default(1),
        vec![step(pressed(0x00, 0.0), &[done(), scenes(&[20]), scenes(&[20]), done()])],
        "event 0 done messages 34 calls 4 used 6 saved 0
         ...
         call open 3 0 0 0000000000000000
         call scenes 3 0 0 0000000000000000
         call scenes 3 0 0 0000000000000000
         call load 3 0 0 0000000000000000
         = loaded 1",
    );
    all.add(
        "rec without an action: another default command runs; the first of two equal kinds counts",
        &default(6),
        vec![step(pressed(0x05, 0.0), &[done(), refused()])],
        "event 0 done messages 0 calls 2 used 2 saved 0\ncall open 3 0 0 *\ncall command 3 7 6 0000000000000000",
    );
    all.add(
        "rec without an action asks for the default button twice",
        &default(6),
        vec![
            step(pressed(0x00, 0.0), &[refused(), refused()]),
            step(pressed(0x00, 0.0), &[refused(), done(), done()]),
            step(pressed(0x00, 0.0), &[]),
        ],
        "event 0 done messages 0 calls 2 used 2 saved 0
         call open 3 0 0 *
         call open 3 0 0 *
         event 1 done messages 0 calls 3 used 3 saved 0
         call open 3 0 0 *
         call open 3 0 0 *
         call command 3 7 6 *
         event 2 waiting
         call command 3 7 6 *",
    );
    all.add(
        "rec without an action, guard refused, then the default is scene: it runs as a command",
        &default(1),
        vec![step(pressed(0x00, 0.0), &[refused(), done(), done()])],
        "event 0 done messages 0 calls 3 used 3 saved 0\ncall open 3 0 *\ncall open 3 0 *\ncall command 3 7 1 *",
    );
    all.add(
        "no fader, no default button: nothing is opened",
        &[settings(false, false), bank(0, BankIs { driver: 3, ..plain(2) }), button(3, 0, 1), button(3, 13, 6)],
        vec![step(pressed(0x00, 0.0), &[]), step(pressed(0x5E, 0.0), &[])],
        "event 0 done messages 0 calls 0 used 0 saved 0\nevent 1 done messages 0 calls 0 used 0 saved 0",
    );
    all.add(
        "the default button goes to the first fader of its driver, absent target and all",
        &[
            settings(false, false),
            bank(0, plain(2)),
            fader(0, 1, to(4, 7)),
            fader(0, 2, to(3, ABSENT)),
            fader(0, 3, to(3, 9)),
            button(3, 13, 6),
        ],
        vec![step(pressed(0x5E, 0.0), &[done(), done()])],
        "event 0 done messages 0 calls 2 used 2 saved 0\ncall open 3 0 0 *\ncall command 3 0 6 0000000000000000",
    );
}

fn saved(all: &mut All) {
    let three = vec![settings(false, true), bank(0, plain(40)), bank(1, plain(30)), bank(2, plain(40))];
    all.add(
        "saved: the device first, scenes by rising name number",
        &three,
        vec![restore(&[saved_scene(40, 7), saved_device(30), saved_scene(30, 9)]), step(pressed(0x2F, 0.0), &[])],
        "restore 0 done
         = bank 1
         = scene 0 7
         = scene 1 9
         event 1 done messages 34 calls 0 used 0 saved 1
         ...
         saved 010028000000000002001e0009000000020028000700000*",
    );
    all.add(
        "equal bank names: restoring takes the first, saving the last",
        &[&three[..], &[scene(0, 20), scene(2, 20)]].concat(),
        vec![
            restore(&[saved_scene(40, 7), saved_device(40)]),
            step(pressed(0x2F, 0.0), &[]),
            step(pressed(0x2F, 0.0), &[]),
        ],
        "restore 0 done
         = bank 0
         = scene 0 7
         ! scene 2 *
         event 2 done *
         ...
         saved 01002800000000000200280007000000
         = bank 2",
    );
    all.add(
        "a restored name that no bank has is passed over, 65535 too; unread bytes are unread",
        &three,
        vec![restore(&[
            vec![1, 9, 77, 0, 1, 2, 3, 4],
            saved_scene(65535, 1),
            saved_scene(0, 1),
            vec![2, 255, 30, 0, 5, 0, 0, 0],
        ])],
        "restore 0 done\n= bank 0\n= scene 1 5\n! scene 0 *",
    );
    all.add(
        "restoring nothing is fine, and leaves what is known",
        &three,
        vec![restore(&[saved_scene(30, 3)]), restore(&[])],
        "restore 1 done\n= scene 1 3",
    );
    all.add(
        "restoring sets where we are and loads nothing: marks, flash and due stay",
        &[&three[..], &[fader(0, 1, to(3, 7).free())]].concat(),
        vec![
            step(crate::cases::tick(0.0), &[]),
            step(moved(0, 0, 0.0), &[]),
            step(crate::cases::flash_bank(0.0), &[]),
            restore(&[saved_device(30)]),
        ],
        "restore 3 done\n= bank 1\n= mark 0 0\n= move 0 *\n= flash *\n= due 0\n! flash none",
    );
    let mut off = three.clone();
    off[0] = settings(false, false);
    all.add(
        "remember 0: restoring changes nothing, but is still examined; no event saves",
        &off,
        vec![restore(&[saved_device(30), saved_scene(30, 3)]), restore(&[vec![3; 8]]), step(pressed(0x2F, 0.0), &[])],
        "restore 0 done\n= bank 0\n! scene *\nrestore 1 refused 7\nevent 2 done * saved 0\n= bank 1",
    );
    let many = |n: u16| (0..n).map(|i| saved_scene(100 + i, 1)).collect::<Vec<_>>();
    for (what, records, number) in [
        ("length 7", vec![vec![2; 7]], 7),
        ("length 9", vec![saved_device(30), vec![2]], 7),
        ("kind 0", vec![vec![0; 8]], 7),
        ("kind 3", vec![saved_device(30), vec![3, 0, 30, 0, 0, 0, 0, 0]], 7),
        ("18 records", [vec![saved_device(30)], many(17)].concat(), 7),
        ("18 scenes", many(18), 7),
        ("two devices", vec![saved_device(30), saved_device(40)], 7),
        ("the same device twice", vec![saved_device(30), saved_device(30)], 7),
        ("a scene name twice", vec![saved_scene(77, 1), saved_scene(77, 1)], 7),
        ("the absent scene name twice", vec![saved_scene(65535, 1), saved_scene(65535, 2)], 7),
        ("17 records", [vec![saved_device(30)], many(16)].concat(), 0),
        ("17 scenes", many(17), 0),
        ("device and scene of one name", vec![saved_scene(30, 1), saved_device(30)], 0),
        ("a device of the absent name", vec![saved_device(65535)], 0),
    ] {
        let says = if number == 7 { "restore 1 refused 7\n= bank 2\n= scene 1 8" } else { "restore 1 done" };
        let first = restore(&[saved_device(50), saved_scene(30, 8)]);
        let profile = [settings(false, true), bank(0, plain(40)), bank(1, plain(30)), bank(2, plain(50))];
        all.add(&format!("restore: {what}"), &profile, vec![first, restore(&records)], says);
    }
}

/// Sessions that were restored before the event that counts.
pub fn add_restored(all: &mut All) {
    let own = |name: u16| BankIs { driver: 3, rec: 1, ..plain(name) };
    all.add(
        "equal bank names, both with a position: saving takes the last",
        &[settings(false, true), bank(0, own(40)), bank(1, own(40)), scene(0, 20), scene(1, 20)],
        vec![
            restore(&[saved_scene(40, 7)]),
            step(pressed(0x2F, 0.0), &[]),
            step(pressed(RIGHT, 0.0), &[done(), nothing(), scenes(&[20]), done()]),
        ],
        "event 1 done *
         ...
         saved 01002800000000000200280007000000
         = bank 1
         event 2 done *
         ...
         call load 3 0 0 *
         saved 01002800000000000200280000000000
         = scene 0 7
         = scene 1 0",
    );
    all.add(
        "a bank without a driver, two drivers as frequent: the first of the two, not of the bank, not the last",
        &[
            settings(false, true),
            bank(0, plain(2)),
            bank(1, plain(3)),
            fader(0, 1, to(4, 7)),
            fader(1, 1, to(6, 7)),
            fader(1, 2, to(5, 7)),
            fader(1, 3, to(5, 7)),
            fader(1, 4, to(4, 7)),
            fader(1, 5, to(4, 7)),
        ],
        vec![restore(&[saved_device(3)]), step(pressed(RIGHT, 0.0), &[refused()])],
        "event 1 done messages 0 calls 1 used 1 saved 0\ncall open 5 0 0 0000000000000000",
    );
    all.add(
        "the lamp of the R that loaded a scene stays on over a change of bank",
        &[settings(false, true), bank(0, own(2)), bank(1, own(3)), scene(0, 20), scene(1, 20), scene(1, 21)],
        vec![
            restore(&[saved_device(3)]),
            step(pressed(0x01, 0.0), &[done(), scenes(&[20, 21]), done()]),
            step(pressed(0x2E, 0.0), &[]),
        ],
        "event 1 done *
         = bank 1
         = loaded 2
         event 2 done *
         ...
         message 900000
         ...
         message 90017f
         ...
         message 900200
         ...
         saved *
         = bank 0
         = loaded 2
         ! scene 0 *",
    );
    all.add(
        "rec without an action, the default is scene, its target absent: it runs as a command of no name, or loads",
        &[settings(false, true), bank(0, plain(2)), fader(0, 1, to(3, ABSENT)), fader(0, 2, to(3, 9)), button(3, 0, 1)],
        vec![
            restore(&[saved_scene(2, 1)]),
            step(pressed(0x00, 0.0), &[refused(), done(), done()]),
            step(pressed(0x00, 0.0), &[scenes(&[20]), scenes(&[20]), done()]),
        ],
        "event 1 done messages 0 calls 3 used 3 saved 0
         call open 3 0 0 *
         call open 3 0 0 *
         call command 3 0 1 0000000000000000
         = loaded 0
         event 2 done messages 34 calls * saved 1
         ...
         call scenes 3 0 0 *
         call scenes 3 0 0 *
         call load 3 0 0 *
         saved *
         = loaded 1
         = scene 0 0",
    );
}

/// Most and first are told apart: in one bank the most frequent driver stands neither first nor last nor side by side, in
/// the other the first of a tie has the lower number.
pub fn add_drivers(all: &mut All) {
    all.add(
        "a bank without a driver: the one of most faders, wherever they stand; of a tie the first, not the highest",
        &[
            settings(false, true),
            bank(0, plain(2)),
            bank(1, plain(3)),
            fader(0, 1, to(4, 7)),
            fader(0, 2, to(5, 7)),
            fader(0, 3, to(6, 7)),
            fader(0, 4, to(5, 7)),
            fader(0, 5, to(7, 7)),
            fader(1, 1, to(4, 7)),
            fader(1, 2, to(5, 7)),
            fader(1, 3, to(5, 7)),
            fader(1, 4, to(4, 7)),
        ],
        vec![
            step(pressed(RIGHT, 0.0), &[refused()]),
            restore(&[saved_device(3)]),
            step(pressed(RIGHT, 0.0), &[refused()]),
        ],
        "event 0 done messages 0 calls 1 used 1 saved 0
         call open 5 0 0 0000000000000000
         event 2 done messages 0 calls 1 used 1 saved 0
         call open 4 0 0 0000000000000000",
    );
}
