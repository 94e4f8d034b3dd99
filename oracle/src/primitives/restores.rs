//! The cases of restores.

use super::Case;
use crate::cases::{bank, button, encoder, fader, file, plain, saved_device, saved_scene, settings, to, Record, G};
use crate::names::ABSENT;

/// Banks of these names.
fn banks(remember: bool, names: &[u16]) -> Vec<Record> {
    let banks = names.iter().enumerate().map(|(i, &name)| bank(i as u8, plain(name)));
    [settings(true, remember)].into_iter().chain(banks).collect()
}

fn scenes(names: impl Iterator<Item = u16>) -> Vec<Vec<u8>> {
    names.map(|name| saved_scene(name, 7 * u32::from(name))).collect()
}

fn with(mut bytes: Vec<u8>, at: usize, byte: u8) -> Vec<u8> {
    bytes[at] = byte;
    bytes
}

/// Saved records that fit three banks named 5, 6 and 7.
fn good() -> Vec<Vec<u8>> {
    let [five, six, seven] = [5, 6, 7].map(saved_device);
    let at = |name| saved_scene(name, 10 + u32::from(name));
    vec![
        vec![],
        seven.clone(),
        five.clone(),
        at(6),
        [at(5), at(7)].concat(),
        [six.clone(), at(5), at(6), at(7)].concat(),
        [at(7), at(6), at(5), five.clone()].concat(),
        [at(6), seven.clone(), at(5)].concat(),
        // names that no bank has
        saved_device(8),
        saved_device(0),
        saved_device(ABSENT),
        at(8),
        [saved_device(9), at(6), at(9), at(ABSENT), at(0)].concat(),
        // one name as device and as scene
        [at(6), six.clone()].concat(),
        [six, at(6)].concat(),
        // bytes that are unread
        with(seven.clone(), 1, 255),
        with(at(6), 1, 1),
        [seven[..4].to_vec(), vec![255; 4]].concat(),
        // positions
        saved_scene(5, 0),
        saved_scene(6, u32::MAX),
        saved_scene(7, 0x0102_0304),
        [saved_scene(5, 0x8000_0000), saved_scene(6, 65536), saved_scene(7, 255)].concat(),
        // 16 and 17
        scenes(5..21).concat(),
        scenes(5..22).concat(),
        [scenes(5..21).concat(), seven].concat(),
    ]
}

/// Saved records that are declined.
fn bad() -> Vec<Vec<u8>> {
    let [five, six] = [5, 6].map(saved_device);
    let at = |name| saved_scene(name, 30);
    let mut all = vec![
        [five.clone(), six.clone()].concat(),
        [five.clone(), five.clone()].concat(),
        [five.clone(), at(5), at(6), at(7), five.clone()].concat(),
        [saved_device(8), at(5), saved_device(9)].concat(),
        [at(5), at(5)].concat(),
        [at(5), saved_scene(5, 31)].concat(),
        [six.clone(), at(5), at(6), at(7), at(6)].concat(),
        [at(8), at(8)].concat(),
        [at(ABSENT), at(ABSENT)].concat(),
        [scenes(5..21).concat(), scenes(20..21).concat()].concat(),
        // 18 and more
        scenes(5..23).concat(),
        [scenes(5..22).concat(), six.clone()].concat(),
        scenes(5..45).concat(),
    ];
    for kind in [0, 3, 128, 255] {
        all.push(with(six.clone(), 0, kind));
        all.push([six.clone(), at(5), with(at(7), 0, kind)].concat());
    }
    for length in [1, 7, 9, 15, 17, 135, 137] {
        all.push(scenes(5..30).concat()[..length].to_vec());
    }
    all
}

/// One profile refused by each number.
fn refused() -> Vec<Vec<u8>> {
    let two = banks(true, &[5, 6]);
    let add = |more: &[Record]| file(&[&two[..], more].concat());
    let whole = file(&two);
    vec![
        whole[..33].to_vec(),
        with(whole, 1, 1),
        file(&[two[0], two[2], two[1]]),
        file(&two[..1]),
        add(&[button(2, 13, 40); 17]),
        add(&[fader(0, 1, to(3, 7)), encoder(1, 2, to(3, 8).range(0.0, f64::INFINITY))]),
    ]
}

/// Restores one after another on one session.
fn run(profile: Vec<u8>, restores: Vec<Vec<u8>>) -> Vec<Case> {
    [vec![Case::Profile(profile)], restores.into_iter().map(Case::Restore).collect()].concat()
}

/// Each restore on a fresh session.
fn apart(profile: &[u8], restores: Vec<Vec<u8>>) -> Vec<Case> {
    restores.into_iter().flat_map(|saved| run(profile.to_vec(), vec![saved])).collect()
}

/// Declined ones between others leave bank and positions as they were.
fn mixed() -> Vec<Vec<u8>> {
    let mut good = good();
    good.reverse();
    let first = [saved_device(6), saved_scene(5, 1), saved_scene(7, 2)].concat();
    [vec![first], good.into_iter().zip(bad()).flat_map(|(a, b)| [b, a]).collect()].concat()
}

pub fn all() -> Vec<Case> {
    let three = file(&banks(true, &[5, 6, 7]));
    let mut all = apart(&three, good());
    all.extend(apart(&three, bad()));
    all.extend(run(three, mixed()));
    let not_kept = file(&banks(false, &[5, 6, 7]));
    all.extend(run(not_kept, [good(), bad()].concat()));
    // banks of equal name, in falling order, of names 0 and 1 and the last that there is, and one bank alone
    for names in [&[5, 5, 6, 5][..], &[6, 5, 5], &[9, 7, 6, 5], &[0, 1, 65534], &[256, 1, 255], &[6]] {
        let at: Vec<Vec<u8>> = names.iter().map(|&n| saved_scene(n, u32::from(n) + 3)).collect();
        let devices = names.iter().map(|&n| saved_device(n)).collect();
        all.extend(run(file(&banks(true, names)), [at.clone(), devices, vec![at.concat()]].concat()));
    }
    all.extend(run(file(&banks(true, &[7, 5, 6, 5, 6])), good()));
    let sixteen: Vec<u16> = (5..21).rev().collect();
    all.extend(run(file(&banks(true, &sixteen)), mixed()));
    for profile in refused() {
        all.extend(run(profile, vec![vec![], saved_device(6), saved_scene(5, 1), vec![3; 8]]));
    }
    // a profile with more than banks
    let more = [fader(0, 1, to(3, 7)), fader(G, 2, to(4, 8)), encoder(1, 2, to(3, 8)), button(2, 13, 40)];
    let saved = [saved_device(6), saved_scene(5, 1), saved_scene(6, 2)];
    all.extend(run(
        file(&[&banks(true, &[5, 6])[..], &more].concat()),
        [saved.to_vec(), vec![saved.concat()]].concat(),
    ));
    all
}
