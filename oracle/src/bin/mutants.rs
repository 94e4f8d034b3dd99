//! `mutants [SEEDS [WORD]]`: applies one change at a time to a copy of the ported functions (and, at the end of the list,
//! of the record layer), builds it in a directory of its own, and tells whether the named cases (without the long
//! ones) or SEEDS random cases (300, if not given) come out differently.
//!
//! `mutants --stored [WORD]`: the same with the stored recording of the port's program `replay` alone. Of a change that
//! it does not catch, the named cases that do are told: one of them belongs into the list of `catching`.
//!
//! With WORD, only the functions whose names have it. A change must be found exactly once in its file. Changes that no input can show say why.

use std::path::{Path, PathBuf};
use std::process::{Command, Stdio};
use std::time::{Duration, Instant};

use oracle::recording::{read, replay, write, Case, Show};
use oracle::{generate, named, stored};

struct Mutant {
    file: &'static str,
    function: &'static str,
    from: &'static str,
    to: &'static str,
    /// Why nothing can show the change, if that is so.
    equal: &'static str,
}

const fn protocol(function: &'static str, from: &'static str, to: &'static str) -> Mutant {
    Mutant { file: "protocol.rs", function, from, to, equal: "" }
}

const fn bridge(function: &'static str, from: &'static str, to: &'static str) -> Mutant {
    Mutant { file: "bridge.rs", function, from, to, equal: "" }
}

const fn layer(file: &'static str, function: &'static str, from: &'static str, to: &'static str) -> Mutant {
    Mutant { file, function, from, to, equal: "" }
}

const fn equal(mutant: Mutant, why: &'static str) -> Mutant {
    Mutant { equal: why, ..mutant }
}

const MUTANTS: &[Mutant] = &[
    protocol("constants", "pub const SELECT: u8 = 0x18;", "pub const SELECT: u8 = 0x19;"),
    protocol("constants", "pub const ARROW_LEFT: u8 = 0x62;", "pub const ARROW_LEFT: u8 = 0x64;"),
    protocol("constants", "pub const FADER_MAX: u16 = 16383;", "pub const FADER_MAX: u16 = 16384;"),
    protocol("note_of", "*k == kind)).map(|(n, _)| *n)", "*k != kind)).map(|(n, _)| *n)"),
    protocol("Button::channel", ".map(|(b, _)| self.note - b)", ".map(|(b, _)| self.note - b + 1)"),
    protocol("Button::channel", "took!(\"channel\", CHANNEL_BASES.iter().find(|(b, _)| (*b..*b + 8)", "took!(\"channel\", CHANNEL_BASES.iter().find(|(b, _)| (*b..*b + 7)"),
    protocol("Button::kind", "took!(\"kind: per channel\", CHANNEL_BASES.iter().find(|(b, _)| (*b..*b + 8)", "took!(\"kind: per channel\", CHANNEL_BASES.iter().find(|(b, _)| (*b..*b + 7)"),
    protocol("Button::kind", ".map_or(\"unknown\",", ".map_or(\"play\","),
    protocol("decode", "let channel = status & 0x0F;", "let channel = status & 0x07;"),
    protocol("decode", "u16::from(msb & 0x7F) << 7", "u16::from(msb) << 7"),
    protocol("decode", "| u16::from(lsb & 0x7F)", "| u16::from(lsb)"),
    protocol("decode", "(VPOT..VPOT + 8).contains(&cc)", "(VPOT..VPOT + 7).contains(&cc)"),
    protocol("decode", "took!(\"decode: turns right\", v < 0x40)", "took!(\"decode: turns right\", v <= 0x40)"),
    protocol("decode", "-(i32::from(v) - 0x40)", "-(i32::from(v & 0x7F) - 0x40)"),
    protocol("decode", "took!(\"decode: pressed\", vel > 0)", "took!(\"decode: pressed\", vel > 1)"),
    protocol("decode", "Some(Event::Button(Button { note, pressed: false }))", "Some(Event::Button(Button { note, pressed: true }))"),
    protocol("Out::bytes", "(raw >> 7) as u8", "(raw >> 8) as u8"),
    protocol("Out::bytes", "0xE0 | (channel & 0x0F)", "0xE0 | (channel & 0x07)"),
    protocol("led", "    Out::Led { note, on }\n}", "    Out::Led { note, on: !on }\n}"),
    protocol("fader_position", "(value * f64::from(FADER_MAX)).round()", "(value * f64::from(FADER_MAX)).floor()"),
    equal(
        protocol("fader_position", ".clamp(0.0, f64::from(FADER_MAX)) as u16", " as u16"),
        "every value sent is NaN or within 0 to 1, so the product is within 0 to 16383, and the cast alone takes a NaN to 0",
    ),
    bridge("constants", "pub const NEAR: f64 = 0.02;", "pub const NEAR: f64 = 0.0200001;"),
    bridge("constants", "pub const STEP: f64 = 1.0 / 64.0;", "pub const STEP: f64 = 1.0 / 63.0;"),
    bridge("constants", "pub const BLINKS: u32 = 3;", "pub const BLINKS: u32 = 4;"),
    bridge("constants", "pub const BLINK: f64 = 0.12;", "pub const BLINK: f64 = 0.121;"),
    bridge("constants", "pub const TRANSPORT_EVERY: f64 = 1.0;", "pub const TRANSPORT_EVERY: f64 = 1.01;"),
    bridge("transport_note", "Some(protocol::SELECT)\n", "Some(protocol::MUTE)\n"),
    bridge("Flash::led", "protocol::led(self.column_row + self.column,", "protocol::led(self.column_row,"),
    bridge("Flash::led", "phase.is_multiple_of(2)", "phase.is_multiple_of(3)"),
    bridge("Bridge::new", "live_due: true,\n            live_at: 0.0,", "live_due: false,\n            live_at: 0.0,"),
    equal(
        bridge("with_clock", "self.clock = clock;", "drop(clock);"),
        "an event runs on a copy, which is handed the event's clock",
    ),
    bridge("take_out", "std::mem::take(&mut self.out)", "std::mem::take(&mut self.out).into_iter().rev().collect()"),
    bridge("send", "self.out.push(out);", "self.out.insert(0, out);"),
    equal(
        bridge("log", "(self.log)(line);", "(self.log)(\"\");"),
        "the text of the log is left out",
    ),
    bridge("driver", "took!(\"driver: not opened\", !self.drivers.contains_key(name))", "took!(\"driver: not opened\", true)"),
    bridge("driver", "took!(\"driver: opens\", (self.factory)(name, used))", "took!(\"driver: opens\", (self.factory)(name, \"\"))"),
    bridge("read", "((raw - low) / (high - low)).clamp(0.0, 1.0)", "((raw - low) / (high - low)).max(0.0).min(1.0)"),
    bridge("read", "((raw - low) / (high - low)).clamp(0.0, 1.0)", "(raw / (high - low) - low / (high - low)).clamp(0.0, 1.0)"),
    bridge("write", "d.write(dest.target(), low + value * (high - low))", "d.write(dest.target(), low * (1.0 - value) + value * high)"),
    bridge("write", "branch!(\"write: refused\");", "return true;"),
    bridge("read_mute", "took!(\"read_mute: muted\", v >= 0.5)", "took!(\"read_mute: muted\", v > 0.5)"),
    bridge("base", "self.profile.bank(self.bank_index as i64)\n", "self.profile.bank(self.bank_index as i64 - 1)\n"),
    bridge("faders", "took!(\"faders: live bank\", self.base().live.is_some())", "took!(\"faders: live bank\", self.live.contains_key(&self.bank_index))"),
    bridge("refresh_live", "        self.live_due = false;\n        let i", "        let i"),
    bridge("refresh_live", "(1..=8).contains(n)", "(1..8).contains(n)"),
    bridge("refresh_live", "took!(\"refresh_live: no label\", f.label.is_empty())", "took!(\"refresh_live: no label\", false)"),
    bridge("refresh_live", "if took!(\"refresh_live: unchanged\", self.live.get(&i) == Some(&faders)) {", "if took!(\"refresh_live: unchanged\", self.live.get(&i) == Some(&faders) || (faders.is_empty() && !self.live.contains_key(&i))) {"),
    bridge("refresh_live", "self.took_over.retain(|k| k.0 != i);", "self.took_over.clear();"),
    bridge("refresh_live", "self.live.insert(i, faders);", "self.live.clear(); self.live.insert(i, faders);"),
    equal(
        bridge("refresh_live", "took!(\"refresh_live: still this bank\", i == self.bank_index)", "took!(\"refresh_live: still this bank\", true)"),
        "nothing between the two changes the bank",
    ),
    bridge("destination", "took!(\"destination: global\", self.profile.globals.faders.get(&fader)).or_else(|| took!(\"destination: in the bank\", self.faders().get(&fader)))", "took!(\"destination: in the bank\", self.faders().get(&fader)).or_else(|| took!(\"destination: global\", self.profile.globals.faders.get(&fader)))"),
    bridge("step_bank", ".clamp(0, last.max(0)) as usize", ".rem_euclid(last + 1) as usize"),
    bridge("step_bank", "took!(\"step_bank: moves\", target != self.bank_index)", "took!(\"step_bank: moves\", true)"),
    bridge("scene_index", "self.scene_of.get(&self.bank_index).copied().flatten()", "self.scene_of.values().next().copied().flatten()"),
    bridge("set_scene_index", "self.scene_of.insert(self.bank_index, value);\n        self.remember();", "self.scene_of.insert(self.bank_index, value);"),
    bridge("remember", "state.save(names[self.bank_index], &scenes);", "state.save(names[0], &scenes);"),
    bridge("remember", "let scenes = self.scene_of.iter().filter_map", "let scenes = self.scene_of.iter().rev().filter_map"),
    bridge("restore", "self.scene_of.insert(i, Some(s as usize));", "self.scene_of.entry(i).or_insert(Some(s as usize));"),
    bridge("restore", "self.bank_index = i;\n        }\n    }", "self.bank_index = i;\n            self.took_over.clear();\n        }\n    }"),
    bridge("device", "took!(\"device: the bank's own\", self.base().driver.clone()).or_else(|| self.bank_driver())", "took!(\"device: the bank's own\", self.bank_driver()).or_else(|| self.base().driver.clone())"),
    bridge("scene_names", "took!(\"scene_names: profile's list\", !self.base().scenes.is_empty())", "took!(\"scene_names: profile's list\", self.base().scenes.len() > 1)"),
    bridge("step_scene", ".map_or(0, |s| s as i64 + step)", ".map_or(0, |s| s as i64 + step.abs())"),
    equal(
        bridge("step_scene", ".map_or(0, |s| s as i64 + step)", ".map_or(step - 1, |s| s as i64 + step)"),
        "a step is 1 or -1: 0, or -2, which the clamp takes to 0",
    ),
    bridge("step_scene", ".map_or(0, |s| s as i64 + step)", ".map_or(step, |s| s as i64 + step)"),
    bridge("step_scene", "took!(\"step_scene: at the end\", Some(i) == self.scene_index())", "took!(\"step_scene: at the end\", false)"),
    bridge("step_scene", "self.set_scene_index(on_device);", "if on_device.is_some() { self.set_scene_index(on_device); }"),
    bridge("step_scene", "self.flash_number(i, protocol::SOLO);", "self.flash_number(i, protocol::REC);"),
    bridge("scene_on_device", "names.iter().position(|n| n == scene))", "names.iter().rposition(|n| n == scene))"),
    bridge("load_scene_at", "took!(\"load_scene_at: beyond the list\", i >= names.len())", "took!(\"load_scene_at: beyond the list\", i > names.len())"),
    bridge("load_scene_at", "all.iter().position(|s| *s == names[i])).unwrap_or(i)", "all.iter().position(|s| *s == names[i])).unwrap_or(0)"),
    bridge("load_scene_at", "        self.soloed = None;\n        self.muted_before.clear();\n        self.took_over.clear();", "        self.muted_before.clear();\n        self.took_over.clear();"),
    bridge("load_scene_at", "        self.soloed = None;\n        self.muted_before.clear();\n        self.took_over.clear();", "        self.soloed = None;\n        self.took_over.clear();"),
    bridge("load_scene_at", "        self.muted_before.clear();\n        self.took_over.clear();\n        self.log(", "        self.muted_before.clear();\n        self.log("),
    bridge("load_scene_at", "self.live_due = true; // a live", "// a live"),
    bridge("select_bank", "took!(\"select_bank: no such bank\", i >= self.profile.banks.len())", "took!(\"select_bank: no such bank\", i >= self.profile.banks.len() || i == self.bank_index)"),
    bridge("select_bank", "        self.live_due = true;\n        self.remember();", "        self.remember();"),
    bridge("select_bank", "        self.remember();\n        self.took_over.clear();", "        self.remember();\n        self.took_over.clear();\n        self.soloed = None;"),
    bridge("select_bank", "        self.remember();\n        self.took_over.clear();", "        self.remember();\n        self.took_over.clear();\n        self.scene_loaded = None;"),
    bridge("select_bank", "        self.push_state();\n        self.flash_bank();", "        self.flash_bank();\n        self.push_state();"),
    bridge("flash_bank", "self.flash_number(self.bank_index, protocol::REC);", "self.flash_number(self.bank_index, protocol::SOLO);"),
    bridge("flash_number", "took!(\"flash_number: nothing to show\", row > 7)", "took!(\"flash_number: nothing to show\", row > 6)"),
    bridge("flash_number", "        self.finish_flash();\n        let (row, column)", "        let (row, column)"),
    bridge("flash_number", "self.send(protocol::fader_position(flash.row, 0.0));", "self.send(protocol::fader_position(flash.row, 1.0));"),
    bridge("tick_flash", "as u32).wrapping_add(1)", "as u32).saturating_add(0)"),
    equal(
        bridge("tick_flash", "as u32).wrapping_add(1)", "as u32).saturating_add(1)"),
        "a flash so old is over: finishing sends the phases that are left",
    ),
    bridge("tick_flash", "took!(\"tick_flash: phase due\", flash.sent < due)", "took!(\"tick_flash: phase due\", flash.sent + 1 < due)"),
    bridge("tick_flash", "let done = now - flash.start >= ", "let done = now - flash.start > "),
    bridge("tick_flash", ".floor().max(0.0)", ".round().max(0.0)"),
    bridge("finish_flash", "took!(\"finish_flash: phase left\", flash.sent < 2 * BLINKS)", "took!(\"finish_flash: phase left\", flash.sent < 2 * BLINKS - 1)"),
    bridge("finish_flash", "self.last_seen.get(&(self.bank_index, flash.row))", "self.last_seen.get(&(0, flash.row))"),
    bridge("finish_flash", "self.send(protocol::fader_position(flash.row, home));\n        }\n        self.push_state();", "self.send(protocol::fader_position(flash.row, home));\n        }"),
    bridge("push_state", "for fader in 1..=8u32 {", "for fader in 1..8u32 {"),
    bridge("push_state", "took!(\"push_state: positions\", self.profile.positions)", "took!(\"push_state: positions\", true)"),
    bridge("push_state", "protocol::led(protocol::REC + ch, took!(\"push_state: scene loaded\", self.scene_loaded == Some(fader)))", "protocol::led(protocol::REC + ch, took!(\"push_state: scene loaded\", self.scene_index() == Some(fader as usize - 1)))"),
    bridge("push_state", "took!(\"push_state: this bank\", self.bank_index == ch as usize)", "took!(\"push_state: this bank\", self.bank_index % 8 == ch as usize)"),
    bridge("push_transport", "self.out.extend(leds);", "drop(leds);"),
    bridge("is_muted", "took!(\"is_muted: read\", self.read_mute(&dest, &mute)).unwrap_or(false)", "took!(\"is_muted: read\", self.read_mute(&dest, &mute)).unwrap_or(true)"),
    bridge("is_muted", "took!(\"is_muted: silenced\", self.value_before.contains_key(dest.target()))", "took!(\"is_muted: silenced\", false)"),
    bridge("fader", "if took!(\"fader: takeover waived\", !dest.takeover) {", "if took!(\"fader: takeover waived\", false) {"),
    bridge("fader", "if (p - c) * (value - c) < 0.0", "if (p - c) * (value - c) <= 0.0"),
    bridge("fader", "(value - c).abs() > NEAR", "(value - c).abs() >= NEAR"),
    bridge("fader", "                    self.last_seen.insert(key, value);\n                    return;", "                    return;"),
    bridge("fader", "Some(p) => p.1 = value,", "Some(_) => {}"),
    bridge("fader", "None => self.pending.push((channel, value)),", "None => self.pending.insert(0, (channel, value)),"),
    bridge("fader", "let key = (self.bank_index, channel);", "let key = (0, channel);"),
    bridge("encoder", "Some(n) => n.1 += delta,", "Some(n) => n.1 = delta,"),
    bridge("encoder", "self.nudges.iter_mut().find(|(d, _)| *d == dest)", "self.nudges.iter_mut().find(|(d, _)| d.driver == dest.driver && d.target() == dest.target())"),
    bridge("apply_nudge", "(current + f64::from(delta) * STEP).clamp(0.0, 1.0)", "(current + f64::from(delta) * STEP).clamp(-1.0, 1.0)"),
    bridge("drain", "took!(\"drain: sum is not 0\", delta != 0)", "took!(\"drain: sum is not 0\", true)"),
    bridge("drain", "took!(\"drain: written\", self.write(&dest, value)) && took!(\"drain: positions\", self.profile.positions)", "took!(\"drain: positions\", self.profile.positions) && took!(\"drain: written\", self.write(&dest, value))"),
    bridge("drain", "for (channel, value) in std::mem::take(&mut self.pending) {", "for (channel, value) in self.pending.clone() {"),
    bridge("tick", "        self.drain();\n        if took!", "        if took!"),
    bridge("tick", "now - self.live_at >= TRANSPORT_EVERY", "now - self.live_at > TRANSPORT_EVERY"),
    bridge("tick", "            self.live_at = now;\n            self.refresh_live();", "            self.refresh_live();"),
    bridge("mute", "d.write(&target, 0.0)", "d.write(&target, low)"),
    bridge("mute", "d.write(&target, low + before * (high - low))", "d.write(&target, before)"),
    bridge("mute", "took!(\"mute: device reads\", self.read(&dest)).unwrap_or(0.0)", "took!(\"mute: device reads\", self.read(&dest)).unwrap_or(1.0)"),
    bridge("mute", "            self.log(&format!(\"  !! mute {}: {e}\", dest.label));\n        }\n        self.push_state();", "            self.log(&format!(\"  !! mute {}: {e}\", dest.label));\n            return;\n        }\n        self.push_state();"),
    bridge("solo", "took!(\"solo: peer\", d.group == chosen.group)", "took!(\"solo: peer\", true)"),
    bridge("solo", "let mut all = self.faders().clone();\n        all.extend(self.profile.globals.faders.clone());", "let mut all = self.profile.globals.faders.clone();\n        all.extend(self.faders().clone());"),
    bridge("solo", "                    self.write(dest, 0.0);", "                    self.write(dest, -0.0);"),
    bridge("solo", "if took!(\"solo: none before\", self.soloed.is_none()) {", "if took!(\"solo: none before\", true) {"),
    bridge("solo", "let silence = *n != fader;", "let silence = true;"),
    bridge("solo", "if took!(\"solo on: not silenced yet\", !self.value_before.contains_key(dest.target())) {", "if took!(\"solo on: not silenced yet\", true) {"),
    bridge("solo", "took!(\"solo off: known\", self.muted_before.get(n).copied()).unwrap_or(false)", "took!(\"solo off: known\", self.muted_before.get(n).copied()).unwrap_or(true)"),
    bridge("set_mute", "took!(\"set_mute: toggles\", now != muted)", "took!(\"set_mute: toggles\", muted)"),
    bridge("scene", "self.scene_loaded = Some(fader);\n            self.flash_number", "self.flash_number"),
    bridge("scene", "took!(\"scene: loaded\", self.load_scene_at(fader as usize - 1))", "took!(\"scene: loaded\", self.load_scene_at(fader as usize))"),
    bridge("on_midi", "if took!(\"on_midi: pressed\", b.pressed) => self.button(b),", "=> self.button(b),"),
    bridge("bank_driver", "most_common(self.faders().values().map(|d| d.driver.as_str()))", "self.faders().values().map(|d| d.driver.clone()).next()"),
    bridge("default_button", "took!(\"default_button: knows it\", drv.buttons().iter().find(|(k, _)| *k == kind))", "took!(\"default_button: knows it\", drv.buttons().iter().rev().find(|(k, _)| *k == kind))"),
    bridge("default_button", "self.faders().values().find(|d| d.driver == name).and_then", "self.faders().values().next().and_then"),
    bridge("button", "\"bank_right\" | \"arrow_down\" =>", "\"bank_right\" | \"arrow_up\" =>"),
    bridge("button", "took!(\"button: no rec action\", !actions.contains_key(\"rec\"))", "took!(\"button: no rec action\", true)"),
    bridge("button", "took!(\"button: default rec is scene\", c.command == \"scene\")", "took!(\"button: default rec is scene\", true)"),
    bridge("button", "took!(\"button: default rec is scene\", c.command == \"scene\")", "took!(\"button: default rec is scene\", c.command == \"scene\" && c.target.is_some())"),
    bridge("button", "took!(\"button: bound globally\", self.profile.globals.transport(kind)).or_else(|| took!(\"button: bound in the bank\", self.base().transport(kind)))", "took!(\"button: bound in the bank\", self.base().transport(kind)).or_else(|| took!(\"button: bound globally\", self.profile.globals.transport(kind)))"),
    bridge("run_command", "let target = cmd.target.clone().unwrap_or_default();\n        match", "let target = cmd.command.clone();\n        match"),
    bridge("transport_leds", "Some(b) => b.1 = cmd.clone(),", "Some(_) => {}"),
    bridge("transport_leds", "None => bound.push((kind.clone(), cmd.clone())),", "None => bound.insert(0, (kind.clone(), cmd.clone())),"),
    bridge("transport_leds", "let key = (cmd.driver.clone(), cmd.target.clone());", "let key = (cmd.driver.clone(), Some(cmd.target.clone().unwrap_or_default()));"),
    bridge("transport_leds", "known.iter().find(|(k, _)| *k == key)", "known.iter().find(|(k, _)| k.0 == key.0)"),
    bridge("transport_leds", "took!(\"transport_leds: lit\", playing.is_some())", "took!(\"transport_leds: lit\", playing == Some(true))"),
    bridge("transport_leds", "drivers.insert(cmd.driver.clone(), d);", "drop(d);"),
    bridge("transport_leds", "                known.push((key, p));\n", "                if p.is_some() {\n                    known.push((key, p));\n                }\n"),
    layer("describe.rs", "most_common", "count > c", "count >= c"),
    layer("session.rs", "step_with", "message_room < MESSAGE_ROOM", "message_room <= MESSAGE_ROOM"),
    layer("session.rs", "step_with", "call_room < CALL_ROOM", "call_room <= CALL_ROOM"),
    layer("session.rs", "too_much", "+ added > MOST_SILENCED)", "+ added >= MOST_SILENCED)"),
    layer("session.rs", "silenced_by_mute", "dest.mute.is_none() && !self", "!self"),
    layer("session.rs", "silenced_by_solo", "if bridge.soloed == Some(fader) {", "if false {"),
    layer("session.rs", "silenced_by_solo", "**n != fader && d.group", "d.group"),
    layer("session.rs", "silenced_by_solo", "let added: HashSet<&str>", "let added: Vec<&str>"),
    layer("line.rs", "find", "if count > most {", "if count >= most {"),
    layer("line.rs", "find", "(PLAYING, 4) if record[1] <= 1", "(PLAYING, 4) if record[1] <= 2"),
    layer("line.rs", "live_items", "w[0].number < w[1].number", "w[0].number <= w[1].number"),
    layer("records.rs", "load", "|| bytes.len() > MOST_PROFILE_BYTES", "|| bytes.len() >= MOST_PROFILE_BYTES"),
    layer("records.rs", "fields_are_good", "r[2] <= 1 && r[3] <= 1 && zero(4, 32)", "r[2] <= 1 && r[3] <= 1 && zero(4, 16) && zero(17, 32)"),
    layer("records.rs", "counts_are_good", "n <= MOST_TRANSPORTS", "n < MOST_TRANSPORTS"),
    layer("records.rs", "order_is_good", "w[0][0] <= w[1][0]", "w[0][0] < w[1][0] + 2"),
    layer("records.rs", "saved", "bytes.len() / SAVED_RECORD > MOST_SAVED", "bytes.len() / SAVED_RECORD > MOST_SAVED + 1"),
    layer("records.rs", "event", "if length > 3 {", "if length > 3 && r[0] == 1 {"),
];

/// The directory of the copy, gone again at the end.
struct Copy(PathBuf);

impl Drop for Copy {
    fn drop(&mut self) {
        let _ = std::fs::remove_dir_all(&self.0);
    }
}

fn copy_tree(from: &Path, to: &Path) -> std::io::Result<()> {
    std::fs::create_dir_all(to)?;
    for entry in std::fs::read_dir(from)? {
        let entry = entry?;
        let target = to.join(entry.file_name());
        if entry.file_type()?.is_dir() {
            copy_tree(&entry.path(), &target)?;
        } else {
            std::fs::copy(entry.path(), target)?;
        }
    }
    Ok(())
}

/// Runs a program for at most a minute or two; `None` if it took longer.
fn within(mut command: Command) -> Option<bool> {
    let mut child = command.spawn().expect("the program starts");
    let begun = Instant::now();
    while begun.elapsed() < Duration::from_secs(120) {
        if let Some(status) = child.try_wait().expect("a child can be asked") {
            return Some(status.success());
        }
        std::thread::sleep(Duration::from_millis(20));
    }
    let _ = child.kill();
    let _ = child.wait();
    None
}

/// Cases that a mutant is held against, in a file beside the copy, and what the original prints of each.
struct Held {
    file: PathBuf,
    expected: Vec<String>,
}

impl Held {
    fn new(file: PathBuf, cases: &[Case]) -> Result<Self, String> {
        std::fs::write(&file, write(cases)).map_err(|e| e.to_string())?;
        Ok(Held { file, expected: cases.iter().map(|c| replay(c, Show::Hash)).collect() })
    }

    /// The places of the cases that the built copy prints differently. If it stops early, the case that has no lines
    /// is the last of them.
    fn differing(&self, at: &Path) -> Result<Vec<usize>, String> {
        let out = std::fs::File::create(at.join("out.txt")).map_err(|e| e.to_string())?;
        let mut run = Command::new(at.join("target/debug/replay"));
        run.arg(&self.file).stdout(out).stderr(Stdio::null());
        within(run);
        let printed = std::fs::read_to_string(at.join("out.txt")).map_err(|e| e.to_string())?;
        let mut left = printed.as_str();
        let mut places = Vec::new();
        for (place, lines) in self.expected.iter().enumerate() {
            let (now, rest) = left.split_at(left.find("\ncase ").map_or(left.len(), |end| end + 1));
            if now != lines {
                places.push(place);
            }
            if now.is_empty() {
                break;
            }
            left = rest;
        }
        Ok(places)
    }
}

fn main() -> Result<(), String> {
    let first = std::env::args().nth(1);
    let by_stored = first.as_deref() == Some("--stored");
    let seeds: u32 = first
        .filter(|_| !by_stored)
        .map_or(Ok(300), |s| s.parse())
        .map_err(|_| "mutants [SEEDS [WORD]] or mutants --stored [WORD]")?;
    let word = std::env::args().nth(2).unwrap_or_default();
    let home = Path::new(env!("CARGO_MANIFEST_DIR"));
    let copy = Copy(std::env::temp_dir().join(format!("oracle-mutants-{}", std::process::id())));
    let at = &copy.0;
    copy_tree(&home.join("src"), &at.join("src")).map_err(|e| e.to_string())?;
    for file in ["Cargo.toml", "Cargo.lock"] {
        std::fs::copy(home.join(file), at.join(file)).map_err(|e| e.to_string())?;
    }
    let (names, cases): (Vec<String>, Vec<Case>) =
        named::all().into_iter().filter(|c| !c.long).map(|c| (c.name, c.case)).unzip();
    let by_name = Held::new(at.join("named.bin"), &cases)?;
    let others = match by_stored {
        true => read(&stored::file("replay", "stdin"))?,
        false => generate::cases(100_000, seeds).collect(),
    };
    let by_others = Held::new(at.join("others.bin"), &others)?;
    let original = |m: &Mutant| std::fs::read_to_string(home.join("src").join(m.file)).map_err(|e| e.to_string());
    for mutant in MUTANTS {
        let found = original(mutant)?.matches(mutant.from).count();
        if found != 1 {
            return Err(format!("{}: found {found} times: {}", mutant.file, mutant.from));
        }
    }
    let (mut caught, mut missed, mut equal) = (0, 0, 0);
    for mutant in MUTANTS.iter().filter(|m| m.function.contains(&word)) {
        let original = original(mutant)?;
        let changed = at.join("src").join(mutant.file);
        std::fs::write(&changed, original.replace(mutant.from, mutant.to)).map_err(|e| e.to_string())?;
        let mut build = Command::new("cargo");
        build
            .args(["build", "--offline", "--quiet", "--bin", "replay"])
            .current_dir(at)
            .env("CARGO_TARGET_DIR", at.join("target"));
        build.env("RUSTFLAGS", "-Awarnings").env("CARGO_PROFILE_DEV_OPT_LEVEL", "0");
        if within(build) != Some(true) {
            return Err(format!("does not build: {} -> {}", mutant.from, mutant.to));
        }
        let catches = |held: &Held| held.differing(at).map(|places| !places.is_empty());
        let by = if by_stored {
            catches(&by_others)?.then_some("caught by the stored recording")
        } else if catches(&by_name)? {
            Some("caught by a named case")
        } else {
            catches(&by_others)?.then_some("caught by a random case only")
        };
        let how = match (by, mutant.equal.is_empty()) {
            (Some(by), _) => {
                caught += 1;
                by
            }
            (None, true) => {
                missed += 1;
                "NOT CAUGHT"
            }
            (None, false) => {
                equal += 1;
                "equal"
            }
        };
        let one_line = |text: &str| text.split_whitespace().collect::<Vec<_>>().join(" ");
        let (from, to) = (one_line(mutant.from), one_line(mutant.to));
        println!("{how}: {} {}: {from} -> {to}", mutant.file, mutant.function);
        if by_stored && by.is_none() {
            by_name.differing(at)?.iter().for_each(|&place| println!("    a named case does: {}", names[place]));
        }
        std::fs::write(&changed, original).map_err(|e| e.to_string())?;
    }
    let count = caught + missed + equal;
    println!("{count} mutants: {caught} caught, {missed} not caught, {equal} equal to the original");
    Ok(())
}
