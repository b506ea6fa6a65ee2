//! Tests of the bench listing, by document 01's eight lines and its edges,
//! with the large journal that the program uses.
//! An independent implementation, written from document 01 and change
//! requests 2026-01 to 2026-03, 2026-05 and 2026-06.

use reference::listing::played;

const INPUT: &str = "\
F 0 00000100040200040000
F 0 00020202041034127856
F 0 00040302011100000000
F 0 00060401024100000000
F 0 00060401024100000000
B
B
F 0 00060502011100000000
";

const OUTPUT: &str = "\
0 1 0 00200100000200000000
0 2 0 00420202000200000000
0 3 0 00640302000434127856
0 4 0 00860401200200000000
0 5 0 008d
17 4
17 3
0 4 0 00860502000434127856
";

fn shown(input: &str) -> String {
    String::from_utf8(played(input.as_bytes())).unwrap()
}

#[test]
fn the_eight_lines() {
    assert_eq!(shown(INPUT), OUTPUT);
    assert_eq!(shown(INPUT.trim_end()), OUTPUT);
}

#[test]
fn empty_input_and_empty_lines() {
    assert_eq!(shown(""), "");
    assert_eq!(shown("\n"), "10 0\n");
    assert_eq!(shown("U\n\n"), "17 1\n10 1\n");
    assert_eq!(shown("U\n\nU"), "17 1\n10 1\n17 2\n");
}

#[test]
fn unreadable_lines() {
    for line in [
        "f 0 002f",
        "F",
        "F ",
        "F 0",
        "F 0 ",
        "F 0 0",
        "F 0 002",
        "F 0 00 2f",
        "F  0 002f",
        " F 0 002f",
        "F 0 002f ",
        "F 00 002f",
        "F a 002f",
        "F 0 00zz",
        "F 0 002f\r",
        "F\t0 002f",
        "F -1 002f",
        "U ",
        "u",
        "U 1",
        "b",
        "B ",
        "S",
        "S 00",
        "P 00000000",
        "P 00000000 ",
        "P 0000000 0",
        "P 000000000 0",
        "P 0000000000 0",
        "P 00000000 00",
        "P 00000000 a",
        "p 00000000 0",
        "X",
        "\r",
        "F 0 +100",
        "I",
        "I ",
        "I 03",
        "I 03 1",
        "I 03 1 ",
        "I 03 1 0 ",
        "I 03 1 0 0",
        "I 03 1 0 000",
        "I 03 1 0 0g",
        "I 03 1 0 00 ",
        "I 03 1 0 00 00",
        "I 03 1 0  00",
        "I  03 1 0",
        "I 03  1 0",
        "I 03 1  0",
        " I 03 1 0",
        "i 03 1 0",
        "I 3 1 0",
        "I 003 1 0",
        "I 0003 1 0",
        "I 0x03 1 0",
        "I +3 1 0",
        "I 0g 1 0",
        "I  1 0",
        "I 03 2 0",
        "I 03 0 2",
        "I 03 9 9",
        "I 03 a 0",
        "I 03 01 0",
        "I 03 1 00",
        "I 03 10",
        "I 03 -1 0",
        "I 03 1 0\r",
        "I\t03 1 0",
    ] {
        assert_eq!(shown(line), "10 0\n", "{:?}", line);
    }
    assert_eq!(shown(&format!("S {}", "0".repeat(30))), "10 0\n");
    assert_eq!(shown(&format!("S {}", "0".repeat(34))), "10 0\n");
    assert_eq!(played(b"\xFF\nU\n"), b"10 0\n17 1\n");
    assert_eq!(played(b"U\0\n"), b"10 0\n");
}

#[test]
fn readable_lines_that_the_call_refuses() {
    assert_eq!(shown("F 2 002f"), "3 0\n");
    assert_eq!(shown("F 9 00"), "3 0\n");
    assert_eq!(shown("F 0 00"), "2 0\n");
    assert_eq!(shown(&format!("F 0 {}", "00".repeat(17))), "2 0\n");
    assert_eq!(shown(&format!("F 0 {}", "00".repeat(38))), "2 0\n");
    assert_eq!(shown(&format!("F 0 {}", "00".repeat(39))), "10 0\n");
    assert_eq!(shown("P 00000000 3"), "3 0\n");
    assert_eq!(shown("B"), "5 0\n");
    for channel in ["00", "01", "02", "13", "14", "15", "fF", "83"] {
        assert_eq!(shown(&format!("I {} 1 0", channel)), "3 0\n");
        assert_eq!(shown(&format!("I {} 0 1 00", channel)), "3 0\n");
    }
    assert_eq!(shown(&format!("I 03 1 0 {}", "00".repeat(16))), "15 1\n");
    assert_eq!(shown(&format!("I 03 1 0 {}", "00".repeat(17))), "3 0\n");
    // 9 characters and 35 pairs are 79, one pair more is too long a line.
    assert_eq!(shown(&format!("I 03 1 0 {}", "00".repeat(35))), "3 0\n");
    assert_eq!(shown(&format!("I 03 1 0 {}", "00".repeat(36))), "10 0\n");
}

#[test]
fn each_kind_of_line() {
    assert_eq!(shown("F 1 002F\nF 0 003f\n"), "0 1 1 0063\n0 2 0 0073\n");
    assert_eq!(shown("U\nP 00000000 0\n"), "17 1\n16 2\n");
    assert_eq!(shown("S 000102030405060708090a0B0c0D0e0F\n"), "15 1\n");
    assert_eq!(
        shown("U\nU\nF 0 008f\nB\n"),
        "17 1\n17 2\n0 0 0 0063\n5 0\n"
    );
}

#[test]
fn an_i2c_line_names_every_master() {
    for channel in 0x03..=0x12 {
        for tail in ["0 0", "0 1", "1 0", "1 1", "1 0 aB", "1 1 0123456789ABCDEF"] {
            assert_eq!(shown(&format!("I {:02x} {}", channel, tail)), "15 1\n");
            assert_eq!(shown(&format!("I {:02X} {}", channel, tail)), "15 1\n");
        }
    }
}

#[test]
fn a_masters_work() {
    // Master 0 on: CRB bit 3. CTRL 0c is NBYTE 3. DATA 11 22 33 44. A
    // multi-byte read; STATUS while it is open is refused as busy.
    let input = "\
F 0 00000100040200080000
F 0 000202030130000c0000
F 0 00040303044022114433
F 0 0006040304de00500000
F 0 00080503001100000000
I 04 1 0 a1a2
I 03 1 0 a1a2
F 0 000a0603004100000000
F 0 000c0703048600500000
I 03 1 0 7f80
F 0 000e0803009900000000
F 0 00000903001100000000
F 0 00020a0302e200000000
I 03 0 1
I 03 1 0
B
B
I 03 1 0
F 0 00040b00040200000000
F 0 00060c03001100000000
I 03 1 0
";
    let output = "\
0 1 0 00200100000200000000
0 2 0 00420203000000000000
0 3 0 00640303000000000000
17 4
0 5 0 00a60503400200000000
15 6
0 7 0 00a80403000400040000
0 8 0 00ca06030004a2a14400
17 9
0 10 0 00ec070300047f040000
0 11 0 000e0803040200000000
0 12 0 00200903000100240000
17 13
0 14 0 00420a03000200680000
15 15
17 14
17 13
0 14 0 00420a03000200240000
0 15 0 00640b00000200000000
0 16 0 00860c03200200000000
15 17
";
    assert_eq!(shown(input), output);
}

#[test]
fn the_chip_id_is_ten() {
    let input = "F 0 00000100040600100000\nF 0 0002021404d100000000\n";
    let output = "0 1 0 00200100000200000000\n0 2 0 00420214000400000a00\n";
    assert_eq!(shown(input), output);
}

#[test]
fn completion_and_sample_orders() {
    let input = "\
F 0 00000100040200060000
F 0 00020201027200000000
S 0123456789abcdef0011223344556677
F 0 00040301021100000000
F 0 00060402046000000100
F 0 000805020430ffffffff
F 0 000a06020440ffffffff
P 80000001 0
";
    let output = "\
0 1 0 00200100000200000000
17 2
0 3 0 00420201000645670123
0 4 0 006403010006cdef89ab
0 5 0 00860402000200000000
0 6 0 00a80502000200000000
0 7 0 00ca0602000200000000
0 8 0 00ccff02000400800100
";
    assert_eq!(shown(input), output);
}

#[test]
fn inttrig_set_is_rising_and_clear_is_falling() {
    // GPIO and INTENABLE on, INTSEL c0000003, INTTRIG 80000001: of the lines
    // that rise 31 and 0 fire, of those that fall 30 and 1. Then INTS is read.
    // Two steps back lead to before the fall; line 31 alone falls: no fire.
    let input = "\
F 0 00000100040200040000
F 0 00020202046000000100
F 0 00040302043000c00300
F 0 00060402044000800100
P c0000003 0
P c0000003 0
P 00000000 0
F 0 00080502017100000000
B
B
P 40000003 0
F 0 00080602017100000000
";
    let output = "\
0 1 0 00200100000200000000
0 2 0 00420202000200000000
0 3 0 00640302000200000000
0 4 0 00860402000200000000
0 5 0 0088ff02000400800100
17 6
0 7 0 008aff02000400400200
0 8 0 00ac0502000400400200
17 7
17 6
17 7
0 8 0 00aa0602000400800100
";
    assert_eq!(shown(input), output);
}

#[test]
fn kept_stops_at_two_hundred() {
    let text = shown(&"U\n".repeat(203));
    let lines: Vec<&str> = text.lines().collect();
    assert_eq!(lines[62..66], ["17 63", "17 64", "17 65", "17 66"]);
    let last = ["17 199", "17 200", "17 200", "17 200", "17 200"];
    assert_eq!(lines[198..], last);
}

#[test]
fn steps_back_to_the_refusal() {
    // The upsets and the kept number after them.
    for (upsets, kept) in [
        (1, 1),
        (63, 63),
        (64, 64),
        (65, 65),
        (199, 199),
        (200, 200),
        (201, 200),
        (450, 200),
    ] {
        let input = "U\n".repeat(upsets) + &"B\n".repeat(kept + 2);
        let text = shown(&input);
        let mut lines = text.lines().skip(upsets - 1);
        assert_eq!(lines.next(), Some(&*format!("17 {}", kept)));
        for left in (0..kept).rev() {
            assert_eq!(lines.next(), Some(&*format!("17 {}", left)));
        }
        assert_eq!(lines.collect::<Vec<_>>(), ["5 0", "5 0"]);
    }
}

/// The last lines that are printed for an input.
fn last_lines(input: &str, count: usize) -> String {
    let text = shown(input);
    let lines: Vec<&str> = text.lines().collect();
    lines[lines.len() - count..].join("\n")
}

#[test]
fn the_states_that_long_branches_lead_back_to() {
    // CRD bit 3 lets the SEU counter be read.
    let enable = "F 0 00000100040600080000\n";
    let read = "F 0 0002021304f100000000\n";
    // Of the upsets, how many are taken back, the counter then, low byte
    // first, and the kept number after the reading.
    for (upsets, steps, counter, kept) in [
        (64, 64, "0000", 2),
        (65, 65, "0000", 2),
        (150, 100, "3200", 52),
        (199, 199, "0000", 2),
        (200, 200, "0000", 1),
        (201, 200, "0100", 1),
        (300, 200, "6400", 1),
        (600, 88, "0002", 113),
    ] {
        let branch = "U\n".repeat(upsets) + &"B\n".repeat(steps);
        let wanted = format!("0 {} 0 0042021300040000{}", kept, counter);
        assert_eq!(last_lines(&(enable.to_owned() + &branch + read), 1), wanted);
    }
    // One step more takes the enabling back, if it is among the 200 kept.
    let input = enable.to_owned() + &"U\n".repeat(199) + &"B\n".repeat(200);
    let read_first = "F 0 0000021304f100000000\n";
    let wanted = "17 0\n5 0\n0 1 0 00200213200200000000";
    assert_eq!(last_lines(&(input + "B\n" + read_first), 3), wanted);
    let input = enable.to_owned() + &"U\n".repeat(200) + &"B\n".repeat(200);
    let wanted = "17 0\n5 0\n0 1 0 00420213000400000000";
    assert_eq!(last_lines(&(input + "B\n" + read), 3), wanted);
}

#[test]
fn two_hundred_are_kept_after_a_reset_too() {
    let upsets = "U\n".repeat(201);
    let input = upsets.clone() + "F 0 008f\nB\n" + &upsets;
    let text = shown(&input);
    let lines: Vec<&str> = text.lines().collect();
    assert_eq!(lines[200..204], ["17 200", "0 0 0 0063", "5 0", "17 1"]);
    assert_eq!(lines[401..], ["17 199", "17 200", "17 200"]);
}

/// A small generator of repeatable numbers (xorshift).
struct Chance(u64);

impl Chance {
    fn below(&mut self, bound: usize) -> usize {
        self.0 ^= self.0 << 13;
        self.0 ^= self.0 >> 7;
        self.0 ^= self.0 << 17;
        ((self.0 >> 16) % bound as u64) as usize
    }
}

/// Whether a printed line has the form of one, with a kept number up to 200.
fn well_formed(line: &str) -> bool {
    let fields: Vec<&str> = line.split(' ').collect();
    let kept: u8 = fields[1].parse().unwrap();
    let known = matches!(fields[0].parse().unwrap(), 0 | 2 | 3 | 5 | 10..=17);
    known && kept <= 200 && fields.len() == if fields[0] == "0" { 4 } else { 2 }
}

#[test]
fn any_input_gives_one_line_for_each_of_its_lines() {
    let mut chance = Chance(31);
    let seeds = [
        INPUT,
        "P 80000001 0\nU\nB\nS 0123456789abcdef0011223344556677\n",
        "F 0 00000100040200080000\nF 0 00020203048600500000\nI 03 1 0 7f\nI 12 0 1\n",
    ];
    for _ in 0..5_000 {
        let mut text = seeds.concat().repeat(1 + chance.below(3)).into_bytes();
        for _ in 0..chance.below(30) {
            let place = chance.below(text.len());
            match chance.below(4) {
                0 => text[place] = chance.below(256) as u8,
                1 => text.insert(place, b"0 F\nBUI"[chance.below(7)]),
                2 => drop(text.remove(place)),
                _ => text[place] = b"0123456789abcdefABCDEF"[chance.below(22)],
            }
        }
        let ends = text.iter().filter(|byte| **byte == b'\n').count();
        let open = usize::from(text.last().map_or(false, |byte| *byte != b'\n'));
        let shown = String::from_utf8(played(&text)).unwrap();
        assert_eq!(shown.lines().count(), ends + open);
        assert!(shown.lines().all(well_formed));
    }
}
