//! The bench cases of the scope, run on the twin.

use bench::answer::Answer;
use bench::twin::replay;

/// Bytes from hex, blanks left out.
fn hex(text: &str) -> Vec<u8> {
    let digits: Vec<u8> = text
        .bytes()
        .filter(|byte| !byte.is_ascii_whitespace())
        .collect();
    let digit = |byte: u8| (byte as char).to_digit(16).expect("a hex digit") as u8;
    digits
        .chunks(2)
        .map(|pair| digit(pair[0]) << 4 | digit(pair[1]))
        .collect()
}

/// A file with the right front bytes around a body.
fn file(body: &str) -> Vec<u8> {
    let body = hex(body);
    let mut file = vec![1];
    file.extend((body.len() as u16).to_be_bytes());
    file.extend(body);
    file
}

/// Replays with ample buffers; gives the answer, the log and the image.
fn run(file: &[u8]) -> (Answer, Vec<u8>, Vec<u8>) {
    let mut log = vec![0xA5; 50_000];
    let mut image = vec![0x5A; 600];
    let answer = replay(file, &mut log, &mut image);
    assert!(log[answer.logged..].iter().all(|&byte| byte == 0xA5));
    assert!(image[answer.imaged..].iter().all(|&byte| byte == 0x5A));
    log.truncate(answer.logged);
    image.truncate(answer.imaged);
    (answer, log, image)
}

/// Code and place of a body.
fn verdict(body: &str) -> (u8, usize) {
    let (answer, _, _) = run(&file(body));
    (answer.code, answer.place)
}

#[test]
fn p1_no_clients() {
    assert_eq!(verdict("01 00 01 05 01 08"), (0, 2));
    assert_eq!(verdict("01 00 01 04"), (13, 0));
}

#[test]
fn p2_widths() {
    for (width, code) in [("00", 5), ("01", 0), ("10", 0), ("11", 5)] {
        assert_eq!(verdict(&format!("02 {width} 00000007")), (code, 0));
    }
}

const P3: &str = "01001E0101 0A0100000000070000002A 0103 0105 09060000000700000063 020200";

#[test]
fn p3_whole() {
    let (answer, log, image) = run(&hex(P3));
    assert_eq!((answer.code, answer.place), (0, 5));
    assert_eq!(log, hex("09000000000700000063"));
    let mut due = vec![0; 25];
    due.extend(hex("0101010100000007"));
    assert_eq!(image, due);
}

#[test]
fn p4_and_p5_send_then_skip_or_recv() {
    assert_eq!(verdict("01 01 0A0100000000070000002A 0104"), (0, 2));
    assert_eq!(verdict("01 01 0A0100000000070000002A 020200"), (14, 1));
}

#[test]
fn p6_other_id() {
    let other = P3.replace("09060000000700000063", "09060000000800000063");
    let (answer, log, _) = run(&hex(&other));
    assert_eq!((answer.code, answer.place, log.len()), (15, 3, 0));
}

#[test]
fn p7_pending_reader_stops_the_writer() {
    assert_eq!(verdict("02 01 00000007 020500 0101 0102"), (16, 2));
    assert_eq!(verdict("02 01 00000007 020500 0101 020600"), (12, 2));
}

#[test]
fn p8_every_cell_is_looked_at() {
    assert_eq!(verdict("02 02 00000007 0101 0102 0103"), (13, 2));
    let (answer, log, image) = run(&file("02 02 00000007 0101 0102 0102 0103"));
    assert_eq!((answer.code, answer.place), (0, 4));
    assert_eq!(log, hex("050100000007"));
    assert_eq!(image, hex("01 0000000000 0000 01 000000 000000"));
}

#[test]
fn p9_and_p10_counting() {
    assert_eq!(verdict("03 0103"), (12, 0));
    assert_eq!(verdict("03 050100000005 0103 0102"), (16, 2));
    assert_eq!(verdict("03 050100000005 0103 050400000006"), (17, 2));
    let (_, log, image) = run(&file("03 050100000005 0103 050400000006"));
    assert_eq!(log, hex("050200000005"));
    assert_eq!(image, hex("01 00000005 01 01"));
}

/// Flag steps from words such as "b0 m1 r0".
fn flag_body(words: &str) -> String {
    let mut body = String::from("04 02 00");
    for word in words.split_whitespace() {
        let (name, thread) = word.split_at(1);
        let tag = 1 + "bmr".find(name).expect("b, m or r");
        body.push_str(&format!(" 02 0{tag} 0{thread}"));
    }
    body
}

#[test]
fn p11_two_flips_cancel() {
    let body = flag_body("b0 m0 m0 b1 m1 m1 m1 m0 m0 b1 m1 m0 m0");
    let (answer, log, image) = run(&file(&body));
    assert_eq!((answer.code, answer.place), (0, 13));
    assert_eq!(log, hex("020101 020100 020101"));
    assert_eq!(image, hex("01000000"));
}

#[test]
fn p12_a_thread_that_never_ends() {
    // Thread 1 flips twice in a lap, so the value comes back as well.
    let lap = "m0 m0 b1 m1 m1 m1 m0 m0 m0 b1 m1 m1";
    let (_, _, before) = run(&file(&flag_body("b0")));
    let mut words = String::from("b0");
    for _ in 0..3 {
        words.push_str(&format!(" {lap}"));
        let (answer, _, after) = run(&file(&flag_body(&words)));
        assert_eq!(answer.code, 0);
        assert_eq!(after, before);
    }
}

#[test]
fn run_cases() {
    let body = |refs: usize| format!("03 050100000005 {}", "0103 ".repeat(refs));
    assert_eq!(verdict(&body(255)), (0, 256));
    assert_eq!(verdict(&body(256)), (18, 256));
    let starts = |count: usize| format!("02 02 00000001 {}", "020501 ".repeat(count));
    assert_eq!(verdict(&starts(255)), (0, 255));
    assert_eq!(verdict(&starts(256)), (18, 255));
    assert_eq!(
        run(&[]).0,
        Answer {
            code: 1,
            place: 0,
            logged: 0,
            imaged: 0
        }
    );
    assert_eq!(run(&[1, 0, 0]).0.code, 1);
}

#[test]
fn steps_are_read_before_any_is_run() {
    assert_eq!(verdict("03 0103 00"), (6, 1));
    assert_eq!(
        verdict(&format!("03 {} FF", "0103".repeat(4096))),
        (7, 4096)
    );
    assert_eq!(
        verdict(&format!("03 {} FF", "0103".repeat(4095))),
        (6, 4095)
    );
}

#[test]
fn buffers_are_counted_over_all_steps() {
    let file = file("03 0103 0103");
    let code =
        |log: usize, image: usize| replay(&file, &mut vec![0; log], &mut vec![0; image]).code;
    assert_eq!(
        [code(20, 512), code(19, 512), code(20, 511), code(0, 0)],
        [12, 8, 8, 8]
    );
    let none = self::file("03");
    assert_eq!(replay(&none, &mut [], &mut [0; 512]).code, 0);
}

#[test]
fn codes_go_by_rising_number() {
    let mut wrong = file("09");
    assert_eq!(run(&wrong).0.code, 4);
    wrong[0] = 2;
    assert_eq!(run(&wrong).0.code, 2);
    wrong[2] = 9;
    assert_eq!(run(&wrong).0.code, 1);
    let mut long = file(&format!("09 {}", "00".repeat(49_152)));
    assert_eq!(run(&long).0.code, 3);
    long[0] = 0;
    assert_eq!(run(&long).0.code, 2);
    assert_eq!(verdict(&format!("09 {}", "00".repeat(49_151))), (4, 0));
}
