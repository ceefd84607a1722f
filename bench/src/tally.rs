//! How often each code was answered, by kind.

/// Which codes a schedule of a kind can be answered with.
const DUE: [&[u8]; 4] = [
    &[0, 1, 2, 3, 4, 5, 6, 7, 8, 11, 12, 13, 14, 15],
    &[0, 1, 2, 3, 4, 5, 6, 7, 8, 11, 12, 13, 16, 17, 18],
    &[0, 1, 2, 3, 4, 6, 7, 8, 12, 16, 17, 18],
    &[0, 1, 2, 3, 4, 5, 6, 7, 8, 11, 12],
];

/// Names of the steps by kind, tags counting from 1.
const STEPS: [&[&str]; 4] = [
    &[
        "client_send",
        "client_recv",
        "combiner_recv",
        "combiner_skip",
        "combiner_go_to_responding",
        "combiner_send",
        "combiner_send_skip",
        "combiner_go_to_collecting",
    ],
    &[
        "exc_start",
        "exc_check_count",
        "exc_finish",
        "exc_release",
        "shared_start",
        "shared_finish",
        "shared_release",
    ],
    &[
        "writeable_to_readable",
        "readable_to_writeable",
        "new_ref",
        "delete_ref",
    ],
    &["begin", "move", "read"],
];

#[derive(Default)]
pub struct Tally {
    counts: [[u64; 20]; 4],
    /// Refused steps by kind, tag and code less 11.
    refused: [[[u64; 8]; 8]; 4],
    pub total: u64,
}

impl Tally {
    /// Counts one answer for the kind (1 to 4) that the case was made for.
    pub fn add(&mut self, kind: u8, code: u8) {
        self.counts[usize::from(kind) - 1][usize::from(code).min(19)] += 1;
        self.total += 1;
    }

    /// Counts a refused step (codes 11 to 18) of a file with that kind.
    pub fn add_refused(&mut self, kind: u8, tag: u8, code: u8) {
        self.refused[usize::from(kind) - 1][usize::from(tag) - 1][usize::from(code) - 11] += 1;
    }

    pub fn print_refused(&self) {
        print!("{:>26}", "refused step");
        (11..=18).for_each(|code| print!("{code:>8}"));
        println!();
        for (names, rows) in STEPS.iter().zip(&self.refused) {
            for (name, row) in names.iter().zip(rows) {
                print!("{name:>26}");
                row.iter().for_each(|count| print!("{count:>8}"));
                println!();
            }
        }
    }

    pub fn print(&self) {
        println!(
            "{:>6}{:>10}{:>10}{:>10}{:>10}",
            "code", "flat", "lock", "counting", "flag"
        );
        for code in 0..20 {
            let row = self.counts.map(|kind| kind[code]);
            if row != [0; 4] {
                println!(
                    "{code:>6}{:>10}{:>10}{:>10}{:>10}",
                    row[0], row[1], row[2], row[3]
                );
            }
        }
    }

    /// Kinds and codes that came up less than once in a thousand files.
    pub fn print_rare(&self) {
        for (kind, due) in DUE.iter().enumerate() {
            for &code in *due {
                let count = self.counts[kind][usize::from(code)];
                if count * 1000 < self.total {
                    println!("rare: kind {} code {code}: {count}", kind + 1);
                }
            }
        }
    }
}
