//! Reading beside a buffer, which writes nothing: a fence has to end the program.

use station::raw::{Library, Slot, LINKED};

use crate::CASES;

/// Runs one of the ignored tests below in a program of its own, and asks that a fence end it.
#[cfg(target_os = "linux")]
fn assert_touches_a_fence(test: &str) {
    let program = std::env::current_exe().expect("this program");
    let output = std::process::Command::new(program)
        .args(["--ignored", "--exact", "--test-threads=1", "--nocapture", test])
        .output()
        .expect("this program runs");
    let words = String::from_utf8_lossy(&output.stderr);
    assert_eq!(output.status.code(), Some(differ::fence::TOUCHED), "{words}");
    assert!(words.contains("touched memory that was not lent to it"), "{words}");
}

/// Two tests for each name that reads too far: one whose library does, which ends its program, and one that runs it.
macro_rules! touching {
    ($($belief:ident, $ends:ident: $name:ident ($($argument:ident: $kind:ty),*) $(-> $answer:ty)? $body:block)*) => {
        $(#[test]
        #[cfg(target_os = "linux")]
        fn $belief() {
            assert_touches_a_fence(concat!("fences::", stringify!($ends)));
        }

        #[test]
        #[ignore = "ends the program; the test before it runs it"]
        fn $ends() {
            unsafe extern "C" fn wrong($($argument: $kind),*) -> answer!($($answer)?) $body
            differ::fence::watch();
            differ::run_fenced(Library { $name: wrong, ..LINKED }, 5, 0..CASES);
        })*
    };
}

touching! {
    text_read_past_its_end, reads_past_the_end: check(text: *const u8, n: usize, answer: *mut u64) {
        std::hint::black_box(text.add(n).read_volatile());
        (LINKED.check)(text, n, answer)
    }
    line_read_past_its_end, reads_past_the_line: read_line(line: *const u8, n: usize, column: *mut u64) {
        std::hint::black_box(line.add(n).read_volatile());
        (LINKED.read_line)(line, n, column)
    }
    table_read_before_its_start, reads_before_the_start: frame(table: *const Slot, slots: usize, out: *mut f64) {
        std::hint::black_box(table.sub(1).read_volatile());
        (LINKED.frame)(table, slots, out)
    }
    rows_read_past_their_end, reads_past_the_rows: place(rows: *const i32, at: *const i32, out: *mut i64) {
        std::hint::black_box(rows.add(12).read_volatile());
        (LINKED.place)(rows, at, out)
    }
    coordinates_read_before_their_start, reads_before_the_coordinates: fractional(
        text: *const u8, n: usize, at: *const i32, out: *mut i64
    ) {
        std::hint::black_box(at.sub(1).read_volatile());
        (LINKED.fractional)(text, n, at, out)
    }
    list_read_past_its_end, reads_past_the_list: arrange(
        text: *const u8, n: usize, table: *mut Slot, slots: usize, aside: *const u8, fragments: usize
    ) {
        std::hint::black_box(aside.add(fragments).read_volatile());
        (LINKED.arrange)(text, n, table, slots, aside, fragments)
    }
    short_rest_read_as_a_line, reads_past_the_rest: find(
        text: *const u8, n: usize, serial: u32, looked: *mut u64
    ) -> u64 {
        std::hint::black_box(text.add(n / 81 * 81 + 80).read_volatile());
        (LINKED.find)(text, n, serial, looked)
    }
}
