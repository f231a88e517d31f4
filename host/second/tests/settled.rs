//! Every example of the settled readings, under its number.

mod notation;
use notation::*;
use second::annotate::annotate_and_read;
use second::{annotate, listing, patch, read_file, Path, Rooms};

const LIMIT: i64 = 1_000_000_000_000_000;

fn rooms(cells: usize, entries: usize) -> Rooms {
    Rooms { cells, entries }
}

// A. Patching

#[test]
fn s01_incoming_cell_that_13_refuses_supplies_nothing() {
    let s = S(&[("a", "T")], &[P("a.p", None)]);
    let f = F(&[C("T", "a", &[I(&["(PORT p(1))"])]), C("T", "a", &[])]);
    let c = C("U", "a", &[A(&["(PORT p(5))"])]);
    assert_eq!(X(&s, &f, 2, &c), "refused 13 at 1 in incoming: CELL(CELLT");
}

#[test]
fn s02_other_entries_of_an_incoming_cell_supply() {
    let s = S(&[("a", "T")], &[P("a.p", None)]);
    let f = F(&[C("T", "a", &[I(&["(PORT p(1))"])]), C("T", "a", &[])]);
    let two = C("T", "a", &[A(&["(PORT p(5))", "(PORT z(5))"])]);
    assert_eq!(X(&s, &f, 2, &two), "refused 15 at 74 in file: PORT p(1))");
    let one = C("T", "a", &[A(&["(PORT z(5))"])]);
    assert_eq!(X(&s, &f, 2, &one), "refused 14 at 46 in incoming: PORT z(5))");
}

#[test]
fn s03_outgoing_cell_is_another_cell() {
    let s = S(&[("a", "T")], &[P("a.p", Some(10))]);
    let f = F(&[C("U", "a", &[A(&["(PORT p(5))"])])]);
    let current = S(&[("a", "T")], &[P("a.p", Some(77))]);
    assert_eq!(XC(&s, &f, 1, &C("T", "a", &[]), &current), "PORT a.p 77 77 77 77 77 77\n");
}

#[test]
fn s04_lacking_arcs_are_judged_by_instance() {
    let s = S(&[("a", "T"), ("b", "T")], &[P("a.p", Some(10)), P("b.q", Some(20))]);
    let f = F(&[C("T", "*", &[A(&["(PORT p(0.000003))"])]), C("T", "a", &[])]);
    let c = C("T", "a", &[I(&["(PORT p(0.000001))"])]);
    assert_eq!(X(&s, &f, 2, &c), "PORT a.p 4 4 4 4 4 4\nPORT b.q 20 20 20 20 20 20\n");
}

#[test]
fn s05_refusals_go_by_cells_of_the_new_file() {
    let s = S(&[("a", "T")], &[P("a.p", None)]);
    let f = F(&[C("T", "a", &[I(&["(PORT p(1))"])]), C("T", "a", &[A(&["(PORT p(5))"])])]);
    assert_eq!(X(&s, &f, 2, &C("T", "nowhere", &[])), "refused 15 at 74 in file: PORT p(1))");
    assert_eq!(X(&s, &f, 1, &C("T", "nowhere", &[])), "refused 12 at 1 in incoming: CELL(CELLT");
}

#[test]
fn s06_other_slots_of_an_entry_do_not_matter() {
    let s = S(&[("", "T")], &[P("p", Some(10)), P("r", None)]);
    let f = F(&[C("T", "", &[I(&["(PORT p(0.000001))", "(PORT r(1))"])]), C("T", "", &[])]);
    let c = C("T", "", &[A(&["(PORT p(0.000005))"])]);
    assert_eq!(X(&s, &f, 2, &c), "PORT p 5 5 5 5 5 5\nPORT r _ _ _ _ _ _\n");
}

#[test]
fn s07_slots_nobody_supplies_any_more_start_again() {
    let s = S(&[("", "T")], &[P("p", Some(10))]);
    let f = F(&[C("T", "", &[A(&["(PORT p(5))"])])]);
    let current = S(&[("", "T")], &[P("p", Some(77))]);
    assert_eq!(XC(&s, &f, 1, &C("T", "", &[]), &current), "PORT p 10 10 10 10 10 10\n");
}

#[test]
fn s08_current_values_are_never_judged() {
    let s = S(&[("", "T")], &[AR(11, 0, "a", 0, "b", Some(1))]);
    let odd = [&s[..s.len() - 144], &[0x7f; 144]].concat();
    let f = F(&[C("T", "", &[T(&["(SETUP a b(0.000009))"])])]);
    let c = C("T", "", &[T(&["(SETUP a b(:0.000005:))"])]);
    let mut current = odd;
    patch(&s, f.as_bytes(), 1, c.as_bytes(), &mut current, rooms(64, 256), rooms(64, 256)).expect("patched");
    let one = 1i64.to_be_bytes();
    let expected = [&s[..s.len() - 144], &one, &5i64.to_be_bytes(), &one, &[0x7f; 120]].concat();
    assert_eq!(current, expected);
}

#[test]
fn s09_new_file_has_no_limits() {
    let s = S(&[("", "T")], &[P("p", Some(10))]);
    let one = C("T", "", &[A(&["(PORT p())"])]);
    let f = F(&[one.clone(), one]);
    let c = C("T", "", &[A(&["(PORT p())", "(PORT p())"])]);
    let mut current = s.clone();
    patch(&s, f.as_bytes(), 2, c.as_bytes(), &mut current, rooms(2, 2), rooms(1, 2)).expect("patched");
    assert_eq!(current, s);
    let long = f.clone() + &" ".repeat(16_777_216 - f.len());
    assert_eq!(X(&s, &long, 2, &c), "PORT p 10 10 10 10 10 10\n");
}

#[test]
fn s10_demand_3_speaks_of_an_accepted_file() {
    let s = S(&[("a", "T")], &[P("a.p", Some(10))]);
    let f = F(&[C("T", "nowhere", &[]), C("T", "a", &[])]);
    let c = C("T", "a", &[A(&["(PORT p(0.000005))"])]);
    assert_eq!(X(&s, &f, 2, &c), "PORT a.p 5 5 5 5 5 5\n");
    assert_eq!(N(&s, &F(&[C("T", "nowhere", &[]), c])), "refused 12 at 28: CELL(CELLT");
}

#[test]
fn s11_order_of_17() {
    let s = S(&[("a", "T")], &[P("a.p", Some(10))]);
    let f = F(&[C("T", "nowhere", &[]), C("T", "a", &[])]);
    assert_eq!(X(&s, "(", 0, "("), "refused 4 at 1 in file: (end)");
    assert_eq!(X(&s, &f, 0, "("), "refused 17 at 0 in file: (DELAYFILE");
    assert_eq!(X(&s, &f, 1 << 63, "("), "refused 17 at 0 in file: (DELAYFILE");
    assert_eq!(X(&s, &f, 1, "("), "refused 4 at 1 in incoming: (end)");
}

#[test]
fn s12_incoming_text_has_its_own_tables() {
    let s = S(&[("a", "T")], &[P("a.p", Some(10))]);
    let f = F(&[C("T", "nowhere", &[]), C("T", "a", &[])]);
    let c = C("T", "a", &[]);
    let answer = patch(&s, f.as_bytes(), 1, c.as_bytes(), &mut s.clone(), rooms(9, 9), rooms(0, 9));
    assert_eq!(answer, Err(second::Refusal { number: 9, place: 1, incoming: true }));
}

#[test]
fn s13_history_is_judged_step_by_step() {
    let s = S(&[("", "T")], &[P("p", None)]);
    let f = F(&[C("T", "", &[I(&["(PORT p(1))"]), A(&["(PORT p(1))"])])]);
    assert_eq!(N(&s, &f), "refused 15 at 73: PORT p(1))");
}

#[test]
fn s14_refused_outgoing_increment_still_supplies() {
    let s = S(&[("", "T")], &[P("p", None)]);
    let f = F(&[C("T", "", &[I(&["(PORT p(1))"])])]);
    let current = S(&[("", "T")], &[P("p", Some(7))]);
    assert_eq!(XC(&s, &f, 1, &C("T", "", &[]), &current), "PORT p _ _ _ _ _ _\n");
}

// B. Order of refusals within a text

#[test]
fn s15_word_cut_short_is_a_token() {
    assert_eq!(L("(DELAYFILE\u{80}"), r"refused 2 at 10: \x80");
    assert_eq!(L("(DELAYFIL\u{80}E"), r"refused 4 at 1: DELAYFIL\x80E");
    assert_eq!(L("(DELAYFIL\\ E"), r"refused 4 at 1: DELAYFIL\\ ");
}

#[test]
fn s16_string_with_an_illegal_byte_is_a_token() {
    assert_eq!(L("(DELAYFILE \"\u{80}\""), r#"refused 4 at 11: "\x80""#);
    assert_eq!(L("(DELAYFILE(SDFVERSION\"\u{80}\""), r#"refused 2 at 22: \x80""#);
}

#[test]
fn s17_long_string_with_an_illegal_byte() {
    let text = format!("(DELAYFILE(SDFVERSION\"\u{80}{}\"", "x".repeat(1024));
    assert_eq!(L(&text), r#"refused 8 at 21: "\x80xxxxxxxx"#);
}

#[test]
fn s18_never_closed_comes_first() {
    let text = format!("(DELAYFILE \"{}", "\u{80}".repeat(2000));
    assert_eq!(L(&text), format!("refused 3 at 11: \"{}", r"\x80".repeat(9)));
    assert_eq!(L("/*\u{80}"), r"refused 3 at 0: /*\x80");
}

#[test]
fn s19_sizes_do_not_make_a_file_carried() {
    assert_eq!(L(&F(&[C(&"x".repeat(1025), "", &[])])), "refused 8 at 41: \"xxxxxxxxx");
}

#[test]
fn s20_shape_then_time_then_length() {
    let path = |path: String| L(&F(&[C("T", &path, &[])]));
    assert_eq!(path("a".repeat(1025)), "refused 8 at 55: aaaaaaaaaa");
    assert_eq!(path("a".repeat(1025) + "."), "refused 4 at 55: aaaaaaaaaa");
    let number = |number: String| L(&F(&[C("T", "", &[A(&[&format!("(PORT p({number}))")])])]));
    assert_eq!(number("1".repeat(1025)), "refused 7 at 79: 1111111111");
    assert_eq!(number(format!("0.{}1", "0".repeat(1025))), "refused 6 at 79: 0.00000000");
    assert_eq!(number("0".repeat(1025)), "refused 8 at 79: 0000000000");
}

#[test]
fn s21_keyword_alone_opens_an_entry() {
    let text = F(&[C("T", "", &[A(&["(PORT("])])]);
    assert_eq!(LR(&text[..text.len() - 4], 1, 0), "refused 9 at 72: PORT(");
    assert_eq!(LR("(DELAYFILE(SDFVERSION\"4.0\")(CELL\u{80}", 0, 0), r"refused 9 at 28: CELL\x80");
}

#[test]
fn s22_entry_room_counts_the_whole_text() {
    let c = C("T", "", &[A(&["(PORT p())"])]);
    assert_eq!(LR(&F(&[c.clone(), c]), 9, 1), "refused 9 at 129: PORT p()))");
}

#[test]
fn s23_text_ends_too_soon() {
    assert_eq!(L(""), "refused 4 at 0: (end)");
    assert_eq!(L("(DELAYFILE // x"), "refused 4 at 15: (end)");
}

#[test]
fn s24_something_after_the_file() {
    assert_eq!(L(&(F(&[C("T", "", &[])]) + " (COND")), "refused 4 at 59: (COND");
}

#[test]
fn s25_place_0_and_the_limits() {
    let illegal = vec![0x80; 16_777_217];
    assert_eq!(read_file(&illegal[1..], 1, 1), Err(refusal(2, 0)));
    assert_eq!(read_file(&illegal, 1, 1), Err(refusal(1, 0)));
    assert_eq!(listing(&illegal[..65_536]), b"refused 2 at 0\n");
    assert_eq!(listing(&illegal[..65_537]), b"refused 1 at 0\n");
}

// C. Bytes and words

#[test]
fn s26_bare_backslash() {
    assert_eq!(L("(DELAYFILE\\\u{80}"), r"refused 2 at 10: \\\x80");
    assert_eq!(L("(DELAYFILE\\"), r"refused 2 at 10: \\");
}

#[test]
fn s27_line_comments() {
    assert_eq!(L("// never a 3"), "refused 4 at 12: (end)");
    assert_eq!(L("//\r(COND"), "refused 4 at 8: (end)");
    assert_eq!(L("//\n(COND"), "refused 5 at 4: COND");
}

#[test]
fn s28_comment_end_wholly_after_its_start() {
    assert_eq!(L("/*/"), "refused 3 at 0: /*/");
}

#[test]
fn s29_comments_inside_brackets() {
    assert_eq!(L(&F(&[C("T", "", &[A(&["(PORT a[3/**/:0]())"])])])), "refused 4 at 77: a[3/**/:0]");
}

#[test]
fn s30_wildcard_below_a_path() {
    assert_eq!(L(&FH("(DIVIDER /)", &[C("T", "a/*", &[])])), "refused 3 at 67: /*)))");
}

#[test]
fn s31_escapes_and_slashes() {
    let listed = |path| L(&FH("(DIVIDER /)", &[C("T", path, &[])]));
    assert_eq!(listed(r"a\//b"), "cells 1 entries 0\nC T a\\//b\n");
    assert_eq!(listed("a\\///b\n"), "cells 1 entries 0\nC T a\\/\n");
    assert!(listed(r"a\/*").starts_with("refused 4 at 69: *"));
}

#[test]
fn s32_colon_in_a_word() {
    let listed = |entry| L(&F(&[C("T", "", &[A(&[entry])])]));
    assert_eq!(listed(r"(PORT a\[3:0]())"), "refused 4 at 81: :0]())))))");
    assert_eq!(listed("(PORT a[[3:0]:1()))"), "refused 4 at 77: a[[3:0]:1(");
    assert_eq!(listed("(PORT a[1:2())"), "refused 4 at 77: a[1:2())))");
    assert_eq!(listed("(PORT a[())"), "refused 4 at 77: a[())))))");
}

#[test]
fn s33_quote_ends_a_word() {
    let text = "(DELAYFILE(SDFVERSION\"4.0\")(CELL(CELLTYPE\"T\")(INSTANCE a\"b\"";
    assert_eq!(L(text), "refused 4 at 56: \"b\"");
}

#[test]
fn s34_backslash_in_a_string() {
    assert_eq!(L("(DELAYFILE(SDFVERSION\"\\\u{80}\""), r#"refused 2 at 23: \x80""#);
    assert_eq!(L("(DELAYFILE(SDFVERSION\"\\\""), r#"refused 3 at 21: "\\""#);
}

#[test]
fn s35_any_printable_byte_may_be_escaped() {
    assert_eq!(L(&F(&[C("T", r#"\"\'\a\("#, &[])])), "cells 1 entries 0\nC T \\\"\\'\\a\\(\n");
}

#[test]
fn s36_pairs_count_as_two_bytes() {
    let path = |pairs| C("T", &r"\#".repeat(pairs), &[]);
    assert_eq!(L(&F(&[path(512)])), format!("cells 1 entries 0\nC T {}\n", r"\#".repeat(512)));
    assert_eq!(L(&F(&[path(513)])), format!("refused 8 at 55: {}", r"\\#".repeat(5)));
}

// D. Grammar

#[test]
fn s37_any_string_is_a_version() {
    let text = "(DELAYFILE(SDFVERSION\"\")(CELL(CELLTYPE\"T\")(INSTANCE)))";
    assert_eq!(L(text), "cells 1 entries 0\nC T .\n");
}

#[test]
fn s38_keywords_are_upper_case() {
    assert_eq!(L("(cond"), "refused 4 at 1: cond");
}

#[test]
fn s39_digits_come_first() {
    let number = |number: &str| L(&F(&[C("T", "", &[A(&[&format!("(PORT p({number}))")])])]));
    assert_eq!(number(".5"), "refused 4 at 79: .5))))))");
    for wrong in ["1.", "1e", "1E3"] {
        assert!(number(wrong).starts_with("refused 4 at 79: "), "{wrong}");
    }
}

#[test]
fn s40_5_wherever_a_bracket_may_open() {
    assert_eq!(L("(LABEL"), "refused 5 at 1: LABEL");
    assert_eq!(L("(DELAYFILE(COND"), "refused 5 at 11: COND");
    assert_eq!(L(&F(&[C("T", "", &[A(&["(IOPATH a b(RETAIN"])])])), "refused 5 at 83: RETAIN))))");
}

#[test]
fn s41_bracket_that_is_too_much() {
    let text = F(&[C("T", "", &[T(&["(SETUPHOLD a b(1)(1)(SCOND x))"])])]);
    assert_eq!(L(&text), "refused 4 at 88: (SCOND x))");
}

#[test]
fn s42_right_after_is_of_tokens() {
    assert_eq!(L("( /* */ COND"), "refused 5 at 8: COND");
}

#[test]
fn s43_grouped_values() {
    assert_eq!(L(&F(&[C("T", "", &[A(&["(PORT p((1)(2)))"])])])), "refused 4 at 79: (1)(2)))))");
}

#[test]
fn s44_ranges_belong_to_ports() {
    let text = F(&[C("T", "a[1].b[2]", &[A(&["(DEVICE c[1].q[3:0]())"])])]);
    assert_eq!(L(&text), "cells 1 entries 1\nC T a[1].b[2]\nA DEVICE - c[1].q[3:0] - - _:_:_\n");
    assert_eq!(L(&F(&[C("T", "a[3:0]", &[])])), "refused 4 at 55: a[3:0])))");
    assert_eq!(L(&F(&[C("T", "", &[A(&["(PORT a[3:0].b())"])])])), "refused 4 at 77: a[3:0].b()");
    assert_eq!(L(&F(&[C("T", "", &[A(&["(PORT a[3][0]())"])])])), "refused 4 at 77: a[3][0]())");
}

#[test]
fn s45_words_that_look_like_something_else() {
    let text = F(&[C("T", "COND", &[A(&["(IOPATH 01 1.5 ())"])])]);
    assert_eq!(L(&text), "cells 1 entries 1\nC T COND\nA IOPATH - 01 - 1.5 _:_:_\n");
}

#[test]
fn s46_the_other_divider() {
    assert_eq!(L(&FH("(DIVIDER /)", &[C("T", "a.b", &[])])), "refused 4 at 66: a.b)))");
    assert_eq!(L(&F(&[C("T", "a/b", &[])])), "refused 4 at 55: a/b)))");
}

#[test]
fn s47_device_and_an_edge() {
    let listed = |entry| L(&F(&[C("T", "", &[A(&[entry])])]));
    assert_eq!(listed("(DEVICE(posedge q)(1))"), "refused 4 at 79: posedge q)");
    assert_eq!(listed("(PORT(posedge q)(1))"), "refused 4 at 76: (posedge q");
    assert_eq!(listed("(INTERCONNECT(posedge q)r(1))"), "refused 4 at 84: (posedge q");
    assert_eq!(listed("(IOPATH q(posedge q)(1))"), "refused 4 at 80: (posedge q");
}

#[test]
fn s48_too_many_or_too_few_values() {
    assert_eq!(L(&F(&[C("T", "", &[T(&["(RECREM a b(1))"])])])), "refused 4 at 82: ))))");
    let seven = L(&F(&[C("T", "", &[A(&["(PORT p()()()()()()())"])])]));
    assert_eq!(seven, "refused 4 at 90: ())))))");
}

#[test]
fn s49_time_scale_spaced_or_not() {
    let listed = |head| L(&FH(head, &[C("T", "", &[])]));
    assert_eq!(listed("(TIMESCALE 100/**/\nps)"), "cells 1 entries 0\nC T .\n");
    assert_eq!(listed("(TIMESCALE 1 0ps)"), "refused 4 at 40: 0ps)(CELL(");
}

#[test]
fn s50_header_order() {
    let text = FH("(DATE\"\")(DESIGN\"\")", &[C("T", "", &[])]);
    assert_eq!(L(&text), "refused 4 at 36: DESIGN\"\")(");
    let twice = FH("(DATE\"\")(DATE\"\")", &[C("T", "", &[])]);
    assert_eq!(L(&twice), "refused 4 at 36: DATE\"\")(CE");
}

#[test]
fn s51_voltage_and_temperature() {
    let listed = |head| L(&FH(head, &[C("T", "", &[])]));
    assert_eq!(listed("(VOLTAGE 1e99999)(TEMPERATURE ::-5)"), "cells 1 entries 0\nC T .\n");
    assert_eq!(listed("(VOLTAGE 5:)"), "refused 4 at 38: )(CELL(CEL");
    let long = format!("(VOLTAGE {})", "1".repeat(1025));
    assert_eq!(listed(&long), "refused 8 at 36: 1111111111");
}

#[test]
fn s52_rules_not_checked() {
    let checks = ["(SETUPHOLD a b(1)(-2::))", "(SKEW a b(-1))", "(BIDIRECTSKEW a b(0)(0))"];
    let listed = "cells 1 entries 3
C T .
T SETUPHOLD - a - b 1000000:1000000:1000000 -2000000:_:_
T SKEW - a - b -1000000:-1000000:-1000000
T BIDIRECTSKEW - a - b 0:0:0 0:0:0
";
    assert_eq!(L(&F(&[C("T", "", &[T(&checks)])])), listed);
}

#[test]
fn s53_sign_in_an_unsigned_place() {
    let listed = |entry| L(&F(&[C("T", "", &[T(&[entry])])]));
    assert_eq!(listed("(WIDTH a(-0))"), "refused 4 at 77: -0)))))");
    assert_eq!(listed("(WIDTH a(+1))"), "refused 4 at 77: +1)))))");
}

#[test]
fn s54_empty_values_everywhere() {
    let text = F(&[C("T", "", &[A(&["(PORT p()())"]), T(&["(SETUP a b())"])])]);
    assert_eq!(L(&text), "cells 1 entries 2\nC T .\nA PORT - p - - _:_:_ _:_:_\nT SETUP - a - b _:_:_\n");
}

#[test]
fn s55_any_mix_of_sections() {
    let sections = [T(&["(WIDTH a())"]), A(&["(PORT p()))(INCREMENT(PORT q())"]), T(&["(WIDTH b())"])];
    let listed = "cells 2 entries 4
C T .
T WIDTH - a - - _:_:_
A PORT - p - - _:_:_
I PORT - q - - _:_:_
T WIDTH - b - - _:_:_
C T .
";
    assert_eq!(L(&F(&[C("T", "", &sections), C("T", "", &[])])), listed);
}

// E. Numbers

#[test]
fn s56_neither_whole_nor_within() {
    assert_eq!(time_of("1e15", true, 6), Some(Err(7)));
    assert_eq!(time_of("1000000000.0000000001", true, 6), Some(Err(6)));
}

#[test]
fn s57_trailing_zeros() {
    assert_eq!(time_of("10e-7", true, 6), Some(Ok(1)));
    assert_eq!(time_of("1.50e-5", true, 6), Some(Ok(15)));
    assert_eq!(time_of("0e-99999999999", true, 6), Some(Ok(0)));
}

#[test]
fn s58_exponents_of_any_size() {
    assert_eq!(time_of("1e-000", true, 6), Some(Ok(1_000_000)));
    assert_eq!(time_of("1e99999999999999999999", true, 6), Some(Err(7)));
    assert_eq!(time_of("1e-99999999999999999999", true, 6), Some(Err(6)));
}

// F. What reading leaves, and the listing

#[test]
fn s59_device_has_a_first_end() {
    let listed = "cells 1 entries 2
C T .
A DEVICE - q - - 1000000:1000000:1000000
A DEVICE - - - - 1000000:1000000:1000000
";
    assert_eq!(L(&F(&[C("T", "", &[A(&["(DEVICE q(1))", "(DEVICE(1))"])])])), listed);
}

#[test]
fn s60_path_as_written() {
    assert_eq!(L(&FH("(DIVIDER /)", &[C("T", "a/b", &[])])), "cells 1 entries 0\nC T a/b\n");
}

#[test]
fn s61_type_as_raw_bytes() {
    assert_eq!(L(&F(&[C("", "a", &[])])), "cells 1 entries 0\nC  a\n");
}

#[test]
fn s62_every_line_ends() {
    assert_eq!(listing(b""), b"refused 4 at 0\n");
}

#[test]
fn s63_place_of_a_cell() {
    let file = read_file(F(&[C("T", "", &[])]).as_bytes(), 1, 0).expect("a file");
    assert_eq!(file.cells[0].place, 28);
}

#[test]
fn s64_one_value_is_three_numbers() {
    let text = FH("(TIMESCALE 1fs)", &[C("T", "", &[A(&["(PORT p(1)(::2))"])])]);
    assert_eq!(L(&text), "cells 1 entries 1\nC T .\nA PORT - p - - 1:1:1 _:_:2\n");
}

#[test]
fn s65_star_top_and_path() {
    let text = F(&[C("T", "*", &[]), C("T", "", &[]), C("T", "a", &[])]);
    let file = read_file(text.as_bytes(), 3, 0).expect("a file");
    let paths: Vec<Path> = file.cells.iter().map(|cell| cell.path).collect();
    assert_eq!(paths[..2], [Path::Star, Path::Top]);
    assert!(matches!(paths[2], Path::Path(part) if part.of(text.as_bytes()) == b"a"));
}

// G. The sheet

#[test]
fn s66_range_in_a_path() {
    assert_eq!(Q(&S(&[("a[3:0]", "T")], &[])), "refused 10 at 0");
    assert_eq!(Q(&S(&[("a[3]", "T")], &[P("a[3].p[3:0]", None)])), "fine");
}

#[test]
fn s67_types_are_string_content() {
    assert_eq!(Q(&S(&[("a", "x\\\"y\n")], &[])), "fine");
    assert_eq!(Q(&S(&[("a", "x\"y")], &[])), "refused 10 at 0");
    assert_eq!(Q(&S(&[("a", "x\\")], &[])), "refused 10 at 0");
}

#[test]
fn s68_counts_and_end() {
    assert_eq!(Q(&S(&[], &[])), "fine");
    assert_eq!(Q(&[S(&[], &[]), vec![0]].concat()), "refused 10 at 0");
}

#[test]
fn s69_nothing_ties_arcs_to_instances() {
    assert_eq!(Q(&S(&[], &[P(&"p".repeat(2049), None)])), "fine");
    assert_eq!(Q(&S(&[], &[P(&"p".repeat(2050), None)])), "refused 10 at 0");
}

#[test]
fn s70_second_ends() {
    assert_eq!(Q(&S(&[], &[AR(3, 0, "p", 0, "q", None)])), "refused 10 at 0");
    assert_eq!(Q(&S(&[], &[AR(1, 0, "p", 0, "", None)])), "refused 10 at 0");
}

// H. Annotating

#[test]
fn s71_top_level_has_12_and_13() {
    let f = F(&[C("T", "", &[])]);
    assert_eq!(N(&S(&[("a", "T")], &[]), &f), "refused 12 at 28: CELL(CELLT");
    assert_eq!(N(&S(&[("", "U")], &[]), &f), "refused 13 at 28: CELL(CELLT");
}

#[test]
fn s72_star_includes_the_top_level() {
    let f = F(&[C("T", "*", &[A(&["(PORT p(1))"])])]);
    let printed = "PORT p 1000000 1000000 1000000 1000000 1000000 1000000\n";
    assert_eq!(N(&S(&[("", "T")], &[P("p", None)]), &f), printed);
}

#[test]
fn s73_edges_match_exactly() {
    let s = S(&[("", "T")], &[IOE("c", "q", Some(0), 1)]);
    let f = F(&[C("T", "", &[A(&["(IOPATH c q(1))"])])]);
    assert_eq!(N(&s, &f), "refused 14 at 72: IOPATH c q");
    let f = F(&[C("T", "", &[A(&["(DEVICE q(0.000001))"])])]);
    assert_eq!(N(&s, &f), "IOPATH posedge c q 1 1 1 1 1 1\n");
}

#[test]
fn s74_14_holds_for_entries_without_numbers() {
    let s = S(&[("", "T")], &[IOE("c", "q", Some(0), 1)]);
    assert_eq!(N(&s, &F(&[C("T", "", &[A(&["(IOPATH c q())"])])])), "refused 14 at 72: IOPATH c q");
}

#[test]
fn s75_star_without_instances() {
    let s = S(&[("", "T")], &[IOE("c", "q", Some(0), 1)]);
    let f = F(&[C("U", "*", &[A(&["(IOPATH x y(1))"])])]);
    assert_eq!(N(&s, &f), "IOPATH posedge c q 0 0 0 0 0 0\n");
}

#[test]
fn s76_device_looks_at_second_ends() {
    let s = S(&[("a", "T")], &[IO("x.y", "a.b.q", Some(0)), IO("x.y", "a.q", Some(0))]);
    let f = F(&[C("T", "a", &[A(&["(DEVICE b.q(0.000001))"])])]);
    assert_eq!(N(&s, &f), "IOPATH x.y a.b.q 1 1 1 1 1 1\nIOPATH x.y a.q 0 0 0 0 0 0\n");
}

#[test]
fn s77_one_component() {
    let s = S(&[("", "T"), ("d", "T")], &[IO("i", r"d\.e", Some(0)), IO("i", "d.e[1:0]", Some(0))]);
    let f = F(&[C("T", "", &[A(&["(DEVICE(0.000001))"])])]);
    assert_eq!(N(&s, &f), "IOPATH i d.e[1:0] 0 0 0 0 0 0\nIOPATH i d\\.e 1 1 1 1 1 1\n");
}

#[test]
fn s78_device_under_star() {
    let s = S(&[("a", "T"), ("b", "T")], &[IO("a.i", "a.q", Some(0))]);
    let f = F(&[C("T", "*", &[A(&["(DEVICE q(1))"])])]);
    assert_eq!(N(&s, &f), "refused 14 at 73: DEVICE q(1");
}

#[test]
fn s79_each_number_over_the_whole_entry() {
    let s = S(&[("", "T")], &[IO("a", "q", Some(LIMIT)), IO("b", "q", None)]);
    assert_eq!(N(&s, &F(&[C("T", "", &[I(&["(DEVICE q(1))"])])])), "refused 15 at 73: DEVICE q(1");
    let s = S(&[("a", "T"), ("b", "T")], &[P("a.p", None)]);
    assert_eq!(N(&s, &F(&[C("T", "*", &[I(&["(PORT p(1))"])])])), "refused 14 at 74: PORT p(1))");
}

#[test]
fn s80_sums_are_judged_at_each_step() {
    let s = S(&[("", "T")], &[P("p", Some(LIMIT))]);
    let f = F(&[C("T", "", &[I(&["(PORT p(1))", "(PORT p(-1))"])])]);
    assert_eq!(N(&s, &f), "refused 16 at 73: PORT p(1))");
}

#[test]
fn s81_names_as_written() {
    let s = S(&[("a", "T"), (r"a\/b", "T"), (r"a\.b", "T")], &[]);
    assert_eq!(N(&s, &FH("(DIVIDER /)", &[C("T", r"a\/b", &[])])), "");
    assert_eq!(N(&s, &FH("(DIVIDER /)", &[C("T", r"a\.b", &[])])), "");
    assert_eq!(N(&s, &F(&[C("T", r"\a", &[])])), "refused 12 at 28: CELL(CELLT");
}

#[test]
fn s82_types_as_raw_bytes() {
    assert_eq!(N(&S(&[("a", r"\T")], &[]), &F(&[C("T", "a", &[])])), "refused 13 at 28: CELL(CELLT");
}

#[test]
fn s83_what_refusals_leave() {
    let s = S(&[("a", "T")], &[]);
    let f = F(&[C("T", "b", &[])]);
    let mut out = vec![b'?'; s.len()];
    let (answer, tables) = annotate_and_read(&s, f.as_bytes(), 1, 0, &mut out);
    assert_eq!((answer, out == s, tables.is_some()), (Err(refusal(12, 28)), true, true));
    let mut out = vec![b'?'; s.len()];
    let (answer, tables) = annotate_and_read(&s, f.as_bytes(), 0, 0, &mut out);
    let untouched = vec![b'?'; s.len()];
    assert_eq!((answer, out == untouched, tables.is_some()), (Err(refusal(9, 28)), true, false));
}

#[test]
fn s84_limits_of_sheets() {
    let s = S(&[("a", "T")], &[]);
    assert_eq!(annotate(&s, b"", 9, 9, &mut vec![0; s.len() + 1]), Err(refusal(11, 0)));
    assert_eq!(annotate(&s[..s.len() - 1], b"", 9, 9, &mut []), Err(refusal(10, 0)));
}

#[test]
fn s85_negative_results_stay() {
    let s = S(&[("", "T")], &[P("p", Some(5))]);
    let f = F(&[C("T", "", &[I(&["(PORT p(-0.000007))"])])]);
    assert_eq!(N(&s, &f), "PORT p -2 -2 -2 -2 -2 -2\n");
}

#[test]
fn s86_header_texts() {
    let text = FH("(DESIGN\"d\")(VERSION\"1\")", &[C("T", "", &[])]);
    let file = read_file(text.as_bytes(), 1, 0).expect("a file");
    assert_eq!(file.header, [("SDFVERSION", 22, 25), ("DESIGN", 35, 36), ("VERSION", 47, 48)]);
}

#[test]
fn s87_rooms_and_wrong_words() {
    assert_eq!(LR(&F(&[C("T", "", &[]), "(COND".into()]), 1, 0), "refused 5 at 58: COND)");
}
