//! The kind of every code, through the library and through the second program.

#[test]
fn every_code_has_the_kind_that_the_second_program_says() {
    let outside = [16, 17, 31, 32, 33, 63].map(|bits| 1 << bits);
    for code in (0..=65_535).chain(outside).chain([u64::MAX]) {
        let found = ask::answer(&[], "event_kind", &[code]);
        let found = found.map(|answer| answer.values);
        assert!(found.is_some());
        let expected = second::ask::answer(&[], "event_kind", &[code]);
        assert_eq!(found, expected, "{code}");
    }
}
