//! Tables of checks, in the order in which a function makes them. Numbers need not ascend.

/// A number, whether the values that the condition reads are in range, and the condition.
pub type Check<'a> = (u32, bool, &'a dyn Fn() -> bool);

/// The number of the first check that applies; 0 if none does.
pub fn first_that_applies(checks: &[Check]) -> u32 {
    let applies = |&&(_, readable, condition): &&Check| readable && condition();
    checks.iter().find(applies).map_or(0, |check| check.0)
}

#[cfg(test)]
mod tests {
    use super::first_that_applies;

    #[test]
    fn the_order_is_the_tables() {
        let unreadable = || -> bool { unreachable!("a condition on what is out of range") };
        let table = |first: bool, second: bool| {
            first_that_applies(&[
                (9, false, &unreadable),
                (20, true, &|| first),
                (19, true, &|| second),
            ])
        };
        assert_eq!(table(true, true), 20);
        assert_eq!(table(false, true), 19);
        assert_eq!(table(false, false), 0);
    }
}
