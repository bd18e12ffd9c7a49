// Made from crates/pm_token_tests/src/tests/integers.rt by dev/erase: change that file, not this one.

use crate::shim::prelude::HostRuntime;

use crate::pm_token_tests::tests::checks::is_written;
use proved_tokens::pm_token::Literal;

#[test]
fn integers_are_written_in_decimal() {
    let rt = HostRuntime;
    is_written(&rt, Literal::u8_unsuffixed(255), "255");
    is_written(&rt, Literal::u16_unsuffixed(65535), "65535");
    is_written(&rt, Literal::u32_unsuffixed(0), "0");
    is_written(&rt, Literal::u64_unsuffixed(10), "10");
    let greatest = "340282366920938463463374607431768211455";
    is_written(&rt, Literal::u128_unsuffixed(u128::MAX), greatest);
    is_written(&rt, Literal::usize_unsuffixed(7), "7");
}

#[test]
fn negative_integers_have_their_sign() {
    let rt = HostRuntime;
    is_written(&rt, Literal::i8_unsuffixed(-128), "-128");
    is_written(&rt, Literal::i16_unsuffixed(-1), "-1");
    is_written(&rt, Literal::i32_unsuffixed(3), "3");
    is_written(&rt, Literal::i64_unsuffixed(-10), "-10");
    let least = "-170141183460469231731687303715884105728";
    is_written(&rt, Literal::i128_unsuffixed(i128::MIN), least);
    is_written(&rt, Literal::isize_unsuffixed(0), "0");
}

#[test]
fn the_type_follows_the_digits() {
    let rt = HostRuntime;
    is_written(&rt, Literal::u8_suffixed(255), "255u8");
    is_written(&rt, Literal::u16_suffixed(1), "1u16");
    is_written(&rt, Literal::u32_suffixed(0), "0u32");
    is_written(
        &rt,
        Literal::u64_suffixed(u64::MAX),
        "18446744073709551615u64",
    );
    let greatest = "340282366920938463463374607431768211455u128";
    is_written(&rt, Literal::u128_suffixed(u128::MAX), greatest);
    is_written(&rt, Literal::usize_suffixed(7), "7usize");
}

#[test]
fn it_follows_those_of_negative_numbers() {
    let rt = HostRuntime;
    is_written(&rt, Literal::i8_suffixed(-128), "-128i8");
    is_written(&rt, Literal::i16_suffixed(-1), "-1i16");
    is_written(&rt, Literal::i32_suffixed(-3), "-3i32");
    is_written(
        &rt,
        Literal::i64_suffixed(i64::MIN),
        "-9223372036854775808i64",
    );
    let least = "-170141183460469231731687303715884105728i128";
    is_written(&rt, Literal::i128_suffixed(i128::MIN), least);
    is_written(&rt, Literal::isize_suffixed(12), "12isize");
}
