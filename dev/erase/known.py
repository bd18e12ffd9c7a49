"""What the erased text may name of Rattle's std and language: each item here means the same in Rust, or is in the shim.

A name that is missing is rejected. Before it is added, see whether Rust's does what Rattle's does: where it takes
memory, or answers another type, the shim needs an item of that name.
"""
from dataclasses import dataclass

# Items of std, and what the shim has in their place (cargo/proved-tokens/src/shim).
STD_ITEMS = set('''
    alloc alloc::AllocError alloc::AllocFailed
    cmp::Ordering collections::BTreeMap collections::HashMap collections::VecDeque env::Args error::Error
    fmt fmt::Debug fmt::DebugStruct fmt::Display fmt::Error fmt::Formatter fmt::Result fmt::Write fs::File
    hash::Hash hash::Hasher
    io io::BufRead io::Error io::ErrorKind io::Read io::Result io::Write
    ops::Bound ops::Range process::ExitCode rc::Rc rc::RcStr str str::from_utf8 str::from_utf8_unchecked
'''.split())

# Crates of the toolchain, which the shim answers for.
TOOLCHAIN_CRATES = {'hex', 'itoa', 'memchr', 'ucd_category', 'ucd_derived', 'ucd_props', 'ucd_script', 'unicode_ident',
                    'unicode_normalization', 'unicode_width'}

# Methods of std's types that Rust's types have too, with the same answers, or that the shim's types have.
METHODS = set('''
    abs_diff all and_then any append as_bytes as_mut_slice as_slice as_str
    bytes capacity checked_add checked_mul checked_sub chars clear clone cmp collect contains copy_from_slice count
    copied debug_list debug_struct encode_utf8 ends_with entry escape_unicode extend_from_slice
    field filter find finish first first_chunk fmt format from_mut get get_mut hash
    ilog10 insert into_bytes into_iter into_string is_ascii is_ascii_alphabetic is_ascii_alphanumeric is_ascii_digit
    is_ascii_hexdigit is_char_boundary is_digit is_empty is_err is_none is_ok is_some is_whitespace iter iter_mut
    kind last len len_utf8 lines map max min next next_back ok or_else parse partition_point pop pop_front push
    push_reserved push_str
    range read read_to_end remove reserve resize rev reverse saturating_add saturating_mul saturating_sub shrink_to_fit
    size_hint skip sort_unstable stdin split split_at split_first split_first_chunk split_last split_off split_once
    starts_with strip_prefix strip_suffix
    take to_digit to_string trailing_zeros trim truncate try_clone try_extend try_into_iter try_next
    unsigned_abs unwrap_or utf8_chunks utf8_error
    valid valid_up_to width wrapping_add wrapping_mul wrapping_sub write write_all write_char write_str
'''.split())

# Those of them that are methods of traits alone, which take `&mut self`. A trait may have one of this name that takes
# the same: where both could be meant, rustc refuses the call.
OF_TRAITS = {'read', 'write'}

# What is called or named of the primitive types.
PRIMITIVES = set('bool char str u8 u16 u32 u64 u128 usize i8 i16 i32 i64 i128 isize f32 f64'.split())
OF_PRIMITIVES = set('from from_le_bytes from_u32 from_digit MAX MIN'.split())

MACROS = set('format format_args matches unreachable write writeln'.split())

# Attributes that stay as they are.
ATTRIBUTES = {'cold', 'inline', 'non_exhaustive'}
DERIVES = set('Clone Copy Debug Drop Eq Hash Ord PartialEq PartialOrd'.split())

# The modules by their sources that `proc-macro2` never calls. The library has them by its feature `whole`.
WHOLE = {
    'crates/literal_escaper/src/lib.rt':
        'check check_raw classes content_cursor cooked escape front kind laws mixed_unit mode num raw single unescape',
    'crates/pm_token/src/literals.rt': 'values',
    'crates/pm_stream/src/lib.rt': 'laws placing reprinting same walk well_spaced',
}

# What the crates of tests may name besides. Their shim is in cargo/proved-tokens/tests/own.
TEST_ITEMS = set('''
    ops::Bound::Excluded ops::Bound::Included ops::Bound::Unbounded process::Abort
    test::Fail
'''.split())
TEST_METHODS = set('''
    as_deref char_indices collected enumerate err expect or repeated rsplit rsplit_once sort split_at_checked
    trim_start trim_start_matches zip
'''.split())
TEST_MACROS = {'assert', 'assert_eq', 'vec'}

# What the jobs may name besides. Their shim is in dev/workloads/src/shim.rs.
JOB_ITEMS = {'hash::FoldHasher'}
JOB_METHODS = {'to_le_bytes'}


@dataclass(frozen=True)
class Names:
    """What a package may name besides the items, methods and macros above, and where it finds its shim.

    `shim` is empty where the package has none of its own, but takes that of `proved-tokens`.
    """

    items: frozenset = frozenset()
    methods: frozenset = frozenset()
    macros: frozenset = frozenset()
    shim: str = ''
    tests: bool = False


OF_LIBRARY = Names()
OF_TESTS = Names(frozenset(TEST_ITEMS), frozenset(TEST_METHODS), frozenset(TEST_MACROS), 'crate::shim', True)
OF_JOBS = Names(frozenset(JOB_ITEMS), frozenset(JOB_METHODS), shim='crate::shim')

# The one file with `unsafe`. Its type keeps copies of whole texts alone, so their bytes are UTF-8 whatever callers do.
WITH_UNSAFE = 'crates/pm_token/src/symbols/short.rt'

# Words of the language whose form no rule knows, or that Rust reads otherwise.
FORBIDDEN = {
    'unsafe': '`unsafe` but for the bytes of a short text',
    'prove': '`prove!`', 'prove_eq': '`prove_eq!`', 'prove_ne': '`prove_ne!`',
    'dyn': 'a trait object', 'extern': '`extern`', 'union': '`union`', 'macro_rules': 'a macro of its own',
    'async': '`async`', 'await': '`await`', 'Abort': 'a handle', 'Wait': 'a handle',
    'cloned': '`cloned`, which answers a `Result` here alone', 'Model': 'a `Model` that holds code',
}
