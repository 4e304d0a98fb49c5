"""What the extraction knows of Rattle: the names of its `std`, the kit's crates, attributes, macros and methods.

What stands in none of these tables is refused. A name enters a table once it is known that Rust's own does the same, or
that the stand-in (`support/rattle.rs`) does. FROM_RUST.md of the kit ("What differs silently") lists what compiles in
both languages and does something else: DIFFERENT has the tokens by which such a form is known, where it has any.
"""

# Names of std that are the same in Rust: a module, and what is used of it. `self` is the module alone.
RUST = {
    "cell": "Cell RefCell",
    "cmp": "self Ordering",
    "error": "Error",
    "fmt": "self Debug Display Error Formatter Result Write",
    "io": "self Error ErrorKind Read Result Write",
    "mem": "self forget replace size_of swap take",
    "net": "Ipv4Addr Ipv6Addr",
    "process": "ExitCode",
    "result": "Result",
    "str": "self from_utf8 from_utf8_unchecked",
}

# Names of std that the stand-in has, because Rust's std lacks them, or has them without an allocator or a handle.
STAND_IN = {
    "alloc": "AllocError AllocFailed Global",
    "collections": "BTreeMap BTreeSet",
    "env": "self VarError args var",
    "fs": "self File OpenOptions Permissions metadata read_link read_to_string remove_file rename symlink_metadata",
    "io": "IsTerminal Print",
    "num": "f32_from_bits_with_nan f32_to_bits_with_nan f32_to_f64_with_nan f64_from_bits_with_nan "
           "f64_to_bits_with_nan nearest_f64_to_f32_with_nan nearest_i64_to_f64 nearest_u64_to_f64 "
           "saturating_f64_to_i64",
    "path": "PathBuf",
    "process": "Abort",
    "rt": "Env",
    "test": "Fail",
}

# Names of std that only proofs use.
PROOF = {"marker": "Model"}

# Names that Rattle has without an import, and the module of the stand-in that has them.
PRELUDE = {
    "Alloc": "rt", "AllocGlobal": "rt", "Box": "", "Eprint": "rt", "HostRuntime": "", "Print": "rt", "String": "",
    "Vec": "",
}

# Macros that take an allocator or a handle: the stand-in has them under the same names.
STAND_IN_MACROS = {"assert", "assert_eq", "eprint", "eprintln", "format", "print", "println", "prove", "tests",
                   "vec"}
RUST_MACROS = {"format_args", "macro_rules", "matches", "unreachable", "write", "writeln"}

# Methods that take an allocator in Rattle, but not in Rust: the trait of the stand-in that has them as NAME_with.
METHODS = {
    "collect": "CollectWith", "parse_ascii": "ParseAsciiWith", "repeat": "RepeatWith", "replace": "ReplaceWith",
    "to_string": "ToStringWith", "to_vec": "ToVecWith",
}

# The methods by which a trait of std that is imported is seen to be used.
TRAITS = {
    "Abort": "", "AsStr": "as_str", "Debug": "", "Display": "", "Env": "", "Error": "", "Eprint": "eprint",
    "IsTerminal": "is_terminal", "Print": "print", "Read": "read read_to_end read_exact", "ToSpan": "days",
    "Write": "write_all flush write_str write_char",
}
# Types that `write!` reaches through the trait Write alone.
WRITTEN_BY_TRAIT = {"ArrayString"}

# The kit's crates: those that upstream's stand for as they are, and those with an adapter of that name.
UPSTREAM = {"arrayvec", "itoa", "memchr", "ryu", "thiserror"}
ADAPTERS = {
    "base64", "clap", "fast_float", "hex", "jiff", "json", "regex", "simdutf8", "toml", "unicode_normalization", "url",
    "uuid",
}

# Attributes that only proofs read, and those that are the same in Rust.
PROOF_ATTRIBUTES = {"cycle", "tactic"}
RUST_ATTRIBUTES = {"cfg", "cold", "derive", "error", "from", "inline", "must_use", "repr", "test"}

# Derives, but for `Drop`, which Rust needs no mark for.
DERIVES = {"Clone", "Copy", "Debug", "Eq", "Error", "Hash", "Ord", "PartialEq", "PartialOrd"}

# Modules that only proofs read.
PROOF_MODULES = {"examples", "laws"}

# Rows of "What differs silently" that tokens show: a pattern over tokens that are joined by blanks, and what is wrong.
DIFFERENT = [
    (r"\| (?:& )?(\w+) \| \1 \. clone \( \) \)", "a closure that clones: in Rattle its items are results"),
    (r"(?<!\w )\( [\w.]+ \.\. \) \. (?!contains)|\bin [\w. ()]+ \.\. \{",
     "a range with no end that is iterated over: it ends in Rattle"),
    (r"\{ [^{}]*, \.\. [\w. ]+ \[", "the fields that are left from an element: Rattle reads it only if it has to"),
    (r"\bstringify !", "stringify!: Rattle breaks no line"),
    (r"\bthread ::", "threads"),
    (r"\banyhow\b", "anyhow: its Debug and its causes differ"),
    (r"\b(?:async|await)\b", "async"),
    (r"\bstatic mut\b", "a static that changes"),
]
