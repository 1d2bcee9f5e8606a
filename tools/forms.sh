#!/bin/sh
# Lists, in the sources of a checkout, the lines among which older forms of code are found, point by point.
# Run it at the top, or give the checkout; `-c` counts the lines only.
count=; [ "$1" = -c ] && { count=1; shift; }
cd "${1:-.}" || exit 2

# A point's lines, without comments.
lines() {
    name=$1; shift
    found=$(grep -rnE "$@" crates/*/src | grep -vE '^[^:]*:[0-9]+: *//')
    if [ -n "$count" ]; then
        echo "$name: $(printf '%s' "$found" | grep -c .)"
    else
        printf '== %s\n%s\n' "$name" "$found"
    fi
}

lines '1 enums' '^(pub(\(crate\))? )?enum '
lines '1 flags' '^ +(pub )?\w+: bool,'
lines '1 answers taken apart' '\bErr\(\w+\) =>|\bNone =>|let (Ok|Err|Some)\(.*\) = .*\belse\b|if let Err'
lines '1 numbers that stand for an answer' 'fn \w+.*-> \(?(u8|usize)\b'
lines '2 functions' '^ *(pub(\(crate\))? )?(const )?fn '
lines '2 structs' '^(pub(\(crate\))? )?struct '
lines '3 loops' '^ *(for|while|loop)\b.*\{$'
lines '4 conversions' 'from_be_bytes\(\[| as (u8|u16|u32|u64|usize)\b'
lines '4 impls of printing and comparison' '^impl.* (fmt::)?(Display|Debug|PartialEq|Eq|PartialOrd|Ord|Clone|Copy|Default|From<.*>|TryFrom<.*>) for '
lines '5 demands of inner functions' '^ *requires'
lines '5 clauses that name private fields' '(requires|ensures).*\.(block|held|len|long|runs|places|memory|rest|first|second|of_first)\b'
lines '5 bags and limits apart' '(bag|limit|_waits|_limits) \w+\.old.*(bag|limit|_waits|_limits) \w+\.new'
lines '6 lengths and arrays' '^ *(pub )?\w+: (usize|\[.*; *\w+\]),$|Cursor'
lines '7 choices by a step or a table' '\bdyn |\bfn\(|: u8 => |match (step|state|kind)\b'
[ -n "$count" ] && echo "8 lines of proofs: $(find crates -path '*/proofs/*' -name '*.antt' -not -path '*/out/*' -exec cat {} + | wc -l)" &&
    echo "8 answers: $(find crates -path '*/proofs/*' -name '*.antt' -not -path '*/out/*' -exec cat {} + | grep -cE '^(abbrev )?pub [a-z_0-9-]+ : goal\.')"
exit 0
