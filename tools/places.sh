#!/usr/bin/env bash
# Lists where the sources of a commit (HEAD without an argument) may have what docs/DESIGN-PASS.md counts, point by point, each
# line with its file and number; with a second argument, only how many lines there are. Which of them are places, that page says.
set -euo pipefail
cd "$(dirname "$0")/.."
commit=${1:-HEAD}
only_counts=${2:-}

list() { git ls-tree -r --name-only "$commit" -- crates | grep -E "$1"; }
numbered() { while read -r f; do git show "$commit:$f" | grep -nvE '^ *(//|--)' | sed "s|^|$f:|"; done; }
point() {
    local found
    found=$(cat)
    if [ -n "$only_counts" ]; then
        printf '%5d  %s\n' "$(printf '%s' "$found" | grep -c '' || true)" "$1"
    else
        printf -- '--- %s\n%s\n' "$1" "$found"
    fi
}

lines=$(list '/src/.*\.rt$' | numbered)
named() { printf '%s\n' "$lines" | grep -E "^[^:]*:[0-9]+: *$1" || true; }
anywhere() { printf '%s\n' "$lines" | grep -E "$1" || true; }

named '(pub )?enum ' | point '1 enums'
anywhere '=> (None|0|false|sum|""|NO_MEMORY),|None => Err|Some\(.*\) => Some\(|let (Ok|Some)\(|Err\(.*\) =>|Ok\(.*\) => Ok\(|\(Some\(.*\) =>|Some\(.*\) if ' | point '1 arms that only hand on a None, an Err or a value'
anywhere '\) -> (bool|u8|u16|u32|u64|usize)( \{)?$' | point '1 functions that answer a flag or a number'
printf '%s\n' "$lines" | grep -oE '\bfn [a-z_0-9]+' | sort | uniq -c | awk '$1 > 1' | point '2 names of functions that stand more than once'
named 'match (self|way|cable)\b' | point '2 matches on what a value is'
named '(for|while|loop)\b' | point '3 loops'
anywhere '\bas (u8|u16|u32|u64|usize|i64)\b|impl.* (Display|From|TryFrom|FromStr|PartialEq|Clone)\b.* for |fn number' | point '4 conversions and printing'
printf '%s\n' "$lines" | grep -oE '(requires|ensures)[a-z_ ]*\{[^}]*\}' | sed 's/^[^{]*//' | sort | uniq -c | awk '$1 > 2' | point '5 clauses that stand three times or more'
anywhere '\[[A-Za-z0-9]+; |\bVec<|\.len\(\)|word_at\(' | point '6 arrays, rows, lengths, and words by their place'
anywhere ':[0-9]+: *match |impl Fn|\bdyn |: fn\(' | point '7 matches and closures'
list '/proofs/.+/(Answers|Invariants)\.antt$' | point '8 files of answers and invariants'
list '/(specs|proofs)/.*\.antt$' | numbered | grep -E ':[0-9]+: *(pub )?[^ :]+ : ' | grep -vE '/specs/.*: *(pub )?[a-z_0-9]+ : (ℕ|List|Model|Bool|Text|Type)' | point '8 signatures of lemmas, answers and definitions'
