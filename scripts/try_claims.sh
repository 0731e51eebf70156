#!/bin/sh
# Tries claims.sh on copies of docs/CLAIMS.md with a mistake each: it must report this mistake, in its line, and nothing else.
set -eu
cd "$(dirname "$0")/.."
folder=$(mktemp -d)
trap 'rm -rf "$folder"' EXIT
copy=$folder/CLAIMS.md
fail() {
    printf 'try_claims.sh: %s\n' "$*" >&2
    exit 1
}

# reported WORDS..: of the copy, claims.sh must report as many lines as there are WORDS, each with its own
reported() {
    if cmp -s docs/CLAIMS.md "$copy"; then fail "docs/CLAIMS.md has no longer what was to be changed for '$1': choose another place"; fi
    if scripts/claims.sh $log "$copy" >"$folder/found"; then fail "claims.sh does not report '$1'"; fi
    [ "$(wc -l <"$folder/found")" = $# ] || {
        cat "$folder/found" >&2
        fail "claims.sh reports the lines above in place of $#, the first with '$1'"
    }
    for words in "$@"; do
        grep -qF "$copy$at: $words" "$folder/found" || {
            cat "$folder/found" >&2
            fail "claims.sh reports the lines above, and not '$words'${at:+ in line $at}"
        }
    done
}
# in_line: what is reported names the first line that was changed; of_file: it names no line
in_line() { at=:$(diff docs/CLAIMS.md "$copy" | sed -n '1s/[^0-9].*//p'); reported "$@"; }
of_file() { at=; reported "$@"; }
# once OLD NEW: the copy has NEW in place of the first OLD
once() {
    awk -v old="$1" -v new="$2" '
        !done && (at = index($0, old)) { $0 = substr($0, 1, at - 1) new substr($0, at + length(old)); done = 1 }
        { print }' docs/CLAIMS.md >"$copy"
}

log=
once '`error_3_wait_rounded_down`' '`error_3_wait_rounded_off`'
in_line 'there is no `error_3_wait_rounded_off`, as the column "Must-fail edits" has it'
sed 's/`ticks_wrap`/`ticks_by_the_period`/g' docs/CLAIMS.md >"$copy"
of_file 'the must-fail edit `ticks_wrap` of ticks is not named'
sed 's/`slots_one_more`/`limit_one_more`/g' docs/CLAIMS.md >"$copy"
of_file 'the wrong archive `slots_one_more` is not named'
once '`at_most_reversed` (`table`)' '`at_most_reversed` (`rate`)'
in_line '`at_most_reversed` does not stand in the crate rate'
once '`div_up_least`, ' '`div_up_last`, '
in_line 'there is no `div_up_last`, as the column "Law" has it'
once '`div_up_unique` (Rounding)' '`div_up_unique` (Limits)'
in_line '`div_up_least` does not stand in Limits of any crate' '`div_up_unique` does not stand in Limits of any crate'
once '`div_up_least`, ' '`ticks_wrap`, `div_up_least`, '
in_line 'there is no `ticks_wrap`, as the column "Law" has it'
once '`plan_ok` (Grains)' '`plan_good` (Grains)'
in_line 'there is no `plan_good`, as the column "Definition" has it'
once '`Columns.put`' '`Columns.take`'
in_line 'there is no `Columns.take`, as the column "Definition" has it'
once '`Plan::ticks_in`' '`Plan::ticks_on`'
in_line 'there is no `Plan::ticks_on`, as the column "Code" has it'
once '`check::query`' '`search::query`'
in_line 'there is no `search::query`, as the column "Code" has it'
once '`hosts/c/most.c`' '`hosts/c/least.c`'
in_line 'there is no file or folder `hosts/c/least.c`'
once '`rate/specs/Decision.antt`' '`rate/specs/Decisions.antt`'
in_line 'there is no file or folder `rate/specs/Decisions.antt`'
once '`reset-down`' '`reset-up`'
in_line 'there is no `reset-up`, as the column "Must-fail edits" has it'
once 'no `requires`' 'no `requirements`'
in_line 'there is no `requirements`'
once '`axioms=`' '`axioms='
in_line 'a backquote has no second in its line'

# a log with the verdicts that the claims show, each written out
awk '
    /^    [a-z_]+ +logic=/ {
        words = ""
        for (i = 3; i <= NF && $i != ".."; i++) words = words " " $i
        if (i > NF) { all = words; sub(/ functions=[0-9]*/, "", all) } else words = words all
        print "== " $1 "\n" $2 words "\nrt: " $1 " proved\n== " $1 ": its tests\nlogic=proved tests=1"
    }' docs/CLAIMS.md >"$folder/log"
log="--verdicts $folder/log"
scripts/claims.sh $log || fail "claims.sh reports the lines above, and the log has the verdicts that are shown"
once 'text_tsv            logic=proved functions=16' 'text_tsv            logic=proved functions=10'
in_line 'text_tsv is shown with functions=10, and its verdict is: logic=proved functions=16 '
once ' sum=' ' sum=0'
in_line 'ticks is shown with sum=0'
sed '/^    rule_gcra /d' docs/CLAIMS.md >"$copy"
of_file 'no line shows the verdict of rule_gcra'
sed '/^== rule_gcra$/,/^rt: /s/ sum=/ axioms=2 sum=/' "$folder/log" >"$folder/more"
log="--verdicts $folder/more"
once '    rule_gcra  ' '    rule_gcra '
in_line 'rule_gcra is shown without axioms=2'
sed '/^== rule_gcra$/,/^rt: /d' "$folder/log" >"$folder/short"
log="--verdicts $folder/short"
once '    rule_gcra  ' '    rule_gcra '
in_line 'the log has no verdict of rule_gcra'
