#!/usr/bin/env bash
# Counts the places that docs/DESIGN-PASS.md speaks of: in crates/*/src without tests, and for proofs in
# crates/*/proofs. Run at the top; with -l it lists them. A count is of lines to look at: what of them is
# a place is said in the page.
src() { find crates -path 'crates/*/src/*.rt' ! -path '*/out/*' ! -name tests.rt | sort | xargs "$@"; }
proofs() { find crates -path 'crates/*/proofs/*' ! -path '*/out/*' -name '*.antt' | sort; }
say() { if [ "$list" ]; then echo "== $1"; cat; else echo "$1: $(wc -l)"; fi; }
list=; [ "$1" = -l ] && list=1
src grep -nE '^ *(pub(\(crate\))? )?enum ' | say '1a enums'
src grep -nE 'let mut first = true|NoDrive|sheet\.len\(\) > 0|form: u8|leads\((70|74)' | say '1b flags, and numbers for kinds'
src grep -nE 'None => (None|return|false|none)\b|None => 65535|Err\([a-z_]+\) => (Err|None)|Ok\([a-z]+\) => Ok\([a-z]+\),|Err\(_\) => Err|return Err\(RuleFault|^ *_ => Err' | say '1c matches that hand on None, Ok or Err'
src grep -nE '\b65535\b' | grep -vE 'ensures|requires|ghost|//' | say '1d the rank that is none'
src grep -nE '^ *for [a-z_]+ in [^ ]*[0-9a-z)]\.\.' | say '3a loops over numbers'
src grep -nE '^ *(while|loop)\b' | say '3b other loops'
src grep -nE 'let mut (all|any|byte|set|o|n|out_of) ?(:[^=]*)?= ' | say '3c what a loop gathers'
src grep -nE 'fn (copy|half|word_at|field|power|codes|stored|is_below_power|bits_below|name|show_[a-z_]*)\b' | say '4 conversions and printing by hand'
src grep -hE '^ *requires ' | sed -E 's/^ *requires ([a-z_]+ )?\{/{/' | sort | uniq -c | awk '$1>=3' | say '5 facts that are required three times or more'
src grep -nE '\* 256|\* 8 \+|/ 256|% 256|/ 64|(vec_len|length) [a-z.]+ ≡ [0-9]+' | say '6 packed indices and lengths'
src grep -nE 'enum (Turn|ByteTest)\b|match turn|none: bool|form: u8' | say '7 switches'
proofs | grep 'Answers.antt$' | say '8a files of answers'
proofs | grep 'Answers.antt$' | xargs cat | say '8b lines of answers'
proofs | grep -v 'Answers.antt$\|Invariants.antt$' | xargs cat | say '8c lines of lemmas'
