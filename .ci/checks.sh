# What the gate looks for in folders and logs, apart from the running. .ci/run sources this file; .ci/test shows that each fault makes the
# gate fail. A check prints one line for each fault, and nothing where there is none; it ends with 0 unless it could not look.

# The crates that crates.txt lists: the first word of each line.
listed() {
    sed -nE 's/#.*//; s/^[[:space:]]*([A-Za-z0-9_]+).*/\1/p' crates.txt
}

# The must-fail edits in the folders, as CRATE/EDIT.
edits() {
    local edit
    for edit in crates/*/must-fail/*.edit; do
        [ -f "$edit" ] || continue
        echo "$(basename "$(dirname "$(dirname "$edit")")")/$(basename "$edit" .edit)"
    done
}

# Whoever runs the gate needs these.
missing_tools() {
    local tool
    for tool in "$@"; do
        command -v "$tool" >/dev/null || echo "there is no $tool"
    done
}

# A crate folder that crates.txt does not list would not be proved.
unlisted_crates() {
    local folder
    for folder in crates/*/; do
        listed | grep -qxF "$(basename "$folder")" || echo "crate folder $folder is not in crates.txt"
    done
}

# A crate that README names, folder and all, is proved.
gone_crates() {
    local crate
    grep -oE '`crates/[a-z_0-9]+`' README.md | sed -E 's/.*\/(.*)`/\1/' | sort -u | while IFS= read -r crate; do
        listed | grep -qxF "$crate" || echo "README.md names the crate $crate, which is not in crates.txt"
    done
}

# Every crate has must-fail edits, and nothing else beside them: what is not named NAME.edit rt tries as no edit.
edit_folders() {
    local crate file
    for crate in $(listed); do
        if [ ! -d "crates/$crate/must-fail" ]; then
            echo "crate $crate has no folder must-fail"
            continue
        fi
        edits | grep -qE "^$crate/" || echo "crate $crate has no must-fail edit"
        while IFS= read -r file; do
            echo "$file is no must-fail edit"
        done < <(find "crates/$crate/must-fail" -mindepth 1 ! \( -type f -name '[!.]*.edit' -path "crates/$crate/must-fail/*" \))
    done
}

# A function's proof quotes the line or arm of src/ that each goal stands at: the line has to stand there.
quotations() {
    local crate line
    for crate in crates/*/; do
        [ -d "$crate/proofs" ] || continue
        while IFS= read -r line; do
            grep -rqF -- "${line% ..}" "$crate/src" || echo "a proof of $crate quotes what its src/ does not have: $line"
        done < <(grep -rhE '^ *-- (back to the loop from )?`.*`$' "$crate/proofs" --include={Proof,Answers,Invariants}.antt | sed -E 's/^[^`]*`(.*)`$/\1/' | sort -u)
    done
}

# ---- a log that ends with 'N passed, M failed'

# The last such line of a log.
count_line() { # LOG
    grep -E '^[0-9]+ passed, [0-9]+ failed$' "$1" | tail -n 1
}

passed_of() { # LOG
    count_line "$1" | cut -d' ' -f1
}

failed_of() { # LOG
    count_line "$1" | cut -d' ' -f3
}

# There is a count, something passed, and the status is not bad without a reason in the count.
count_faults() { # WHAT LOG STATUS
    if [ -z "$(count_line "$2")" ]; then
        echo "$1 printed no count (exit status $3)"
        return
    fi
    [ "$(passed_of "$2")" -gt 0 ] || echo "$1: 0 passed"
    [ "$3" -eq 0 ] || [ "$(failed_of "$2")" -gt 0 ] || echo "$1 ended with status $3"
}

# ---- the log of rt ci

# The line that says what rt ci did. It prints none where something failed.
ok_line() { # LOG
    grep -E '^rt: ok; ' "$1" | tail -n 1
}

# Each crate is proved or kept, each program ran as both compilers build it, each crate's tests passed, each edit was tried, and rt counted just these.
rattle_faults() { # LOG
    local crate edit wanted
    for crate in $(listed); do
        grep -qE "^rt: $crate (proved|is kept: .*)$" "$1" || echo "rt ci did not prove $crate"
        if [ -f "crates/$crate/src/main.rt" ]; then
            grep -qE "^rt: $crate ran, " "$1" || echo "rt ci did not run $crate"
            grep -qE "^rt: $crate ran \(built by Rattle's own compiler\), " "$1" || echo "rt ci did not run $crate as Rattle's own compiler builds it"
        fi
        ! grep -rqF '#[test]' "crates/$crate/src" || grep -qxF "rt: $crate: its tests passed" "$1" || echo "rt ci did not run the tests of $crate"
    done
    for edit in $(edits); do
        grep -qF "rt: must-fail $edit.edit: " "$1" || echo "rt ci did not try the must-fail edit $edit"
    done
    wanted=$(($(listed | wc -l) + $(edits | wc -l)))
    if [ "$(failed_of "$1")" = 0 ] && [ "$(passed_of "$1")" != "$wanted" ]; then
        echo "rt ci: $(passed_of "$1") passed, where crates and edits are $wanted"
    fi
    edit_faults "$1"
}

# An edit that cannot be applied or read is bad: it shows nothing, and rt ci passes all the same.
edit_faults() { # LOG
    local ok bad
    ok=$(ok_line "$1")
    if [ -z "$ok" ]; then
        echo "rt ci printed no line 'rt: ok'"
    else
        bad=$(sed -nE 's/.*; must-fail edits: [^;]*, ([0-9]+) bad(;.*)?$/\1/p' <<<"$ok")
        [ "${bad:-0}" -eq 0 ] || echo "rt ci: $bad bad must-fail edits"
    fi
    sed -nE 's/^rt: (.*: BAD EDIT: .*)/a bad edit: \1/p' "$1"
    # A definition states no fact, so an edit that is refused in specs/ is refused for its own words and shows nothing.
    sed -nE 's/^rt: must-fail .*: refused, as it must be: (note: )?(\.\/)?specs\/.*/an edit that does not fit the definitions: &/p' "$1"
}

# Notes, and no faults: the edits whose refusal says less of a contract, as rt puts it.
weak_edits() { # LOG
    sed -nE 's/^rt: must-fail (.*)\.edit: refused, as it must be \((only [^,]*),.*/note: the must-fail edit \1 is refused \2/p' "$1"
}

# ---- the log of cargo test

# A line for each test program that cargo started: its name, how many results it printed, then of these the numbers of tests passed,
# failed, ignored, measured and filtered out. What stands before the first is named 'none'.
test_programs() { # LOG
    awk '
        function flush() { if (name != "none" || results) print name, results + 0, p + 0, f + 0, i + 0, m + 0, o + 0 }
        function begin(n) { flush(); name = n; results = p = f = i = m = o = 0 }
        BEGIN { name = "none" }
        $1 == "Running" && $2 == "unittests" { begin("unittests:" $3); next }
        $1 == "Running" { begin($2); next }
        $1 == "Doc-tests" { begin("doc-tests:" $2); next }
        /^test result:/ { results++; p += $4; f += $6; i += $8; m += $10; o += $12 }
        END { flush() }' "$1"
}

rust_passed() { # LOG
    test_programs "$1" | awk '{ n += $3 } END { print n + 0 }'
}

rust_failed() { # LOG
    test_programs "$1" | awk '{ n += $4 } END { print n + 0 }'
}

# What has to run in a folder, as the beginnings of names of test_programs: each file or folder of tests/, and where src/ has tests or
# examples in its comments, these.
tests_of() { # FOLDER
    (
        cd "$1" || exit
        find tests -mindepth 1 -maxdepth 2 \( -name '*.rs' ! -path 'tests/*/*' -o -path 'tests/*/main.rs' \) | sort
        ! grep -rqF '#[test]' src || echo unittests:
        ! grep -rqE '^ *//[/!] ```' src || echo doc-tests:
    ) 2>/dev/null
}

# The tests that are written in a folder. A file that no other names, or a test that a condition leaves out, has them and runs none.
tests_written() { # FOLDER
    grep -rhE '^ *#\[test\]' "$1/src" "$1/tests" 2>/dev/null | wc -l
}

# How many tests of the programs whose names begin so ran.
tests_run() { # LOG BEGINNING
    test_programs "$1" | awk -v name="$2" 'index($1, name) == 1 { n += $3 + $4 } END { print n + 0 }'
}

# Every test of the folder ran, and every test program printed its result and left nothing out.
rust_faults() { # FOLDER LOG STATUS
    local run name results passed failed ignored measured filtered
    tests_of "$1" | grep -q '^tests/' || echo "$1/tests has no test program"
    [ "$(rust_passed "$2")" -gt 0 ] || echo "$1/: 0 passed"
    [ "$3" -eq 0 ] || [ "$(rust_failed "$2")" -gt 0 ] || echo "cargo test in $1/ ended with status $3"
    run=$(($(tests_run "$2" tests/) + $(tests_run "$2" unittests:)))
    [ "$run" -eq "$(tests_written "$1")" ] || echo "$1/: $run tests ran, and $(tests_written "$1") are written"
    while read -r name; do
        [ "$(tests_run "$2" "$name")" -gt 0 ] || echo "$1/: no test of $name ran"
    done < <(tests_of "$1")
    while read -r name results passed failed ignored measured filtered; do
        [ "$results" -gt 0 ] || echo "$1/: $name printed no result"
        [ "$((ignored + measured + filtered))" -eq 0 ] || echo "$1/: $name: $ignored ignored, $measured measured, $filtered filtered out"
    done < <(test_programs "$2")
}

# ---- what the pages say

# A note, and no fault, where a page names another toolchain than the one that checks here: whether it proves is what counts.
identity() {
    local version page
    version=$(rt version)
    for page in README.md docs/ARCHIVE.md; do
        [ -n "$version" ] && grep -qF -- "$version" "$page" || echo "note: $page does not name the toolchain of this run: $version"
    done
}

# docs/ARCHIVE.md counts the definitions as they are, by the command that stands there.
definitions() {
    local command total
    bash .ci/definitions check || echo "docs/ARCHIVE.md does not count the definitions as they are (run: bash .ci/definitions write)"
    command=$(sed -nE 's/^    (find crates.*)/\1/p' docs/ARCHIVE.md)
    total=$(sed -nE 's/^\| all \|.*\| ([0-9]+) \|$/\1/p' docs/ARCHIVE.md)
    [ -n "$total" ] && [ "$(bash -c "$command")" = "$total" ] || echo "the command in docs/ARCHIVE.md does not give its total, $total"
}
