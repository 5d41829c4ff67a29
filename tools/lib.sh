# What the tools share, read by `.` at the top of the repository.
# The prover's notes go to a log below target/; a line is printed for each crate that is proved and each edit that is refused.

# Where the first word is --version: the version, with the commit where this is a clone, and no more.
version() { # WORD..
    [ "${1:-}" = --version ] || return 0
    of=$(sed -n 's/^version = "\(.*\)"$/\1/p' rust/Cargo.toml)
    [ ! -e .git ] || ! commit=$(git describe --always --dirty --abbrev=12 2>/dev/null) || of="$of, commit $commit"
    echo "$(basename "$0") (Laremban $of)"
    exit 0
}

# The crates that CRATE needs, and itself, a line each. Without CRATE: all.
crates_for() { # [CRATE]
    awk -v wanted="${1:-}" '
        function visit(name,    needs, k, n) {
            if (!(name in line) || name in seen) return
            seen[name] = 1
            print name
            n = split(line[name], needs, " ")
            for (k = 1; k <= n; k++) visit(needs[k])
        }
        { sub(/#.*/, ""); i = index($0, ":") }
        i { split(substr($0, 1, i - 1), words, " "); line[words[1]] = substr($0, i + 1) }
        END { if (wanted != "") visit(wanted); else for (name in line) print name }' crates.txt
}

# Reads what rt prints, keeps it, and tells how far it is. A crate that was proved before is counted and not told.
tell() { # LOG CRATES EDITS WORD
    proved=0 refused=0 crate=
    while IFS= read -r line || [ -n "$line" ]; do
        printf '%s\n' "$line" >>"$1"
        said=${line#rt: }
        case $line in
        'rt: must-fail '*': refused, as it must be'*)
            refused=$((refused + 1)) said=${said#must-fail }
            # of one whose refusal says little of the contract rt tells why
            case $line in *', as it must be (only '*) ;; *) said=${said%%.edit: *} ;; esac
            echo "$refused of $3 edits refused: $said"
            ;;
        'rt: '*': trying its must-fail edits '*) echo "$said" ;;
        'rt: '*' is kept: '*) proved=$((proved + 1)) ;;
        'rt: '*' proved')
            said=${said% proved}
            case $said in
            *' '*) ;; # no crate's name: its tests, or a note
            *)
                proved=$((proved + 1))
                echo "$proved of $2 proved: $said"
                ;;
            esac
            ;;
        '== summary') crate= ;;
        # under rt all a crate's lines come once it is done, and it has none where it was proved before
        '== '*) [ "$4" != all ] || crate=${line#== } proved=$((proved + 1)) ;;
        'logic=proved '*) [ -z "$crate" ] || echo "$proved of $2 proved: $crate" ;;
        *': failed ('[0-9]*')') echo "$line" ;;
        'rt: '*' NOT PROVED: its library '*) ;;
        'rt: '*'NOT PROVED'* | 'rt: '*FAILED* | 'rt: must-fail '* | 'rt: warning: '* | 'rt: ok; '* | 'rt: waiting for '* | *' BAD EDIT: '*) echo "$said" ;;
        esac
    done
}

# Forty lines of a log, from the first error that it tells; its end where it tells none.
failure() { # LOG
    awk '
        { line[NR] = $0 }
        !at && /(: error|^error|^rattle: |^rt: .*(NOT PROVED|NOT REFUSED|NOT TRIED|BAD EDIT|FAILED))/ { at = NR }
        END { if (!at || at > NR - 39) at = NR > 39 ? NR - 39 : 1; for (i = at; i <= NR && i < at + 40; i++) print line[i] }' "$1" | cut -c1-400
}

# Runs rt with these words in a folder. Its text goes to target/rt-WORD.log, and where it fails what led to that is printed.
prove() { # FOLDER WORD..
    folder=$1
    shift
    log=target/rt-$1.log crates=$(crates_for | wc -l) edits=$(find crates -path '*/must-fail/*.edit' | wc -l)
    mkdir -p target && : >"$log" || return 1
    { ended=$({ { (CDPATH= cd "$folder" && exec rt "$@") 2>&1 3>&- 4>&-; echo $? >&3; } | tell "$log" "$crates" "$edits" "$1" >&4 3>&-; } 3>&1); } 4>&1
    [ "$ended" != 0 ] || return 0
    failure "$log"
    echo "rt $*: failed; $log has all that it said"
    return 1
}

# Runs cargo on all crates of Rust, or on those that the words name.
rust() { # WORD..
    (cd rust && cargo "$@" </dev/null)
}

# Builds a program in Rust, which is $built/NAME then.
built=$PWD/rust/target/release
build() { # NAME
    rust build --offline --release --quiet --target-dir target --bin "$1"
}

# Runs a command while no other tool of this repository proves.
alone() { # COMMAND..
    command -v flock >/dev/null || { "$@"; return; }
    mkdir -p target && {
        flock -n 9 || { echo 'another tool is proving: waiting for it'; flock 9; }
        "$@" 9>&-
    } 9>target/lock
}

# A sum of all that the static library is made from: the kit, and what the prover reads of laremban and of the crates below it.
sources() {
    {
        rt version 2>/dev/null && cat crates.txt
        find $(crates_for laremban | sed 's|.*|crates/&/src crates/&/specs crates/&/proofs|') -type f 2>/dev/null | LC_ALL=C sort | xargs sha256sum
    } | sha256sum
}

# For rt all: how many crates to prove at once, where that can be more than the two that it takes by itself. A crate may need 4 GB.
at_once() {
    awk -v n="$(nproc 2>/dev/null || echo 1)" '
        /^MemAvailable:/ { room = int($2 / 4000000) }
        END { if (room < n) n = room; if (n > 2) print "--jobs " n }' /proc/meminfo 2>/dev/null || :
}

# The static library of the proved code, made again only where something changed.
library() { is_made || alone make_library; }

archive=target/staticlib/liblaremban.a
is_made() { [ -f "$archive" ] && { sources && sha256sum <"$archive"; } | cmp -s - target/staticlib/made-of; }

make_library() {
    # another tool may have made it meanwhile
    ! is_made || return 0
    from=$(sources)
    prove . all check $(at_once) || return 1
    echo "making $archive"
    prove crates/laremban lib && mkdir -p target/staticlib && cp crates/laremban/out/liblaremban.a "$archive" || return 1
    { echo "$from" && sha256sum <"$archive"; } >target/staticlib/made-of
}

# The program liftrun, proved to its `main`, where its tests look for it: target/bin/liftrun.
make_liftrun() {
    prove crates/liftrun run <crates/liftrun/stdin && mkdir -p target/bin && rm -f target/bin/liftrun && cp crates/liftrun/out/liftrun target/bin/
}
