# kit.sh: what run, library and test have in common: the Rattle kit, one proof at a time, and a display of how far it is.
# They set `me` (their name in messages) and `root` (the top of the repository), and read this file in with `.`
# shellcheck shell=sh disable=SC2154,SC3013

# On a terminal the last line shows what is going on; whatever is said next takes its place.
clear=''
if [ -t 2 ]; then clear=$(printf '\r\033[K'); fi

say() { printf '%s%s: %s\n' "$clear" "$me" "$*" >&2; }

fail() {
    say "$*"
    exit 2
}

# Finds the kit. One that is not the kit of kit.txt is named in a line, once for a command and all that it calls.
find_kit() {
    command -v rt >/dev/null 2>&1 || fail "the command rt of the Rattle kit is not on the PATH (see README.md, What you need)"
    kit=$(rt doc </dev/null) || fail "rt cannot say where the Rattle kit lies"
    kit=${kit%/START-HERE.md}
    [ -z "${YUGERZAT_KIT_NAMED:-}" ] || return 0
    has=$(rt version </dev/null) || has='of an unknown version'
    wants=$(cat "$root/kit.txt")
    [ "$has" != "$wants" ] || return 0
    say "the Rattle kit here is $has; this repository was proved with $wants (kit.txt). Going on"
    export YUGERZAT_KIT_NAMED=yes
}

# ---- what was started is ended

job='' watcher='' room=''

# Runs a command in the folder `where`, or else at the top of the repository, on the file `given`, or else on nothing, in a session of its own:
# what rt starts does not hear Ctrl-C, so it is ended as a group.
run_job() {
    (cd "${where:-$root}" && exec setsid "$@") <"${given:-/dev/null}" &
    job=$!
    ended=0
    wait "$job" || ended=$?
    job=''
    return "$ended"
}

# Waits until all of the group is gone: a prover that still writes would leave its files behind.
end_job() {
    [ -n "$job" ] || return 0
    kill -s TERM -- "-$job" 2>/dev/null || true
    wait "$job" 2>/dev/null || true
    tries=20
    while [ "$tries" -gt 0 ] && kill -s 0 -- "-$job" 2>/dev/null; do
        sleep 0.1
        tries=$((tries - 1))
    done
    kill -s KILL -- "-$job" 2>/dev/null || true
    # rt's provers are a group of their own, which ends when rt is gone.
    sleep 0.2
    job=''
}

end_watcher() {
    [ -n "$watcher" ] || return 0
    kill -s TERM "$watcher" 2>/dev/null || true
    wait "$watcher" 2>/dev/null || true
    watcher=''
}

tidy() {
    end_watcher
    end_job
    [ -z "$room" ] || rm -rf "$room" 2>/dev/null || { sleep 0.5 && rm -rf "$room"; }
    room=''
}

interrupted() { # SIGNAL
    trap '' INT TERM HUP
    tidy
    # Whoever called sees which signal it was.
    trap - EXIT "$1"
    kill -s "$1" $$
    exit 2
}

# From here on the folder `room`, and all that run_job and prove start, is gone when this command ends, however it ends.
tidy_at_the_end() {
    trap tidy EXIT
    for signal in INT TERM HUP; do
        # shellcheck disable=SC2064
        trap "interrupted $signal" "$signal"
    done
}

# Two commands that prove at once would write the same files, so the second waits. The lock is descriptor 9.
lock() {
    mkdir -p "$root/build" || fail "cannot make the folder $root/build"
    command -v flock >/dev/null 2>&1 || return 0
    exec 9>"$root/build/lock"
    flock -w 2 9 || {
        say "another command is proving here; waiting for it"
        run_job flock 9
    }
}

unlock() { exec 9>&-; }

# ---- proving

# The crates of this repository that the named ones reach, and these, each after what it uses: lines `NAME:what it uses`.
reached() {
    WANTED="$*" awk '
        function visit(n,    a, k, m) {
            if (seen[n]++) return
            m = split(uses[n], a, " ")
            for (k = 1; k <= m; k++) if (a[k] in uses) visit(a[k])
            print n ":" uses[n]
        }
        { sub(/#.*/, ""); i = index($0, ":"); split(substr($0, 1, i - 1), word, " "); if (i) uses[word[1]] = substr($0, i + 1) }
        END { m = split(ENVIRON["WANTED"], want, " "); for (k = 1; k <= m; k++) if (want[k] in uses) visit(want[k]) }' "$root/crates.txt"
}

# A checksum of what a crate is made from: its files and those of the crates that it reaches, what they use, the kit and the machine; and
# of the file SCRIPT.
made_from() { # CRATE SCRIPT
    (
        cd "$root" || exit 2
        cat "$kit/KIT-ID" "$2"
        uname -m
        reached "$1"
        reached "$1" | while IFS=: read -r crate _; do
            (cd "crates/$crate" && find src specs proofs stdin stdout args status -type f -exec sha256sum {} + 2>/dev/null | sed "s,^,$crate ,")
        done | sort
    ) | sha256sum | cut -d' ' -f1
}

# The stamp of each crate that the named one reaches goes into the folder of stamps: what it was proved from.
# Only the display uses them: what is proved rt decides.
stamps() { # CRATE FOLDER
    mkdir -p "$2"
    reached "$1" | while IFS=: read -r crate uses; do
        {
            cat "$kit/KIT-ID"
            (cd "$root/crates/$crate" && find src specs proofs -type f -exec sha256sum {} + 2>/dev/null | sort)
            echo "uses $uses"
            for used in $uses; do cat "$2/$used" 2>/dev/null || echo "kit $used"; done
        } | sha256sum | cut -d' ' -f1 >"$2/$crate"
    done
}

# Which of them are still to be proved.
unproved() { # CRATE
    stamps "$1" "$room/stamps"
    reached "$1" | while IFS=: read -r crate _; do
        out=$root/crates/$crate/out
        if ! cmp -s "$room/stamps/$crate" "$root/build/proved/$crate" || ! { [ -d "$out/rlib" ] || [ -f "$out/$crate" ] || [ -f "$out/lib$crate.a" ]; }; then
            echo "$crate"
        fi
    done
}

# About how long the named crates take (docs/COSTS.md has the times).
how_long() {
    seconds=0
    for crate in "$@"; do
        case $crate in
        door) seconds=$((seconds + 450)) ;;
        answers) seconds=$((seconds + 250)) ;;
        rpc | door_c) seconds=$((seconds + 150)) ;;
        limits) seconds=$((seconds + 110)) ;;
        xdr | nfsattr | nfs | nfsfile | nfsdata | mount) seconds=$((seconds + 80)) ;;
        *) seconds=$((seconds + 20)) ;;
        esac
    done
    minutes=$(((seconds + 59) / 60))
    if [ "$minutes" -eq 1 ]; then echo 'a minute'; else echo "$minutes minutes"; fi
}

announce() { # CRATE..
    if [ $# -eq 1 ]; then crates='1 crate'; else crates="$# crates"; fi
    say "proving $crates ($*): about $(how_long "$@") on two cores. This happens once; later runs start at once"
}

# What rt has said so far, as lines `began CRATE` and `proved CRATE`. It proves one crate after the other.
told() {
    awk '
        /^rt: chose --jobs [0-9]+ for / { print "began", $NF }
        /^crate [A-Za-z0-9_]+: / { crate = $2; sub(/:$/, "", crate) }
        /^logic=proved / { print "proved", crate }' "$room/log"
}

# Says what has begun and ended since it last looked.
look() {
    now=$(date +%s)
    told >"$room/told"
    while read -r what crate; do
        case " $todo " in *" $crate "*) ;; *) continue ;; esac
        case $what:$started in
        "began:"*" $crate "*) ;;
        began:*)
            # rt begins with the lowest that is not proved, so those below it are.
            for other in $todo; do
                [ "$other" != "$crate" ] || break
                case $started in *" $other "*) ;; *) started="$started$other " finished="$finished$other " total=$((total - 1)) ;; esac
            done
            started="$started$crate " since=$now
            [ -n "$clear" ] || say "proving $crate .."
            ;;
        esac
        case $what:$finished in
        "proved:"*" $crate "*) ;;
        proved:*)
            case $started in *" $crate "*) ;; *) started="$started$crate " since=$now ;; esac
            finished="$finished$crate " count=$((count + 1))
            say "$count of $total proved: $crate ($((now - since)) s); $((total - count)) left"
            ;;
        esac
    done <"$room/told"
}

# On a terminal: what is being proved, and for how long this has gone on.
show() {
    [ -n "$clear" ] && [ -n "$todo" ] || return 0
    running=''
    for crate in $started; do
        case $finished in *" $crate "*) ;; *) running="$running $crate" ;; esac
    done
    past=$(($(date +%s) - start))
    printf '%s%.78s' "$clear" "$me: proving$running .. $count of $total proved, $((past / 60)) min $((past % 60)) s" >&2
}

rest() {
    sleep 1 &
    nap=$!
    wait "$nap" || true
    nap=''
}

# Shows how far a proof is, from a second after its start on, until it is told to end, and then once more.
watch() { # CRATE
    nap='' last=''
    trap 'last=yes; [ -z "$nap" ] || kill "$nap" 2>/dev/null' TERM
    start=$(date +%s) since=$(date +%s)
    rest
    [ -z "$last" ] || exit 0
    # shellcheck disable=SC2046
    set -- $(unproved "$1")
    todo="$*"
    [ -z "$todo" ] || announce "$@"
    total=$# count=0 started=' ' finished=' '
    while :; do
        look
        [ -z "$last" ] || break
        show
        rest
    done
    printf '%s' "$clear" >&2
}

# Has rt prove a crate and what it uses, and build it: runs the command in the crate's folder. What it says on standard error goes to the
# file `log`, and is of interest only if it fails.
prove() { # CRATE COMMAND WORDS..
    rm -f "$root/build/$me.log"
    mkdir -p "$room/tmp"
    : >"$room/log"
    final=$1
    watch "$1" </dev/null >/dev/null 9>&- &
    watcher=$!
    shift
    where=$root/crates/$final verdict=0
    run_job env TMPDIR="$room/tmp" "$@" 2>>"$room/log" 9>&- || verdict=$?
    end_watcher
    where=''
    return "$verdict"
}

# After that: what was proved is noted, for the display.
proved() { # CRATE
    stamps "$1" "$room/now"
    mkdir -p "$root/build/proved"
    cp "$room/now/"* "$root/build/proved/"
}

# After that: the end of what rt said, where it failed.
show_log() {
    cp "$room/log" "$root/build/$me.log"
    grep -v -e ': proved$' -e '^checked ' -e '^logic[ =]' -e '^library ' -e '^statements ' -e '^axioms ' -e '^crate ' "$room/log" | tail -n 40 >&2
    say "above: the end of what rt said; all of it is in $root/build/$me.log"
}

# Keeps a proved program for ./run, with the checksum of what it was made from. In place at once, so that nobody finds half a program.
keep_program() { # CRATE SUM
    kept=$root/build/programs/$1
    mkdir -p "$root/build/programs" &&
        rm -f "$kept.sum" &&
        cp "$root/crates/$1/out/$1" "$kept.new" &&
        mv -f "$kept.new" "$kept" &&
        echo "$2" >"$kept.sum" || fail "the program $1 cannot be kept in $root/build/programs"
}
