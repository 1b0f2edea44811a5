#!/usr/bin/env bash
# Looks at the calls of the system that the program makes for a real file, which no proof reaches.
#
#   tests/strace.sh [PROGRAM]
#
# It serves the vending machine on a new STORE by PROGRAM, the one that the gate has left if none is named, under strace. It wants this:
#
# - the file is made for its owner alone and locked, and its folder is synced, before anything of it is read or written;
# - for each line that changes something there are a write, a sync, a write, a sync, and then its reply; for all others the reply alone;
# - a second run on that STORE ends with 5, and has read and written nothing;
# - an audit makes the first calls of these, but opens the file for reading alone, reads, and writes nothing to the file; it makes no file;
# - a call that a signal interrupts is made again, on the file, the text, the input and the output, and of a short write the rest is written;
# - where a sync or a write fails, or the file ends before what is read, the run ends with 5, with no further call and no reply;
# - a file that is refused is looked at once more behind the line that refuses it, and not written;
# - standard error tells how the store was opened, and which call failed, how, and what to do; and one line names the cause for scripts.
#
# Then it leaves out each of the calls that it saw, one at a time, and wants to be able to tell. Where strace isn't there or may trace nothing,
# it says so and ends with 0. It tells each thing that isn't so, and ends with status 1 then.
set -u

top=$(cd "$(dirname "${BASH_SOURCE[0]}")/.." && pwd)
program=$(realpath -- "${1:-$top/crates/obsidian/out/obsidian}")
machine=$top/examples/vending_machine/vending_machine.obs
room=$(realpath -- "$(mktemp -d)")
trap 'rm -rf "$room"' EXIT
cd "$room" || exit 1
failed=0

# The lines that are served, with their replies. A handle that isn't there is refused, the machine that is full aborts, and a look changes nothing.
cat >lines <<'LINES'
{"op":"new","id":1,"who":"alice","contract":"Machine","into":"m"}
{"op":"call","id":2,"who":"alice","on":"n","tx":"bake","into":"d"}
{"op":"call","id":3,"who":"alice","on":"m","tx":"bake","into":"d"}
{"op":"call","id":4,"who":"alice","on":"m","tx":"restock","args":[{"ref":"d"}]}
{"op":"call","id":5,"who":"alice","on":"m","tx":"bake","into":"e"}
{"op":"call","id":6,"who":"alice","on":"m","tx":"restock","args":[{"ref":"e"}]}
{"op":"owner","id":7,"who":"alice","on":"d"}
LINES
cat >replies <<'REPLIES'
{"id":1,"ok":{"object":0}}
{"id":2,"refused":5}
{"id":3,"ok":{"object":1}}
{"id":4,"ok":null}
{"id":5,"ok":{"object":2}}
{"abort":"state","id":6,"object":0,"state":"Full"}
{"id":7,"ok":{"field":[0,"candy"]}}
REPLIES
# The calls, a word for each.
taken='open lock folder sync'
begun="$taken write sync write sync write sync"
stored='write sync write sync reply'
served="$begun $stored reply $stored $stored $stored reply reply"

# The words for the calls on a store, of what strace wrote: one that failed has a `!` behind its word.
words() {
    awk -v store="<$1>" -v folder="<${1%/*}>" '
        function tell(word) { all = all (all == "" ? "" : " ") word ($0 ~ /\) += -1 / ? "!" : "") }
        / = -1 EINTR / { next }
        /^write\(1</ { tell("reply"); next }
        /^fsync\(/ && index($0, folder) { tell("folder"); next }
        !index($0, store) || /^(statx|newfstatat|close)\(/ { next }
        /^openat\(.*O_RDWR\|O_CREAT.*, 0600\)/ { tell("open"); next }
        /^openat\(.*O_RDONLY\|([A-Z_]+\|)*O_CLOEXEC\)/ && !/O_CREAT/ { tell("look"); next }
        /^flock\(.*, LOCK_EX\|LOCK_NB\)/ { tell("lock"); next }
        /^fdatasync\(/ { tell("sync"); next }
        /^pwrite64\(/ { tell("write"); next }
        /^pread64\(/ { tell("read"); next }
        { tell("other") }
        END { print all }'
}

# Runs a command on a store of this name, under strace with these options.
run() {
    local command=$1 store=$room/$2/store
    shift 2
    mkdir -p "${store%/*}"
    strace -y -qq -s 0 -o trace -P "$store" -P "${store%/*}" -P "$room/output" "$@" "$program" "$command" "$machine" "$store" >output 2>error
    status=$?
    calls=$(words "$store" <trace)
}

# Serves lines from standard input on a store of this name, under strace with these options.
serve() {
    run serve "$@"
}

# Tells where an audit of a store of this name doesn't make these calls, and write these numbers.
want_audit() {
    local title=$1 wanted="0 $3 $4"
    run audit "$2" </dev/null
    if [ "$status $calls $(xargs <output)" != "$wanted" ]; then
        tell_wrong "$title" "$wanted" "$status $calls $(xargs <output)"
    fi
}

# Tells where a run didn't end with this status, these calls, and as many of the replies.
want() {
    local title=$1 wanted_status=$2 wanted_calls=$3 count=$4
    if [ "$status" -ne "$wanted_status" ]; then
        tell_wrong "$title" "status $wanted_status" "$status"
    fi
    if [ "$calls" != "$wanted_calls" ]; then
        tell_wrong "$title" "$wanted_calls" "$calls"
    fi
    if ! head -n "$count" replies | cmp -s - output; then
        tell_wrong "$title" "$count replies" "$(cat output)"
    fi
}

# Tells where standard error hasn't this line about the store of this name.
want_told() {
    local title=$1 line=$room/$2/store:\ $3
    if ! grep -qxF -- "$line" error; then
        tell_wrong "$title" "$line" "$(cat error)"
    fi
}

# Tells where standard error hasn't the line for scripts with this cause.
want_cause() {
    if [ "$(grep -c '^obsidian: status ' error)" -ne 1 ] || ! grep -qx "obsidian: status disk $2" error; then
        tell_wrong "$1" "obsidian: status disk $2" "$(cat error)"
    fi
}

# Tells where standard error hasn't these words of what to do.
want_help() {
    if ! tr -s ' \n' ' ' <error | grep -qF -- "help: $2"; then
        tell_wrong "$1" "help: $2" "$(cat error)"
    fi
}

# Tells where standard error says more of what to do than these words.
want_no_other_help() {
    if ! tr -s ' \n' ' ' <error | grep -qE -- "help: $2 ?\$"; then
        tell_wrong "$1" "help: $2, and no more" "$(cat error)"
    fi
}

tell_wrong() {
    printf 'strace.sh: %s\n  wanted: %s\n  came:   %s\n' "$1" "$2" "$3"
    failed=1
}

# A run whose call of this kind, by its number, goes as said: it ends with 5 after these calls and so many replies, and tells this cause, and this.
want_fault() {
    local title=$1 injected=$2
    serve "$title" -e "inject=$injected" <lines
    want "$title" 5 "$3" "$4"
    want_cause "$title" "$5"
    want_told "$title" "$title" "$6"
}

if ! strace -o trace -e inject=fsync:error=EIO true 2>error; then
    echo "strace.sh: nothing was traced: $(tail -n 1 error)"
    exit 0
fi

serve new <lines
want 'a new store' 0 "$served" 7
want_told 'a new store' new 'a new store, since there was no such file, or an empty one'
cp trace whole
for number in $(grep -nE '^(openat\(.*/new/store>|(flock|fsync|fdatasync|pwrite64)\(|write\(1<)' whole | cut -d: -f1); do
    if [ "$(sed "${number}d" whole | words "$room/new/store")" = "$served" ]; then
        tell_wrong 'a call that is left out' 'other words' "$(sed -n "${number}p" whole)"
    fi
done
serve new </dev/null
want 'a store that is there' 0 "$taken read read" 0
want_told 'a store that is there' new '3 objects, 3 handles, 4 records; 790 of 67108864 bytes used (0 %)'

cp new/store stored
want_audit 'an audit' new "look ${taken#open } read read reply" 'objects 3 handles 3 owned 3 shared 0 disowned 0 loose 0'
mkdir audited
: >audited/store
want_audit 'an audit of an empty file' audited "look ${taken#open } reply" 'objects 0 handles 0 owned 0 shared 0 disowned 0 loose 0'
if ! cmp -s new/store stored || [ -s audited/store ]; then
    tell_wrong 'an audit' 'files as they were' "$(wc -c new/store audited/store | xargs)"
fi
run audit missing </dev/null
if [ "$status $calls" != '5 ' ] || [ -e missing/store ]; then
    tell_wrong 'an audit of a file that is missing' '5, and no file' "$status $calls $(ls missing)"
fi

coproc first { exec "$program" serve "$machine" "$room/new/store" 2>/dev/null; }
echo '{"op":"see","id":1,"who":"alice","on":"m"}' >&"${first[1]}"
read -r _ <&"${first[0]}"
serve new <lines
want 'a second run' 5 'open lock!' 0
want_cause 'a second run' locked
want_told 'a second run' new "it couldn't be locked"
want_help 'a second run' 'another process has it: a run that serves or audits it, or `flock`. Let that one end; two never have one store.'
exec {first[1]}>&-
wait

serve signals -P "$room/lines" -P "$machine" -e inject=openat,read,write,flock,fsync,fdatasync,pwrite64,pread64:error=EINTR:when=1+2 <lines
want 'signals' 0 "$served" 7
serve short -e inject=pwrite64:retval=1:when=4 <lines
want 'a short write' 0 "${served/$stored/write $stored}" 7
read -r length offset rest next < <(grep -A 1 INJECTED trace | sed -nE 's/^pwrite64\(.*, ([0-9]+), ([0-9]+)\) += .*/\1 \2/p' | xargs)
if [ "$rest at $next" != "$((length - 1)) at $((offset + 1))" ]; then
    tell_wrong 'the rest of a short write' "$((length - 1)) bytes at $((offset + 1))" "$rest at $next"
fi
broken='Input/output error (os error 5)'
forgets='Then let the system forget what it keeps of the file in memory, before the next run'
want_fault 'no right' openat:error=EACCES:when=1 '' 0 permission "it couldn't be opened: Permission denied (os error 13)"
want_help 'no right' 'the user of this run lacks a right'
want_fault 'a file system that is read only' openat:error=EROFS:when=1 '' 0 permission "it couldn't be opened: Read-only file system (os error 30)"
want_help 'a file system that is read only' 'its file system can only be read: mount it so that it can be written'
want_fault 'a name that is too long' openat:error=ENAMETOOLONG:when=1 '' 0 open "it couldn't be opened: File name too long (os error 36)"
want_help 'a name that is too long' 'see how the name is written.'
want_fault 'too many open files' openat:error=EMFILE:when=1 '' 0 files "it couldn't be opened: Too many open files (os error 24)"
want_help 'too many open files' 'too many files are open: raise the limit of the run'
want_fault 'too many open files of the system' openat:error=ENFILE:when=1 '' 0 files \
    "it couldn't be opened: Too many open files in system (os error 23)"
want_fault 'a folder that may not be read' openat:error=EACCES:when=2 'open lock' 0 permission \
    "its folder couldn't be synced: Permission denied (os error 13)"
want_fault 'a folder that is not synced' fsync:error=EIO:when=1 'open lock folder!' 0 folder "its folder couldn't be synced: $broken"
want_fault 'the first sync of a line' fdatasync:error=EIO:when=5 "$begun write sync!" 0 sync "it couldn't be synced: $broken"
want_help 'the first sync of a line' "look into the log of the system, as by \`dmesg\`: the disk may be broken. $forgets"
want_fault 'the second sync of a line' fdatasync:error=EIO:when=8 "$begun $stored reply write sync write sync!" 2 sync "it couldn't be synced: $broken"
want_fault 'a sync without room' fdatasync:error=ENOSPC:when=5 "$begun write sync!" 0 sync \
    "it couldn't be synced: No space left on device (os error 28)"
want_help 'a sync without room' "the disk is full: make room on its file system. $forgets"
want_fault 'a write without room' pwrite64:error=ENOSPC:when=5 "$begun write sync write!" 0 full \
    "it couldn't be written: No space left on device (os error 28)"
want_no_other_help 'a write without room' "the disk is full: make room on its file system."
want_fault 'a write past the quota' pwrite64:error=EDQUOT:when=5 "$begun write sync write!" 0 full \
    "it couldn't be written: Disk quota exceeded (os error 122)"
want_no_other_help 'a write past the quota' "the user of this run may keep no more there: make room, or raise the quota."
want_fault 'a write past the limit of files' pwrite64:error=EFBIG:when=5 "$begun write sync write!" 0 full \
    "it couldn't be written: File too large (os error 27)"
want_help 'a write past the limit of files' 'the file may not grow so far: raise the limit of the run'
want_fault 'a write of nothing' pwrite64:retval=0:when=5 "$begun write sync write" 0 write "it couldn't be written: failed to write whole buffer"
serve new -e inject=pread64:retval=0:when=1 <lines
want 'a read that ends early' 5 "$taken read" 0
want_cause 'a read that ends early' read
want_told 'a read that ends early' new "it couldn't be read: failed to fill whole buffer"
want_help 'a read that ends early' "the file became shorter while this run had it: find out which process did that. $forgets"

mkdir refused
echo 'no store' >refused/store
cp refused/store no_store
serve refused <lines
if [ "$status $calls" != "6 $taken read reply read" ] || ! cmp -s refused/store no_store; then
    tell_wrong 'a file that is no store' "6 $taken read reply read" "$status $calls"
fi

[ "$failed" -eq 0 ] && echo 'strace.sh: the calls are as they should be'
exit "$failed"
