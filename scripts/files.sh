#!/usr/bin/env bash
# Runs the program over real files, in a folder of its own, and looks at what becomes of them: no file is lost, and each failure
# is put into words. From anywhere: scripts/files.sh. It needs bash and coreutils, and takes less than a minute once the program is
# built. REMUX names another program than ../remux. The last line counts; the status is 1 where something failed.
set -u
top=$(cd -- "$(dirname -- "${BASH_SOURCE[0]}")/.." && pwd)
program=${REMUX:-$top/remux}
folder=$(mktemp -d)
trap 'rm -rf -- "$folder"' EXIT
cd -- "$folder" || exit 1

passed=0
failed=0

# is NAME CONDITION..: the condition holds.
is() {
    local name=$1
    shift
    if "$@"; then
        passed=$((passed + 1))
    else
        failed=$((failed + 1))
        echo "failed: $name ($*)"
    fi
}

# run WORD..: runs the program; its status, standard output and standard error are $status, out and err.
run() {
    status=0
    "$program" "$@" > out 2> err < /dev/null || status=$?
}

sum() { sha256sum < "$1"; }
same() { cmp -s -- "$1" "$2"; }
has() { grep -qF -- "$2" "$1"; }
absent() { [ ! -e "$1" ] && [ ! -L "$1" ]; }

# The example's plan and streams, under short names.
sed 's|examples/||' "$top/examples/plan.toml" > plan.toml
cp "$top/examples/north.ts" "$top/examples/south.ts" .
cp plan.toml plan.kept
cp north.ts north.kept

run run --plan plan.toml --out whole.ts
is 'a run ends well' [ "$status" = 0 ]
is 'it says why it ended' [ "$(cat err)" = 'end: all inputs ended' ]
cat out err > totals
is 'a run leaves no other file' absent whole.ts.part
run run --plan plan.toml --out serial.ts --serial
is 'a run in one thread ends well' [ "$status" = 0 ]
is 'it writes the same bytes' same serial.ts whole.ts
cat out err > serial.totals
is 'it prints the same' same serial.totals totals

# What is said of rates: nothing of one that is as stated, and 1,000 of 1,001,000 are 999 in a million.
run check --plan plan.toml
is 'a check says what the services take' has err 'services: measured 1684077 bits a second of 3000000, the tables take 60000'
sed 's|^rate = 1000000$|rate = 1001000|' plan.toml > slow.toml
run check --plan slow.toml
is 'an input that is slower than stated is told' has err 'rate: input 0 runs at 1000000 bits a second by the PCRs of PID 0x0101, 999 ppm below the stated 1001000'

# A plan with room, and one whose services take more than its rate leaves.
run run --plan plan.toml --out strict.ts --strict
is 'a strict run of a plan with room ends well' [ "$status" = 0 ]
is 'its output is the same' same strict.ts whole.ts
sed -e 's|^rate = 3000000$|rate = 1200000|' -e 's|^queue = 1024$|queue = 64|' plan.toml > full.toml
run run --plan full.toml --out full.ts --serial
is 'a run of an overfull plan ends well' [ "$status" = 0 ]
is 'its plan is named' has err 'overfull: the services took '
run run --plan full.toml --out strict.ts --serial --strict
is 'a strict run of an overfull plan has status 1' [ "$status" = 1 ]
is 'its output is the same too' same strict.ts full.ts

# What is read is not written, under whatever name.
ln -s north.ts link.ts
ln north.ts hard.ts
ln -s plan.toml link.toml
for name in north.ts ./north.ts "$folder/north.ts" link.ts hard.ts plan.toml ./plan.toml link.toml; do
    run run --plan plan.toml --out "$name"
    is "output $name is refused" [ "$status" = 4 ]
    is "output $name is named" [ "$(head -n 1 err)" = "fault file $name" ]
    is "output $name is explained" has err 'the output has to be another file'
    is "north.ts stands after $name" same north.ts north.kept
    is "the plan stands after $name" same plan.toml plan.kept
done

# An old output stands until the new one is whole.
echo old > old.ts
chmod 600 old.ts
run run --plan plan.toml --out old.ts
is 'an old output is replaced' same old.ts whole.ts
is 'its permissions stay' [ "$(stat -c %a old.ts)" = 600 ]
echo old > target.ts
ln -s target.ts through.ts
run run --plan plan.toml --out through.ts
is 'the target of a link is replaced' same target.ts whole.ts
is 'the link stays' [ -L through.ts ]

for word in '' --serial; do
    rm -f short.ts.part
    echo old > short.ts
    (trap '' XFSZ; ulimit -f 100; "$program" run --plan plan.toml --out short.ts $word > out 2> err)
    is "a write that fails ends the run $word" [ $? = 4 ]
    is "the file is named $word" [ "$(head -n 1 err)" = 'fault file short.ts' ]
    is "the reason is told $word" has err "it can't be written: "
    is "the old output stands $word" [ "$(cat short.ts)" = old ]
    is "the new one is named $word" has err 'short.ts.part: the output so far'
    is "the new one is there $word" [ -s short.ts.part ]
done
run run --plan plan.toml --out short.ts
is 'the next run ends well' same short.ts whole.ts
is 'what was left is not touched' [ -s short.ts.part ]

mkfifo stuck
sed 's|"south.ts"|"stuck"|' plan.toml > stuck.toml
echo old > killed.ts
"$program" run --plan stuck.toml --out killed.ts > out 2> err &
process=$!
exec 7> stuck
cat south.ts >&7
sleep 1
kill -9 "$process"
wait "$process" 2> /dev/null
exec 7>&-
is 'the old output outlives a run that is killed' [ "$(cat killed.ts)" = old ]

# A folder takes the name of an output while its run goes on.
"$program" run --plan stuck.toml --out taken.ts > out 2> err &
process=$!
exec 7> stuck
cat south.ts >&7
sleep 1
mkdir taken.ts
touch taken.ts/file
exec 7>&-
wait "$process"
is 'an output that does not get its name fails' [ $? = 4 ]
is 'it is named' [ "$(head -n 1 err)" = 'fault file taken.ts' ]
is 'that is explained' has err "taken.ts: the new file can't be given its name: "
is 'the whole output is named' has err 'taken.ts.part: the output so far'
is 'it is there' same taken.ts.part whole.ts

# Standard output takes the multiplex alone.
for name in - /dev/stdout /dev/fd/1; do
    "$program" run --plan plan.toml --out "$name" > piped.ts 2> err < /dev/null
    is "output $name to a file" same piped.ts whole.ts
    is "output $name: the totals" same err totals
    "$program" run --plan plan.toml --out "$name" 2> err < /dev/null | cat > piped.ts
    is "output $name to a pipe" same piped.ts whole.ts
done
is 'no file has the name -' absent ./-
echo before > more.ts
"$program" run --plan plan.toml --out - >> more.ts 2> err < /dev/null
is 'what was there is not overwritten' [ "$(head -c 7 more.ts)" = before ]
"$program" run --plan plan.toml --out - < /dev/null 2> err >> north.ts
is 'an input is no standard output' same north.ts north.kept

# An input of as many bytes as it may have, and of one more; what is behind its packets are zeros that take no room.
sed 's|"north.ts"|"long.ts"|' plan.toml > long.toml
cp north.ts long.ts
truncate -s 3154116609 long.ts
for word in '' --serial; do
    run run --plan long.toml --out long.out $word
    is "an input past its limit fails $word" [ "$status" = 4 ]
    is "it is named $word" [ "$(head -n 1 err)" = 'fault file long.ts' ]
    is "it is told as too long $word" has err 'it has more than 3154116608 bytes'
    is "its run leaves no output $word" absent long.out
    is "what stands before its limit was framed $word" has out 'input 0 framed 2001 '
done
truncate -s 3154116608 long.ts
for word in '' --serial; do
    run run --plan long.toml --out long.out $word
    is "an input to its limit is read $word" [ "$status" = 0 ]
    is "its output is the same $word" same long.out whole.ts
done
rm -f long.*

# What can be read only once.
sed 's|"north.ts"|"-"|' plan.toml > standard.toml
for word in '' --serial; do
    rm -f standard.ts
    cat north.ts | "$program" run --plan standard.toml --out standard.ts $word > out 2> err
    is "standard input from a pipe $word" same standard.ts whole.ts
done
"$program" run --plan standard.toml --out standard.ts > out 2> err < north.ts
is 'standard input from a file' same standard.ts whole.ts
mkfifo pipe
sed 's|"north.ts"|"pipe"|' plan.toml > pipe.toml
cat north.ts > pipe &
run run --plan pipe.toml --out pipe.ts
is 'an input from a named pipe' same pipe.ts whole.ts
cat north.ts > pipe &
run run --plan pipe.toml --out some.pipe.ts --slots 100 --serial
is 'a pipe that is not read to its end is told' has err 'end: the slot limit: input 0 was not read to its end'
cat north.ts > pipe &
run check --plan pipe.toml
is 'a pipe is not measured' has err 'rate: input 0 is not measured: it can be read only once'
sed 's|"south.ts"|"-"|' standard.toml > both.toml
cat north.ts | "$program" run --plan both.toml --out both.ts > out 2> err
is 'two inputs are not one pipe' [ $? = 4 ]
is 'that is explained' has err 'it can be read only once, and is asked for twice'
"$program" check --plan <(cat plan.toml) > out 2> err
is 'a plan from a pipe' [ $? = 0 ]
sed 's|"south.ts"|"pipe"|' pipe.toml > twice.toml
cat north.ts > pipe &
run check --plan twice.toml
is 'two inputs are not one named pipe' has err 'pipe: it can be read only once, and is asked for twice'
sed 's|"north.ts"|"/dev/zero"|' plan.toml > endless.toml
run check --plan endless.toml
is 'what is kept is bounded' has err 'its tables are not in its first 67108864 bytes'

# Closed files.
"$program" run --plan plan.toml --out closed.ts <&- >&- 2>&-
is 'closed standard files leave the output whole' same closed.ts whole.ts
"$program" run --plan plan.toml --out - > /dev/null 2> err >&-
is 'a multiplex for a closed file is not lost in silence' [ $? = 4 ]
is 'that is told' has err 'Bad file descriptor'
run run --plan plan.toml --out /dev/full
is 'a full device is told' has err 'No space left on device'

# Plans that are no plans.
seq -f 'key%.0f = 1' 200000 > large.toml
started=$SECONDS
run check --plan large.toml
is 'a plan of megabytes is refused' [ "$status" = 4 ]
is 'at once' [ $((SECONDS - started)) -lt 10 ]
is 'with a reason' has err 'it has more than 1048576 bytes'

grep -v '^ring' plan.toml > noring.toml
run check --plan noring.toml
is 'a missing key is named' has err "missing key 'ring' at the top"
sed '0,/^leak = 2000000$/{//d}' plan.toml > noleak.toml
run check --plan noleak.toml
is 'a key that a table lacks is told with its line' has err "line 39: missing key 'leak'"
printf 'rate = 1\nperiod = = 2\n' > syntax.toml
run check --plan syntax.toml
is 'a line that is no TOML is named' has err 'line 2: '

# Plans that don't fit their inputs.
sed '0,/^program = 1$/s//program = 9/' plan.toml > program.toml
run check --plan program.toml
is 'a plan that asks for no program stays at fault' [ "$(head -n 1 err)" = 'fault 5 NoProgram' ]
is 'its status stays' [ "$status" = 3 ]
is 'its service is named' has err "service 101 (input 0, program 9): the input has no such program; its PAT has program 1"
sed 's|^pid = 260$|pid = 261|' plan.toml > row.toml
run check --plan row.toml
is 'a stream without a row is named' has err 'service 103 (input 1, program 2): its PMT names PID 0x0104 '
sed 's|^period = 250$|period = 1|' plan.toml > period.toml
run run --plan period.toml --out period.ts
is 'a period that is too short is told' has err 'period is 1, at least '
is 'it leaves no output' absent period.ts

# Inputs that are no streams.
: > empty.ts
head -c 100000 /dev/zero > zeros.ts
for ((k = 0; k < 20; k++)); do printf 'G'; head -c 203 /dev/zero; done > long.ts
for name in empty zeros long; do sed "s|\"north.ts\"|\"$name.ts\"|" plan.toml > $name.toml; done
run check --plan empty.toml
is 'the fault of an empty input stays' [ "$(head -n 1 err)" = 'fault 5 NoProgram' ]
is 'an empty input is told' has err 'empty.ts: it is empty'
run check --plan zeros.toml
is 'a file without a sync byte is told' has err 'zeros.ts: it has no sync byte'
run check --plan long.toml
is 'packets of 204 bytes are told' has err 'long.ts: it looks like packets of 204 bytes: state size = 204'
sed 's|^file = "long.ts"$|&\nsize = 204|' long.toml > sized.toml
run check --plan sized.toml
is 'packets of a size that is stated are read' has err 'it has no complete PAT'

# Words.
run check --plan $'\xff.toml'
is 'a name that is no text' [ "$status" = 2 ]
is 'that is told' has err 'UTF-8'
# Through rings as long as the example's a run in threads may have read all of an input by then.
sed 's|^ring = 1024$|ring = 64|' plan.toml > ring.toml
for word in '' --serial; do
    run run --plan ring.toml --out "some$word.ts" --slots 1000 $word
    is "the slot limit is told $word" has err 'end: the slot limit: input 0 was read to '
done
is 'a run of some slots writes the same in one thread' same some.ts some--serial.ts
run check --plan none.toml
is 'a file that is not there' has err 'none.toml: it can'"'"'t be opened: No such file or directory'

# However the threads run.
same_bytes=0
for ((turn = 0; turn < 200; turn++)); do
    run run --plan plan.toml --out turn.ts
    cat out err > turn.totals
    same turn.ts serial.ts && same turn.totals serial.totals && same_bytes=$((same_bytes + 1))
done
is '200 runs in threads do what the run in one thread does' [ "$same_bytes" = 200 ]

echo "$passed passed, $failed failed"
[ "$failed" = 0 ]
