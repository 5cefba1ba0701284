# The settings of the office in a file (02 W-209): commands, refusals, files that are none, and a program that is interrupted.

for words in '' f 'f fresh' 'f fresh 0 0 9' 'f fresh 0 0 9 0 0' 'f fresh a 0 9 0' 'f fresh 0 b 9 0' 'f fresh 0 0 c 0' 'f fresh 0 0 9 d' 'f fresh -1 0 9 0' \
    "f fresh '' 0 9 0" 'f fresh 0 0 9 99999999999999999999' 'f change 0 0 0 9' 'f change 0 0 0 9 0 0' 'f change a 0 0 9 0' 'f change 0 0 0 9 +1' \
    'f back 0' 'f back 0 0 0' 'f back a 0' 'f back 0 a' 'f read' 'f read a' 'f read 0 0' 'f list 0' 'f lists' 'f LIST' "f ''" 'list f' '--help' \
    'fresh 0 0 9 0' "f $(times 5000 x)"; do
    try "wrong arguments" "mkdir -p none; cd none; settings $words; ls" '' 'usage settings'
done

# in a folder of its own, where nothing else is left behind
office() { mkdir -p office && (cd office && settings office.set "$@" && ls); }
fresh() { rm -rf office && mkdir office && (cd office && settings office.set fresh 0 0 9 6694379990 >/dev/null); }

try "fresh" "rm -rf office; office fresh 0 0 9 6694379990" '0\noffice.set\n' ''
printf 'JGS\x00\x01\x00\x00\x00\x00\x09\x01\x8f\x04\x21\xd6' >expected
head -c 248 /dev/zero >>expected
try "its bytes" "cat office/office.set" '@expected' ''
try "fresh again" "office fresh 1 1 1 1" 'office.set\n' 'settings: office.set: it is there already, and a fresh history would destroy it'
try "and nothing is destroyed" "cat office/office.set" '@expected' ''
try "change" "office change 0 1 2 10 0" '1\noffice.set\n' ''
try "a stale change" "office change 0 1 2 10 0" 'office.set\n' 16
try "a change of a revision to come" "office change 2 1 2 10 0" 'office.set\n' 16
try "back" "office back 1 0" '2\noffice.set\n' ''
try "read" "cd office; settings office.set read 1" '1 2 10 0\n' ''
try "read what is to come" "cd office; settings office.set read 3" '' 18
try "list" "cd office; settings office.set list" '0 0 0 9 6694379990\n1 1 2 10 0\n2 0 0 9 6694379990\n' ''

# contents by 5, 2 and 6, before 16; 18 before 16
for words in '4 0 16 10000000001 5' '0 4 16 10000000001 5' '3 3 16 10000000001 2' '3 3 15 10000000001 6' '0 0 9223372036854775807 0 2'; do
    set -- $words
    try "bad contents" "office change 0 $1 $2 $3 $4" 'office.set\n' "$5"
    try "bad contents of a fresh history" "rm -rf none; mkdir none; cd none; settings f fresh $1 $2 $3 $4; ls" '' "$5"
done
for words in '2 3' '0 3' '2 9223372036854775807'; do
    try "back to what is not kept" "office back $words" 'office.set\n' 18
done
try "back, stale" "office back 1 0" 'office.set\n' 16
try "still the same" "cd office; settings office.set list" '0 0 0 9 6694379990\n1 1 2 10 0\n2 0 0 9 6694379990\n' ''

# the thirty-third drops the oldest
fresh
for revision in $(seq 0 30); do (cd office && settings office.set change $revision 0 0 $((revision % 16)) $revision >/dev/null); done
try "32 revisions" "cd office; settings office.set list | sed -n '1p;32p;33p'" '0 0 0 9 6694379990\n31 0 0 14 30\n' ''
try "the 33rd" "cd office; settings office.set change 31 3 3 3 3; settings office.set list | sed -n '1p;32p;33p'" '32\n1 0 0 0 0\n32 3 3 3 3\n' ''
try "the oldest is dropped" "cd office; settings office.set read 0; settings office.set back 32 0" '' '18; 18'

# the last revision
fresh
printf '\xff\xff' | dd of=office/office.set bs=1 seek=5 conv=notrunc 2>/dev/null
try "not all places are reached" "cd office; settings office.set list | wc -l" '32\n' '' # zeros are settings too
try "past the last revision" "office change 65535 0 0 0 0" 'office.set\n' 17

# files
fresh
mkdir files
cp office/office.set files/good
for length in 0 1 3 5 6 7 8 100 262; do
    head -c $length files/good >files/cut
    try "a history of $length bytes" "cd files; settings cut list" '' "9 at place $length"
done
(cat files/good && printf '\x00') >files/long
try "a byte too many" "cd files; settings long list" '' '9 at place 263'
try "a byte too many, to be changed" "cd files; settings long change 0 0 0 0 0; ls; wc -c <long" 'cut\ngood\nlong\n264\n' '9 at place 263'
for patch in '0 K 0' '3 \x01 3' '4 \x02 4' '7 \x04 7' '8 \x04 8' '9 \x10 9' '10 \x03 10' '15 \x01 15' '262 \x01 262'; do
    set -- $patch
    cp files/good files/bad
    printf "$2" | dd of=files/bad bs=1 seek=$1 conv=notrunc 2>/dev/null
    try "byte $1 is wrong" "cd files; settings bad read 0" '' "9 at place $3"
done
try "no file" "cd files; settings missing list" '' 'settings: missing: No such file or directory'
try "no file to change" "cd files; settings missing change 0 0 0 0 0; ls" 'bad\ncut\ngood\nlong\n' 'settings: missing: No such file or directory'
try "a folder" "cd files; mkdir folder; settings folder list; settings folder fresh 0 0 0 0; ls -d folder*" 'folder\n' \
    'settings: folder: Is a directory; settings: folder: it is there already, and a fresh history would destroy it'
try "no folder" "cd files; settings nowhere/f fresh 0 0 0 0" '' 'settings: nowhere/f.part: No such file or directory'
try "a name too long" "settings $(times 5000 x) list" '' 'settings: FILE: File name too long'
try "in a folder" "cd files; settings folder/f fresh 0 0 0 0; settings ./folder/../folder/f change 0 1 1 1 1; ls folder" '0\n1\nf\n' ''
try "another change is being made" "cd files; touch good.part; settings good change 0 1 1 1 1; ls good*" 'good\ngood.part\n' \
    'settings: good.part: File exists; settings: another change is being made, or one was cut off; if none is being made, remove that file'
try "reading goes on" "cd files; settings good read 0" '0 0 9 6694379990\n' ''
try "and then no more" "cd files; rm good.part; settings good change 0 1 1 1 1; ls good*" '1\ngood\n' ''
try "no room for the answer" "cd files; settings good change 1 2 2 2 2 >/dev/full; settings good read 2" '2 2 2 2\n' 'standard output: No space left on device'

# settings for the recorder's programs: they say which revision is used. On a sphere 01's line 6 is N6 at n = 1,
# and line 5 is N8 at n = 0
rm -rf office && mkdir office
(cd office && settings office.set fresh 0 0 1 0 && settings office.set change 0 1 0 1 0) >/dev/null
for program in record name_fixes; do
    eval "used() { (cd office && echo -900000000 880000000000000000 | $program settings office.set \${1-}); }"
    case $program in
    record) answer='CVR\x00\x0110N(6)' older='CVR\x00\x0100N(8)' taken='; 1+0+0' ;;
    *) answer='N6\n' older='N8\n' taken= ;;
    esac
    try "$program with the newest revision" "used" "$answer" "$program: revision 1 of office.set$taken"
    try "$program with a revision" "used 1" "$answer" "$program: revision 1 of office.set$taken"
    try "$program with an older one" "used 0" "$older" "$program: revision 0 of office.set$taken"
    try "$program with what is to come" "used 2" '' "18; usage $program"
    try "$program with no revision" "used x" '' "usage $program"
    try "$program with too many words" "used '0 0'" '' "usage $program"
    for words in settings 'settings office.set 0 to' 'settings office.set 0 0 to f' 'settings office.set to a b' 'Settings office.set' 'settings to'; do
        try "$program wrongly given" "cd office; $program $words </dev/null; ls" 'office.set\n' "*usage $program"
    done
    try "$program with no history" "$program settings nothing </dev/null" '' "$program: nothing: No such file or directory; usage $program"
    try "$program with a file that is none" "$program settings files/cut </dev/null" '' "9 at place 262; usage $program"
done

# and record keeps the text in a file with them too
flown() { (cd office && rm -f kept && echo -900000000 880000000000000000 | record settings "$@" >/dev/null && cat kept && ls); }
try "kept, with the newest revision" "flown office.set to kept" 'CVR\x00\x0110N(6)kept\noffice.set\n' 'record: revision 1 of office.set; 1+0+0'
try "kept, with a revision" "flown office.set 0 to kept" 'CVR\x00\x0100N(8)kept\noffice.set\n' 'record: revision 0 of office.set; 1+0+0'
try "a history in a file called to" "mkdir called; cp office/office.set called/to; cd called; record settings to to kept </dev/null; cat kept" 'CVR\x00\x0110CVR\x00\x0110' \
    'record: revision 1 of to; 0+0+0'
rm office/kept
try "kept, no such revision" "cd office; record settings office.set 2 to kept </dev/null; ls" 'office.set\n' '18; usage record'
try "kept, no revision" "cd office; record settings office.set x to kept </dev/null; ls" 'office.set\n' 'usage record'
try "kept, no name" "cd office; record settings office.set to '' </dev/null; ls" 'office.set\n' 'record: revision 1 of office.set; usage record'
try "name_fixes keeps no file" "cd office; name_fixes settings office.set to kept </dev/null; ls" 'office.set\n' 'usage name_fixes'

# interrupted at every call of the system, each call failing, and killed at random moments
gcc -shared -fPIC -O1 -o failing.so "$root/tests/programs/failing.c" -ldl
mkdir interrupted
try "interrupted" "cd interrupted; '$root/tests/programs/interrupted' '$bin' '$scratch/failing.so'" 'always whole\n' '* times that of before, * times that of after'
