# coverage rescue FILE: the proper text of a hand-edited one on standard output, and on standard error a line `PLACE KIND: WORDS` for each change, in
# order of place and then kind; or nothing and the refusal.

# what each kind means, as the program says it
one='1: named already, or inside a whole cell'
two='2: not above the one right before it'
three='3: an empty list'
four='4: whole by its parts'

# BODY PROPER CHANGE..: a body that comes back as this proper one; a change is `PLACE KIND`
rescued() {
    local body=$1 proper=$2 change said_then= words
    shift 2
    for change; do
        words=("" "$one" "$two" "$three" "$four")
        said_then+="${said_then:+; }${change% *} ${words[${change#* }]}"
    done
    printf '%b' "$H$body" >edited.cvr
    try "rescued" "coverage rescue edited.cvr # $body" "$H$proper" "$said_then"
    try "what comes is accepted" "coverage rescue edited.cvr 2>said_first >proper.cvr; coverage check proper.cvr | cut -d ' ' -f 1" '0\n' ''
    try "and comes back unchanged" 'coverage rescue proper.cvr' @proper.cvr ''
}

# BODY PLACE [HEADING]: a text that is not of the looser form
not_rescued() {
    printf '%b' "${3-$H}$1" >bad.cvr
    try "not to be rescued" "coverage rescue bad.cvr # $1" '' "9 at place $2"
}

# proper texts
for body in '' P 'P(34(1))' NOPQRS 'O(01234567)' 'O(01234567(0)8)' 'N(4(4(4)))S(8)'; do rescued "$body" "$body"; done
try "65,536 bytes" 'coverage rescue full.cvr' @full.cvr ''
try "a pipe" 'coverage rescue <(cat two.cvr)' @two.cvr ''
printf '%b' 'CVR\x00\x0132O(01235678)' >other.cvr
try "another arrangement" 'coverage rescue other.cvr' @other.cvr ''
printf '%b' 'CVR\x00\x0132O(875321)' >edited.cvr
try "another arrangement, edited" 'coverage rescue edited.cvr 2>said_of_it' 'CVR\x00\x0132O(123578)' ''

# out of order, twice, one inside another
rescued PO OP '8 2'
rescued SRQPON NOPQRS '8 2' '9 2' '10 2' '11 2' '12 2'
rescued PP P '8 1' '8 2'
rescued OPO OP '9 1' '9 2'
rescued QOP OPQ '8 2'
rescued 'O(10)' 'O(01)' '10 2'
rescued 'O(121)' 'O(12)' '11 1' '11 2'
rescued 'O(1)O' O '9 1' '11 2'
rescued 'OO(1)' O '8 2' '10 1'
rescued 'O(1)PO' OP '9 1' '12 2'
rescued 'O(1)O(0)' 'O(01)' '11 2'
rescued 'O(3(4)3(4))' 'O(3(4))' '13 2' '15 1'
rescued 'O(3(4)3)' 'O(3)' '11 1' '13 2'
rescued 'O(5(4)3)' 'O(35(4))' '13 2'

# empty lists cover nothing
rescued 'O()' '' '8 3'
rescued 'O(1())' '' '10 3'
rescued 'O()P' P '8 3'
rescued 'O(1()2)' 'O(2)' '10 3'
rescued 'O()O' O '8 3' '10 2'
rescued 'OO()' O '8 2' '9 3'
rescued 'O(1(2()))' '' '12 3'

# nine whole siblings, in one list or in several
rescued 'O(012345678)' O '7 4'
rescued 'O(876543210)' O '7 4' '10 2' '11 2' '12 2' '13 2' '14 2' '15 2' '16 2' '17 2'
rescued 'O(0123)O(45678)' O '7 4' '14 2'
rescued 'P(0)O(012345678)' 'OP(0)' '11 2' '11 4'
rescued 'O(0(012345678)12345678)' O '7 4'
rescued 'O(0(012345678)1)' 'O(01)' '9 4'
rescued 'O(012345678)O' O '9 1' '10 1' '11 1' '12 1' '13 1' '14 1' '15 1' '16 1' '17 1' '19 2'

# the sample that a person edited; its places and kinds
body='P(34(1)3)N(012345678)Q(8(7)7())O(2)O(01)S(5)S' proper='NO(012)P(34(1))Q(8(7))S'
changes=('14 1' '14 2' '16 2' '16 4' '34 2' '35 3' '38 2' '42 2' '49 1' '51 2')
try "the sample" "cat '$root/examples/hand_edited.cvr'" "$H$body" ''
rescued "$body" "$proper" "${changes[@]}"
try "what is said of it" "coverage rescue '$root/examples/hand_edited.cvr' 2>&1 >rescued.cvr" \
    "14 $one\n14 $two\n16 $two\n16 $four\n34 $two\n35 $three\n38 $two\n42 $two\n49 $one\n51 $two\n" ''
try "its proper text" 'cat rescued.cvr' "$H$proper" ''

# as deep as a text may be
deep=$(times 14 '(0') && shut=$(times 14 ')')
rescued "O$deep(01)$shut" "O$deep(01)$shut"
rescued "O$deep(10)$shut" "O$deep(01)$shut" '38 2'
rescued "O$deep()$shut" '' '36 3'
rescued "O$deep(012345678)$shut" "O$deep$shut" '35 4'

# not of the looser form
not_rescued 'O(1' 10
not_rescued 'O(' 9
not_rescued 'O)' 8
not_rescued 'O((' 9
not_rescued 'O()(' 10
not_rescued 'O(1)(2)' 11
not_rescued 'O(1))' 11
not_rescued 'O(P)' 9
not_rescued 'O1' 8
not_rescued 'O(9)' 9
not_rescued '()' 7
not_rescued T 7
not_rescued o 7
not_rescued 'OP\n' 9
not_rescued 'O (1)' 8
not_rescued "O$deep(0(" 38
not_rescued "O$deep(0()" 38
not_rescued '' 0 ''
not_rescued '' 4 'CVR\x00'
not_rescued '' 3 'CVR\x01'
not_rescued '' 2 'CVX\x00\x02'
not_rescued '' 5 'CVR\x00\x01'
not_rescued '' 5 'CVR\x00\x0140'
not_rescued '' 6 'CVR\x00\x010/'
not_rescued '' 0 '\xef\xbb\xbfCVR\x00\x0100'
for heading in 'CVR\x00\x02' 'CVR\x00\x0200cP(34(1))' 'CVR\x00\x0300' 'CVR\x01\x0100' 'CVR00'; do # version 1 only
    printf '%b' "$heading" >bad.cvr
    try "another version" 'coverage rescue bad.cvr' '' 10
done
(cat full.cvr; printf P) >long.cvr
try "a text over 65,536 bytes" 'coverage rescue long.cvr' '' 13
try "a text without end" 'coverage rescue /dev/zero' '' 13

# as many bytes and changes as there can be
{ printf '%b' "$H"; times 65529 O; } >many.cvr
try "one face 65,529 times" 'coverage rescue many.cvr 2>many.said' "${H}O" ''
try "two changes for each but the first" 'wc -l <many.said' '131056\n' ''
try "the first and the last of them" 'sed -n "1p;2p;\$p" many.said' "8 $one\n8 $two\n65535 $two\n" ''
(printf '%b' "$H"; tail -c +8 full.cvr | tr 012345678 876543210) >turned.cvr
try "65,536 bytes in falling order" 'coverage rescue turned.cvr 2>turned.said | coverage check /dev/stdin | cut -d " " -f 1,7' '0 46086\n' ''
try "only the order changed" 'cut -d " " -f 2- turned.said | sort -u' "$two\n" ''

# files and devices
try "no such file" 'coverage rescue missing' '' 'coverage: missing: No such file or directory'
try "a folder" 'coverage rescue .' '' 'coverage: .: Is a directory'
for file in two.cvr full.cvr; do
    try "a full disk" "{ coverage rescue $file >/dev/full; } 2>&1 | uniq >&2" '' 'standard output: No space left on device'
    try "no output" "{ coverage rescue $file 3>&2 2>&1 >&- | uniq >&3; } 3>&2" '' 'standard output: Bad file descriptor'
done
try "a full disk, and what was changed" "coverage rescue '$root/examples/hand_edited.cvr' >/dev/full" '' '*14 1: *; 51 2: *'
try "a full disk, and what was changed" "coverage rescue '$root/examples/hand_edited.cvr' >/dev/full" '' '*standard output: No space left on device*'
for words in rescue 'rescue a b' 'rescues a' 'rescu a' 'RESCUE a'; do
    try "wrong arguments" "coverage $words" '' 'usage coverage'
done
