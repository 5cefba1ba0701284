# Arguments: none, too few, too many, wrong ones. "Says on standard error how it is used, and writes nothing to standard output."

for program in record name_fixes; do
    for words in '' '0' '0 0' '0 0 9 0 0' 'a 0 9' '0 b 9' '0 0 c' '-1 0 9' '0 -1 9' '0 0 -1' '+0 0 9' '0.0 0 9' '0x0 0 9' \
        '99999999999999999999 0 9' '0 0 99999999999999999999' "'' 0 9" "0 '' 9" "0 0 ''" "' 0' 0 9" "0 0 '9 '" '--help' '-h 0 9' \
        '0 0 9 a' '0 0 9 -1' '0 0 9 +1' "0 0 9 ''" '0 0 9 0.0' '0 0 9 99999999999999999999' '0 0 9 6,694,379,990'; do
        try "wrong arguments" "$program $words </dev/null" '' "usage $program"
    done
    # 5 comes before 2
    for words in '4 0 9' '0 4 9' '4 4 9' '4 0 16' '0 4 16' '4 0 999' '256 0 9' '4294967296 0 9' '9223372036854775807 0 9' '4 0 16 10000000001'; do
        try "n or s above 3" "$program $words </dev/null" '' "5; usage $program"
    done
    for words in '0 0 16' '3 3 16' '0 0 256' '0 0 4294967296' '0 0 16 0' '0 0 16 10000000001'; do
        try "resolution above 15" "$program $words </dev/null" '' "2; usage $program"
    done
    for words in '0 0 9 10000000001' '3 3 15 4294967296000' '0 0 9 9223372036854775807'; do
        try "an eccentricity out of range" "$program $words </dev/null" '' "6; usage $program"
    done
done

for words in 'to f' '0 to f' '0 0 to f' '0 0 9 to' '0 0 9 0 to' "0 0 9 to ''" '0 0 9 to a b' '0 0 9 0 to a b' '0 0 9 0 0 to a' '0 0 9 a to f' '0 0 9 To f' '0 0 9 0 for f' \
    "0 0 9 to $(times 4081 x)"; do
    try "a file wrongly given" "record $words </dev/null" '' 'usage record'
done
try "5 with a file" 'record 4 0 9 to f </dev/null' '' '5; usage record'
try "2 with a file" 'record 0 0 16 to f </dev/null' '' '2; usage record'
try "6 with a file" 'record 0 0 9 10000000001 to f </dev/null' '' '6; usage record'
try "no file was made" 'ls f' '' '*No such file or directory'
try "name_fixes keeps no file" 'name_fixes 0 0 9 to f </dev/null' '' 'usage name_fixes'

for words in '' check list ask write 'check a b' 'list a b' 'ask a' 'ask a N b' 'write 0' 'write 0 0 0 0' 'CHECK a' 'checks a' 'chec a' "'' a" \
    'reading a' '--help' 'write a 0' 'write 0 b' "write '' 0" "write 0 ''" 'write -1 0' 'write 0 -1' 'write 99999999999999999999 0' \
    'write 0 0 a' "write 0 0 ''" 'write 0 0 -1' 'write 0 0 +1' 'write 0 0 1.0' "write 0 0 ' 1'" "write 0 0 '1 '" 'write 0 0 99999999999999999999' \
    "$(times 5000 x) a"; do
    try "wrong arguments" "coverage $words </dev/null" '' 'usage coverage'
done
# 5 comes before 2
for words in '4 0' '0 4' '256 0' '4 0 2' '0 4 16' '4 0 16'; do
    try "n or s above 3" "echo N | coverage write $words" '' '5; usage coverage'
done
for words in '0 0 16' '3 3 17' '0 0 256' '0 0 258' '0 0 4294967296' '0 0 4294967298'; do
    try "depth above 15" "echo N | coverage write $words" '' '2; usage coverage'
    try "depth above 15 and a bad name" "echo X | coverage write $words" '' '2; usage coverage'
done
