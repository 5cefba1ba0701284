# coverage frame: the four edges in metres of the frame around a text's whole cells, as the bits of doubles. Each comes from the exact product and the
# exact quotient, as fractions, each made the nearest double.

# SIDE LEFT BOTTOM RIGHT TOP [FILE]
framed() { try "a frame" "coverage frame ${6-two.cvr} $1" "$2 $3 $4 $5\n" ''; }

printf '%b' "${H}P(34(1))" >two.cvr
framed 1 3ff0000000000000 bfc5555555555555 3ff8e38e38e38e39 3fc5555555555555 # 1, -1/6, 14/9, 1/6
framed 1.0 3ff0000000000000 bfc5555555555555 3ff8e38e38e38e39 3fc5555555555555
framed 1.00000000000000 3ff0000000000000 bfc5555555555555 3ff8e38e38e38e39 3fc5555555555555 # 15 digits
framed 1073741824 41d0000000000000 c1a5555555555555 41d8e38e38e38e39 41a5555555555555
framed 1073741824.0000 41d0000000000000 c1a5555555555555 41d8e38e38e38e39 41a5555555555555
framed 10000000 416312d000000000 c1396e6aaaaaaaab 416dab7c71c71c72 41396e6aaaaaaaab
framed 1000.1 408f40cccccccccd c064d5dddddddddf 40984ed82d82d82e 4064d5dddddddddf
framed 10007557.176 41631680a5a1cac1 c1397356322d0e56 416db139e53490bb 41397356322d0e56
framed 3.14159265358979 400921fb54442d11 bfe0c152382d7361 40138c35418a5bf1 3fe0c152382d7361
framed 1.05 3ff0cccccccccccd bfc6666666666667 3ffa222222222223 3fc6666666666667 # a zero behind the point
framed 00001.5 3ff8000000000000 bfd0000000000000 4002aaaaaaaaaaab 3fd0000000000000
framed 0000000000001.1 3ff199999999999a bfc7777777777778 3ffb60b60b60b60c 3fc7777777777778
printf '%b' "${H}NOPQRS" >all.cvr
framed 1 0000000000000000 bff8000000000000 4010000000000000 3ff8000000000000 all.cvr
printf '%b' "CVR\x00\x0132N(8)S(0)" >caps.cvr
framed 1000.1 409f40cccccccccd c08a0b5555555555 40af40cccccccccd 408a0b5555555555 caps.cvr # N above R, S below Q
printf '%b' "CVR\x00\x0200cP(34(1))" >hand.cvr
framed 1 3ff0000000000000 bfc5555555555555 3ff8e38e38e38e39 3fc5555555555555 hand.cvr
framed 1 3ff0000000000000 bfc5555555555555 3ff8e38e38e38e39 3fc5555555555555 '<(cat two.cvr)'

# a text that covers nothing
try "no frame" 'coverage frame heading.cvr 1' '' ''
try "no frame, on a handheld" "printf 'CVR\0\00200a' | coverage frame /dev/stdin 1" '' ''

# 19, of the side, comes before the text's refusals
printf '%b' "${H}O()" >bad.cvr
printf '%b' 'CVR\x00\x0300' >version.cvr
head -c 65537 /dev/zero >long.cvr
for side in 0 0.0 0.99999999999999 1073741825 1073741824.00001 999999999999999 2147483648 1.000000000000000 1000000000000000 0000000000000001 \
    -1 +1 1e7 1E7 0x10 nan inf NaN infinity . .5 1. 1..0 1.0.0 '1,5' "''" "' 1'" "'1 '" 1_000 "$(times 16 1)" "$(times 63 1)" "$(times 64 1)" \
    "$(times 5000 1)" "1.$(times 5000 0)"; do
    for file in two heading bad version long; do
        try "no side" "coverage frame $file.cvr $side" '19\n' 19
    done
done
try "no text" 'coverage frame bad.cvr 1' '9\n' '9 at place 9'
try "another version" 'coverage frame version.cvr 1' '10\n' 10
try "a long text" 'coverage frame long.cvr 1' '13\n' 13
try "no such file" 'coverage frame missing 1' '' 'coverage: missing: No such file or directory'
try "no such file and no side" 'coverage frame missing x' '' 'coverage: missing: No such file or directory'
for words in frame 'frame a' 'frame a 1 b' 'frames a 1' 'FRAME a 1'; do
    try "wrong arguments" "coverage $words" '' 'usage coverage'
done
