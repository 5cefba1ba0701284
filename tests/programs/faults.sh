# Input that fails midway, and a list of names that has no end.

# PROGRAM ARGUMENTS..: runs it on a terminal's input that gives the bytes of standard input and then fails, as the other side has hung up.
unread() {
    timeout 20 python3 -c 'if True:
        import os, pty, subprocess, sys, tty
        near, far = pty.openpty()
        tty.setraw(far)
        os.write(far, sys.stdin.buffer.read())
        os.close(far)
        sys.exit(subprocess.run(sys.argv[1:], stdin=near).returncode)' "$bin/$1" "${@:2}"
}

failure='standard input: Input/output error'

# whole lines are named; what stands after the last line end may be cut, so it is no line
try "a cut line" "printf '0 0\n900000000 66666' | unread name_fixes 0 0 0" 'Q\n' "name_fixes: $failure"
try "a cut line alone" "printf '900000000 66666' | unread name_fixes 0 0 0" '' "name_fixes: $failure"
try "a cut line that is no fix" "printf '0 0\n-1800000000 0\nx' | unread name_fixes 0 0 0" 'Q\nO\n' "name_fixes: $failure"
try "a failure after a line end" "printf 'x\n0 0\n' | unread name_fixes 0 0 0" '6\nQ\n' "name_fixes: $failure"
try "a failure at once" "printf '' | unread name_fixes 0 0 0" '' "name_fixes: $failure"

# what was flown before the failure is written; the line that it cut is none
try "a flight that fails midway" "printf '0 0\n-900000000 66666' | unread record 0 0 0" "${H}Q" "record: $failure; 1+0+0"
try "a flight that fails after a line" "printf '0 0\n' | unread record 0 0 0" "${H}Q" "record: $failure; 1+0+0"
for flight in '900000000 66666' ''; do
    try "a flight that fails in its first line" "printf '$flight' | unread record 0 0 0" "$H" "record: $failure; 0+0+0"
done
try "a bad line before the failure" "printf 'x\n0 0\n-900000000 0' | unread record 0 0 0" "${H}Q" "line 1: 6; record: $failure; 1+1+0"
for names in 'P3\nP4' 'P3' 'P3\n' ''; do
    try "a list that fails midway" "printf '$names' | unread coverage write 0 0" '' "coverage: $failure"
done

# the first bad name ends the list, however long it is
try "bad names without end" "yes X 2>/dev/null | timeout 10 '$bin/coverage' write 0 0" '' 'line 1: 1'
try "good names, then bad ones without end" "(printf 'P3\nP41\n'; yes P9 2>/dev/null) | timeout 10 '$bin/coverage' write 0 0" '' 'line 3: 3'
try "a bad name, then good ones without end" "(echo $(times 17 P); yes P 2>/dev/null) | timeout 10 '$bin/coverage' write 0 0" '' 'line 1: 2'

# where standard output fails the program stops there, and says so once; whoever reads a pipe no longer ends it
full='standard output: No space left on device'
printf "${H}OP(34(1))" >flown.cvr
printf "${H}NOQRS" >other.cvr
try "three listings on a full device" "compare flown.cvr other.cvr >/dev/full" '' "$full"
try "a refusal on a full device" "compare flown.cvr /dev/null >/dev/full" '' "$full; 9 at place 0"
try "names on a full device" "coverage list flown.cvr >/dev/full" '' "$full"
try "a frame on a full device" "coverage frame flown.cvr 9 >/dev/full" '' "$full"
try "names in parts on a full device" "coverage list full.cvr >/dev/full" '' "$full"
try "listings in parts on a full device" "compare full.cvr other.cvr >/dev/full" '' "$full"
for command in "compare full.cvr other.cvr" "coverage list full.cvr" "coverage frame flown.cvr 9"; do
    try "a pipe that nobody reads" "$command | true" '' ''
done
