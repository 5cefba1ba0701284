# record .. to FILE: the file has the text so far after each 1,200 lines in which the text changed, and at the end, and is whole at any moment.

flight="$root/examples/flight/flight.txt"
try "a kept flight" "record 0 0 9 to kept.cvr <'$flight' >flown && cmp flown kept.cvr" '' 3972+0+0
try "the kept text is the sample's" "record 0 0 9 to kept.cvr <'$flight' >/dev/null 2>&1; coverage list kept.cvr | wc -l" '342\n' ''
try "a kept flight on WGS84" "record 0 0 9 6694379990 to kept.cvr <'$flight' >flown && cmp flown kept.cvr" '' 3972+0+0
try "no other file is left" 'ls kept.cvr*' 'kept.cvr\n' ''
try "nothing flown" 'record 1 2 9 to kept.cvr </dev/null' 'CVR\x00\x0112' 0+0+0
try "nothing flown, kept" 'cat kept.cvr' 'CVR\x00\x0112' ''
try "a file of that name gives way" "echo 0 0 | record 0 0 1 to kept.cvr >out1; cat kept.cvr" "${H}Q(3)" 1+0+0
try "a path with folders" 'mkdir -p a/b; echo 0 0 | record 0 0 1 to a/b/c >out1; cat a/b/c; ls a/b' "${H}Q(3)c\n" 1+0+0
try "a folder that is not there" 'echo 0 0 | record 0 0 1 to none/kept' "${H}Q(3)" 'record: none/kept.part: No such file or directory; 1+0+0'
mkdir -p folder
try "a folder in the file's place" 'echo 0 0 | record 0 0 1 to folder' "${H}Q(3)" 'record: folder: Is a directory; 1+0+0'
try "a file in a folder's place" 'echo 0 0 | record 0 0 1 to kept.cvr/f' "${H}Q(3)" 'record: kept.cvr/f.part: Not a directory; 1+0+0'
# what is beside cannot be synced, or the disk is full: the file is as it was, and nothing is left beside it
printf old >synced
try "what is beside cannot be synced" "ln -s /dev/null synced.part; echo 0 0 | record 0 0 1 to synced >out1; cat synced; ls synced*" 'oldsynced\n' \
    'record: synced.part: Invalid argument; 1+0+0'
printf old >nospace
try "a full disk" "ln -s /dev/full nospace.part; echo 0 0 | record 0 0 1 to nospace; cat nospace; ls nospace*" "${H}Q(3)oldnospace\n" \
    'record: nospace.part: No space left on device; 1+0+0'
try "a file of the one before beside" "echo half >halved.part; echo 0 0 | record 0 0 1 to halved >out1; cat halved; ls halved*" "${H}Q(3)halved\n" 1+0+0
try "an input that fails" "failing '0 0\\n' record 0 0 1 to kept.cvr >/dev/null; cat kept.cvr" "${H}Q(3)" 'record: standard input: *; 1+0+0'

# after so many lines: one writes into a pipe and looks at the file meanwhile
try "kept after 1,200 lines, and not before" "python3 - '$bin/record' <<'END'
import subprocess, sys, time
open('slow.cvr', 'wb').write(b'an old OLD') # seven bytes, as a heading has
recorder = subprocess.Popen([sys.argv[1], '0', '0', '1', 'to', 'slow.cvr'], stdin=subprocess.PIPE, stdout=subprocess.DEVNULL, stderr=subprocess.DEVNULL)
def kept(wanted):
    for _ in range(500):
        try:
            if open('slow.cvr', 'rb').read()[7:] == wanted: return True
        except FileNotFoundError: pass
        time.sleep(0.01)
    return False
def fly(line, count):
    recorder.stdin.write(line * count)
    recorder.stdin.flush()
fly(b'0 0\\n', 1199)
time.sleep(0.2)
assert kept(b'OLD')
fly(b'-900000000 0\\n', 1)
assert kept(b'P(3)Q(3)')
fly(b'0 0\\n', 1200)
fly(b'-1800000000 0\\n', 1199)
time.sleep(0.2)
assert kept(b'P(3)Q(3)')
recorder.stdin.close()
recorder.wait()
assert kept(b'O(3)P(3)Q(3)')
print('seen')
END" 'seen\n' ''

# killed a hundred times, each time while it reads: the file is as it was before the flight, or the text of a leading part of the flight, which ends with a
# minute's worth of lines. How much of the flight it was given, and how long ago, is drawn
try "killed at any moment" "python3 - '$bin' <<'END'
import os, random, signal, subprocess, sys, time
seed = int(os.environ.get('SECOND_SEED', random.randrange(2**32)))
draw = random.Random(seed)
minutes, bin = 30, sys.argv[1]
lines, longitude, z = [], -1000000000, 600000000000000000
for i in range(1200 * minutes):
    longitude += draw.randrange(9000)
    z += draw.randrange(-4 * 10**12, 4 * 10**12)
    lines.append(b'%d %d\\n' % (longitude, z))
def record(*words):
    return subprocess.Popen([bin + '/record', '0', '0', '8', *words], stdin=subprocess.PIPE, stdout=subprocess.PIPE, stderr=subprocess.DEVNULL)
old = b'old'
parts = {old: 0}
for minute in range(1, minutes + 1):
    text = record().communicate(b''.join(lines[:1200 * minute]))[0]
    parts.setdefault(text, minute)
seen, kept = set(), 0
for nth in range(100):
    open('killed.cvr', 'wb').write(old)
    given = draw.randrange(len(lines) + 1)
    flown = record('to', 'killed.cvr')
    flown.stdin.write(b''.join(lines[:given]))
    flown.stdin.flush()
    time.sleep(draw.choice((0, draw.uniform(0, 0.001), draw.uniform(0, 0.02))))
    assert flown.poll() is None, (seed, nth, 'it ended by itself')
    flown.send_signal(signal.SIGKILL)
    assert flown.wait() == -signal.SIGKILL, (seed, nth)
    text = open('killed.cvr', 'rb').read()
    assert text in parts, (seed, nth, len(text))
    seen.add(parts[text])
    if text == old: continue
    assert parts[text] * 1200 <= given, (seed, nth, given)
    checked = subprocess.run([bin + '/coverage', 'check', 'killed.cvr'], capture_output=True).stdout
    assert checked.startswith(b'0 '), (seed, nth, checked)
    kept += 1
assert kept > 50 and len(seen) > 10, (seed, kept, seen)
print('always a leading part')
END" 'always a leading part\n' ''

# what is said. A pipe that nobody reads can end whoever writes to it: the text comes first, in its file and on standard output, and then the words
try "nobody reads what is said" "python3 - '$bin/record' <<'END'
import os, signal, subprocess, sys
def fly(stderr):
    return subprocess.run([sys.argv[1], '0', '0', '1', 'to', 'said.cvr'], input=b'x\\n0 0\\ny\\n', stdout=subprocess.PIPE, stderr=stderr)
near, far = os.pipe()
os.close(near)
flown = fly(far)
assert flown.returncode in (0, -signal.SIGPIPE) and flown.stdout == open('said.cvr', 'rb').read() == b'CVR\\0\\x0100Q(3)', flown
os.remove('said.cvr')
read = fly(subprocess.PIPE)
assert read.returncode == 0 and read.stdout == flown.stdout, read
print(read.stderr.decode(), end='')
END" 'record: line 1: refusal 6: no fix, or a fix or an eccentricity out of range\nrecord: line 3: refusal 6: no fix, or a fix or an eccentricity out of range\nrecord: 1 fix taken, 2 lines refused with 6, 0 with 13\n' ''
try "standard error is closed" "printf 'x\\n0 0\\n' | record 0 0 1 to shut.cvr 2>&-; cmp shut.cvr <(printf '%b' '${H}Q(3)')" "${H}Q(3)" ''
try "a pipe has the first 256 refused lines, and the counts" "(yes x | head -n 300; echo 0 0) | record 0 0 1 2>&1 >said.cvr | sed -n '1p;256,\$p' | cut -d ' ' -f 2-6" \
    'line 1: refusal 6: no\nline 256: refusal 6: no\nany further refused lines are\n1 fix taken, 300 lines\n' ''
try "a terminal has them at once" "python3 - '$bin/record' <<'END'
import os, pty, subprocess, sys, tty
near, far = pty.openpty()
tty.setraw(far)
flown = subprocess.Popen([sys.argv[1], '0', '0', '1'], stdin=subprocess.PIPE, stdout=subprocess.DEVNULL, stderr=far)
flown.stdin.write(b'x\\n')
flown.stdin.flush()
said = b''
while b'range\\n' not in said: said += os.read(near, 200) # while the flight goes on
flown.stdin.close()
flown.wait()
print(said.decode(), end='')
END" 'record: line 1: refusal 6: no fix, or a fix or an eccentricity out of range\n' ''
