"""A tour of every entry, on examples of the scope paper. The tours in C and Rust print the same lines.

Each line begins with the entry's name, without jgv_. The arrangement (n, s) is (0, 0) where no other is said.
"""

import jeguarivo as jgv
from jeguarivo import code_name


def code_of(name, n=0, s=0):
    """A name says no arrangement, a code does."""
    return jgv.name_code(n, s, name)


def codes_and_names():
    """A cell is a face, a resolution, a row from the top and a column from the left. It has one name, and one code in each arrangement."""
    n1 = jgv.cell_code(n=2, s=1, face=0, resolution=1, row=0, column=1)
    print(f"cell_code: n 2, s 1, face 0, resolution 1, row 0, column 1 -> {n1}")
    cell = jgv.code_cell(n1)
    place = f"face {cell.face}, resolution {cell.resolution}, row {cell.row}, column {cell.column}"
    print(f"code_cell: {n1} -> n {cell.n}, s {cell.s}, {place}")
    print(f"code_name: {n1} -> {code_name(n1)}")
    for name in ("N", "N0", "N1", "O", "S888888888888888"):
        print(f"name_code: {name} -> {code_of(name)}")
    print(f"name_code: S888888888888888, n 3, s 3 -> {code_of('S888888888888888', 3, 3)}")
    try:  # bad input is refused with a number; jgv.REASONS says what each number means
        print(f"name_code: X1 -> {code_of('X1')}")
    except jgv.Refused as refused:
        print(f"name_code: X1 -> refused with {refused.number}")


def batches():
    """Many at once: each code or cell gets what it gets alone, a bad one its refusal."""
    good, bad = jgv.code_cells([code_of("P41"), 256])  # 256 is no cell's
    place = f"face {good.face}, resolution {good.resolution}, row {good.row}, column {good.column}"
    print(f"code_cells: P41 -> n {good.n}, s {good.s}, {place}")
    print(f"code_cells: 256 -> refused with {bad.number}")
    code, bad = jgv.cell_codes([good, good._replace(face=6)])
    print(f"cell_codes: n 0, s 0, face 2, resolution 2, row 3, column 4 -> {code_name(code)}")
    print(f"cell_codes: n 0, s 0, face 6, resolution 2, row 3, column 4 -> refused with {bad.number}")


def families():
    """Each cell but the finest has nine children, 0 top left to 8 bottom right. The size is the number of finest cells inside."""
    print(f"parent: P41 -> {code_name(jgv.parent(code_of('P41')))}")
    print(f"child: P, digit 0 -> {code_name(jgv.child(code_of('P'), 0))}")
    for name in ("O", "N1", "S888888888888888"):
        print(f"size: {name} -> {jgv.size(code_of(name))}")


def shapes():
    """Four shapes of cells."""
    for name in ("P0", "N4", "N0", "N1"):
        print(f"shape: {name} -> {jgv.shape(code_of(name))}")


def plane():
    """The plane, in whole units: x runs east from the left edge of O, y up from the equator. N lies above face n, S below face s."""
    for n, s, name, shown in ((0, 0, "N", "N, n 0"), (3, 0, "N", "N, n 3"), (0, 2, "S", "S, s 2"), (0, 0, "P0", "P0")):
        square = jgv.square(code_of(name, n, s))
        print(f"square: {shown} -> left {square.left}, top {square.top}, side {square.side}")

    middle, south = jgv.nucleus(code_of("P0")), jgv.nucleus(code_of("S", 0, 2))
    print(f"nucleus: P0 -> ({middle.x}, {middle.y})")
    print(f"nucleus: S, s 2 -> ({south.x}, {south.y})")
    corners = jgv.vertices(code_of("P0"))  # owned or not: top left, top right, bottom right, bottom left
    print("vertices: P0 ->", *(f"({x}, {y})" for x, y in corners))
    print("vertices: P8 ->", *(f"({x}, {y})" for x, y in jgv.vertices(code_of("P8"))))

    # A cell owns its left and top edges: the top left corner of P0 is in P0, the bottom right one in P4.
    for x, y in (middle, corners[0], corners[2]):
        print(f"point_code: ({x}, {y}), resolution 1 -> {code_name(jgv.point_code(0, 0, 1, x, y))}")
    four_sides = 4 * 28_697_814
    try:
        print(f"point_code: ({four_sides}, 0), resolution 0 -> {jgv.point_code(0, 0, 0, four_sides, 0)}")
    except jgv.Refused as refused:
        print(f"point_code: ({four_sides}, 0), resolution 0 -> refused with {refused.number}")


def ground():
    """A fix is a longitude in units of 10^-7 degree and z, the sine of the authalic latitude, in units of 10^-18."""
    fixes = (
        (0, 2, 0, 0),
        (0, 1, 0, 1_000_000_000_000_000_000),
        (0, 1, -1_350_000_000, 666_666_666_666_666_666),
        (0, 1, -1_350_000_000, 666_666_666_666_666_667),
        (0, 1, -900_000_000, 880_000_000_000_000_000),
        (1, 1, -900_000_000, 880_000_000_000_000_000),
        (0, 1, -900_000_000, -880_000_000_000_000_000),
        (0, 2, -1_350_000_000, 970_000_000_000_000_000),
    )
    for n, resolution, longitude, z in fixes:
        name = code_name(jgv.fix_code(n, 0, resolution, longitude, z))
        turned = ", n 1" if n == 1 else ""
        print(f"fix_code: longitude {longitude}, z {z}, resolution {resolution}{turned} -> {name}")

    # A fix with the sine of its geodetic latitude on WGS84: 0.668 lies in the belt there, and past it on a sphere.
    tenth = 100_000_000_000_000_000
    sines = ((tenth, jgv.WGS84), (-tenth, jgv.WGS84), (10 * tenth, jgv.WGS84), (tenth, 0), (0, 10_000_000_001))
    for sine, eccentricity in sines:
        try:
            answer = jgv.geodetic_z(sine, eccentricity)
        except jgv.Refused as refused:
            answer = f"refused with {refused.number}"
        print(f"geodetic_z: sine {sine}, eccentricity {eccentricity} -> {answer}")
    for eccentricity in (jgv.WGS84, 0):
        longitude, sine = -1_350_000_000, 668_000_000_000_000_000
        name = code_name(jgv.geodetic_code(0, 0, 1, longitude, sine, eccentricity))
        print(f"geodetic_code: longitude {longitude}, sine {sine}, eccentricity {eccentricity}, resolution 1 -> {name}")

    # Back from a cell to the fix of its middle; both numbers are floored, so P6 is no mirror of P0.
    for name in ("Q", "P0", "P6", "N4"):
        fix = jgv.ground_nucleus(code_of(name))
        print(f"ground_nucleus: {name} -> longitude {fix.longitude}, z {fix.z}")


def neighbours():
    for direction, word in ((jgv.UP, "up"), (jgv.RIGHT, "right"), (jgv.DOWN, "down"), (jgv.LEFT, "left")):
        print(f"neighbour: P0, {word} -> {code_name(jgv.neighbour(code_of('P0'), direction))}")
    print(f"neighbour: P0, up, n 1 -> {code_name(jgv.neighbour(code_of('P0', 1, 0), jgv.UP))}")


def corners():
    """Cells that meet at a corner only: none about a face, three about a cell in a corner of its face, four about any other."""
    for name in ("P", "P0", "P1", "N0", "N04"):
        print(f"corner_count: {name} -> {jgv.corner_count(code_of(name))}")
    for n, name, shown in ((0, "P0", "P0"), (1, "P0", "P0, n 1"), (0, "R5", "R5")):
        print(f"corner_cells: {shown} ->", *map(code_name, jgv.corner_cells(code_of(name, n, 0))))


def write_text(names):
    """The text of rising cells; shows its bytes."""
    text = jgv.coverage_write(0, 0, map(code_of, names))
    print(f"coverage_write: {' '.join(names)} -> {text.hex(' ').upper()}")
    return text


def print_check(text):
    """What the heading says and what the reading comes to."""
    check = jgv.coverage_check(text)
    heading = f"version {check.version}, depth {check.depth}, n {check.n}, s {check.s}"
    print(f"coverage_check: P(34(1)) -> {heading}, {check.cells} whole cells, size {check.size}")


def coverage():
    """A coverage text of version 1 is a heading of seven bytes, with the version and n and s, and the whole cells as a tree of digits."""
    write_text(["O", "P0", "P1", "P2", "P3", "P4", "P5", "P6", "P7", "P8"])  # nine whole siblings become their parent
    text = write_text(["P3", "P41"])
    print_check(text)
    print("coverage_list: P(34(1)) ->", *map(code_name, jgv.coverage_list(text)))
    for name in ("P3", "P41", "P418", "P4"):  # P4 is covered in part only: no
        asked = jgv.coverage_ask(text, code_of(name))
        print(f"coverage_ask: P(34(1)), {name} -> {'yes' if asked.covered else 'no'}, settled by {asked.settled}")

    # A text that is not of the grammar is refused with 9; `place` says how much of it some good text begins with.
    for body in ("O()", "O(012345678)"):
        try:
            print(f"coverage_check: {body} -> {jgv.coverage_check(b'CVR' + bytes([0, 1]) + b'00' + body.encode())}")
        except jgv.Refused as refused:
            print(f"coverage_check: {body} -> refused with {refused.number} at place {refused.place}")


def additions():
    """A flight's cells go into its text one by one, in any order; the text is all that there is to keep."""
    text = jgv.coverage_write(0, 0, map(code_of, ["P3", "P41"]))
    for name in ("P40", "P4", "P418"):  # the second one's list gives way, and the third one is covered
        before, text = text, jgv.coverage_add(text, code_of(name))
        print(f"coverage_add: {before[7:].decode()}, {name} -> {text[7:].decode()}")
    print(f"coverage_add: P(34), N6, n 1 -> {refusal(jgv.coverage_add, text, code_of('N6', 1, 0))}")


def refusal(call, *values):
    """A call that should be refused, as the tour shows it."""
    try:
        call(*values)
        return "an answer"
    except jgv.Refused as refused:
        return f"refused with {refused.number}"


def two_arrangements():
    """One place flown by two crews, in two arrangements: N8 in the first is N6 in the second. Codes of two arrangements are not taken together."""
    ours, theirs = (jgv.fix_code(n, 0, 1, -900_000_000, 880_000_000_000_000_000) for n in (0, 1))
    print(f"coverage_write: N6, n 1, and N8, n 0 -> {refusal(jgv.coverage_write, 0, 0, [theirs, ours])}")
    text = jgv.coverage_write(0, 0, [ours])
    print(f"coverage_ask: N(8), N6, n 1 -> {refusal(jgv.coverage_ask, text, theirs)}")


def write_handheld(depth, names):
    """The text of version 2 of rising cells; shows its bytes, or the refusal."""
    text, shown = b"", None
    try:
        text = jgv.coverage_write(0, 0, map(code_of, names), depth=depth)
        shown = text.hex(" ").upper()
    except jgv.Refused as refused:
        shown = f"refused with {refused.number}"
    print(f"coverage_write: version 2, depth {depth}, {' '.join(names)} -> {shown}")
    return text


def handhelds():
    """Handhelds take no cap detail and a limited depth: texts of version 2 say it in an eighth byte, a letter a to p for depth 0 to 15."""
    two = ["P3", "P41"]
    print_check(write_handheld(2, two))
    write_handheld(1, two)  # P41 lies deeper
    north = [f"N{digit}" for digit in range(9)] + ["P3"]
    write_handheld(1, north)  # the fewest cells are judged: N0 to N8 are N
    write_handheld(1, north[1:])  # N is not whole


def edges(frame):
    """The edges as the tour shows them, to a millimetre."""
    return f"left {frame.left:.3f}, bottom {frame.bottom:.3f}, right {frame.right:.3f}, top {frame.top:.3f}"


def marked(call, *values):
    """A mark as the tour shows it: a point, a box, or the refusal."""
    try:
        mark = call(*values)
    except jgv.Refused as refused:
        return f"refused with {refused.number}"
    return f"point ({mark.x:.3f}, {mark.y:.3f})" if isinstance(mark, jgv.PointInMetres) else f"box {edges(mark)}"


def plotter():
    """The plane in metres, for a plotter: `side` is the face side, from 1 to 2^30. A frame starts as a cell's box and grows to hold further ones."""
    side = 10_000_000.0
    for x, y in ((33_480_783, 9_565_938), (0, -1), (4 * 28_697_814, 0)):
        print(f"mark_point: side {side:.1f}, ({x}, {y}) -> {marked(jgv.mark_point, side, 0, 0, x, y)}")
    for given, n, name, shown in ((side, 0, "P0", "P0"), (side, 2, "N", "N, n 2"), (0.5, 0, "P0", "P0")):
        print(f"mark_code: side {given:.1f}, {shown} -> {marked(jgv.mark_code, given, code_of(name, n, 0))}")

    frame = jgv.frame_first(side, code_of("P0"))
    print(f"frame_first: side {side:.1f}, P0 -> {edges(frame)}")
    for name in ("P8", "N4", "P1"):
        frame = jgv.frame_grow(side, frame, code_of(name))  # P1 lies inside by then
        print(f"frame_grow: side {side:.1f}, and {name} -> {edges(frame)}")
    bad = frame._replace(top=float("nan"))
    print(f"frame_grow: side {side:.1f}, a top that is not a number, and P1 -> {refusal(jgv.frame_grow, side, bad, code_of('P1'))}")


def office():
    """A history is a value, handed from call to call: each change answers the next one, and a refused change leaves the one at hand."""
    history = jgv.settings_fresh(jgv.Settings(0, 0, 9, jgv.WGS84))
    print(f"settings_fresh: 0 0 9 {jgv.WGS84} -> newest {history.newest}")
    history = jgv.settings_change(history, 0, jgv.Settings(1, 0, 10, jgv.WGS84))
    print(f"settings_change: from 0, 1 0 10 {jgv.WGS84} -> newest {history.newest}")
    # Two people changed revision 0: the second of them has to look at revision 1 first.
    stale = refusal(jgv.settings_change, history, 0, jgv.Settings(0, 0, 11, jgv.WGS84))
    print(f"settings_change: from 0, 0 0 11 {jgv.WGS84} -> {stale}")
    history = jgv.settings_back(history, 1, 0)
    print(f"settings_back: from 1, to 0 -> newest {history.newest}")
    for revision in range(4):
        try:
            print(f"settings_read: {revision} ->", *jgv.settings_read(history, revision))
        except jgv.Refused as refused:
            print(f"settings_read: {revision} -> refused with {refused.number}")


def crews():
    """What you flew and I did not: two texts of one arrangement, which may be of two versions. Each listing is the fewest cells of its ground."""
    first, second = b"CVR\0\x0100P(34(1))", b"CVR\0\x0200bP(4)"
    for which, listing in zip(("only the first", "only the second", "both"), jgv.coverage_compare(first, second)):
        names = " ".join(map(code_name, listing.codes))
        print(f"coverage_compare: P(34(1)) and P(4): {which} -> {names}, size {listing.size}")
    another = refusal(jgv.coverage_compare, first, b"CVR\0\x0110P(4)")
    print(f"coverage_compare: P(34(1)), n 0, and P(4), n 1 -> {another}")


def sheet_told(text, sheet):
    """What checking a sheet answers, as the tour shows it."""
    try:
        record = jgv.sheet_check(text, sheet)
    except jgv.Refused as refused:
        return f"refused with {refused.number} at place {refused.place}"
    return "yes" if record is None else f"no, record {record}"


def sheets():
    """A partner's neighbour sheet: for each whole cell a record of five numbers, its code and its neighbours' up, right, down and left, low byte first."""
    text = b"CVR\0\x0100P(34(1))"
    sheet = jgv.sheet_write(text)
    names = [code_name(int.from_bytes(sheet[at : at + 8], "little")) for at in range(0, len(sheet), 8)]
    records = ", ".join(" ".join(names[at : at + 5]) for at in range(0, len(names), 5))
    print(f"sheet_write: P(34(1)) -> {records}")
    print(f"sheet_check: P(34(1)), as written -> {sheet_told(text, sheet)}")
    exchanged = sheet[:48] + sheet[56:64] + sheet[48:56] + sheet[64:]  # up and right of P41
    print(f"sheet_check: P(34(1)), two neighbours of P41 exchanged -> {sheet_told(text, exchanged)}")
    print(f"sheet_check: P(34(1)), the record of P41 missing -> {sheet_told(text, sheet[:40])}")
    print(f"sheet_check: P(34(1)), the record of P41 broken off -> {sheet_told(text, sheet[:79])}")
    empty_list = b"CVR\0\x0100O()"
    print(f"sheet_check: O(), as written for P(34(1)) -> {sheet_told(empty_list, sheet)}")


def edited_by_hand():
    """A hand-edited text: O3 behind P, O3 twice, nine whole siblings left standing, and an empty list."""
    proper, changed = jgv.coverage_rescue(b"CVR\0\x0100PO(33)Q(012345678)S()")
    told = ", ".join(f"{place} kind {kind}" for place, kind in changed)
    print(f"coverage_rescue: PO(33)Q(012345678)S() -> {proper[7:].decode()}; {told}")
    try:
        jgv.coverage_rescue(b"CVR\0\x0100O(3")
    except jgv.Refused as refused:
        print(f"coverage_rescue: O(3 -> refused with {refused.number} at place {refused.place}")


def dispatch():
    """A summary kept beside the text: dispatch asks whether a cell of resolution 0 to 2 is done, and the counters answer as the text would."""
    kept = jgv.summary(b"CVR\0\x0100P(34(1))")
    done = kept.counters.count(9**13)
    print(f"summary: P(34(1)) -> n {kept.n}, s {kept.s}, {done} districts done, sum {sum(kept.counters)}")
    for name in ("P3", "P41", "P4"):
        print(f"summary_ask: P(34(1)), {name} -> {'yes' if jgv.summary_ask(kept, code_of(name)) else 'no'}")
    print(f"summary_ask: P(34(1)), P418 -> {refusal(jgv.summary_ask, kept, code_of('P418'))}")


if __name__ == "__main__":
    for part in (
        codes_and_names, batches, families, shapes, plane, ground, neighbours, corners, coverage, additions, two_arrangements, handhelds, plotter, office,
        crews, sheets, edited_by_hand, dispatch,
    ):
        part()
