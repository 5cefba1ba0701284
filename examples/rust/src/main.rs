//! A tour of every entry, on examples of the scope paper. The tours in C and Python print the same lines.
//! Each line begins with the entry's name, without jgv_. The arrangement (n, s) is (0, 0) where no other is said.

use jeguarivo::*;

/// The name of a cell; 16 bytes are enough for any.
fn name_of(code: u64) -> Answer<String> {
    let mut room = [0; 16];
    let name = code_name(code, &mut room)?;
    Ok(String::from_utf8_lossy(name).into_owned())
}

/// A name says no arrangement, a code does.
fn code_at(n: u64, s: u64, name: &str) -> Answer<u64> {
    name_code(n, s, name.as_bytes())
}

fn code_of(name: &str) -> Answer<u64> {
    code_at(0, 0, name)
}

/// A cell is a face, a resolution, a row from the top and a column from the left. It has one name, and one code in each arrangement.
fn codes_and_names() -> Answer<()> {
    let n1 = cell_code(2, 1, 0, 1, 0, 1)?;
    println!("cell_code: n 2, s 1, face 0, resolution 1, row 0, column 1 -> {n1}");
    let Cell { n, s, face, resolution, row, column, .. } = code_cell(n1)?;
    println!("code_cell: {n1} -> n {n}, s {s}, face {face}, resolution {resolution}, row {row}, column {column}");
    println!("code_name: {n1} -> {}", name_of(n1)?);
    for name in ["N", "N0", "N1", "O", "S888888888888888"] {
        println!("name_code: {name} -> {}", code_of(name)?);
    }
    println!("name_code: S888888888888888, n 3, s 3 -> {}", code_at(3, 3, "S888888888888888")?);
    // Bad input is refused with a number; the header says what each number means.
    match name_code(0, 0, b"X1") {
        Ok(code) => println!("name_code: X1 -> {code}"),
        Err(refused) => println!("name_code: X1 -> refused with {}", refused.number),
    }
    Ok(())
}

/// Many at once: each code or cell gets what it gets alone, a bad one its refusal. A cell is seven numbers, with its refusal first; a code is two.
fn batches() -> Answer<()> {
    let mut room = [0; 14];
    let cells = code_cells(&[code_of("P41")?, 256], &mut room)?; // 256 is no cell's
    let [_, n, s, face, resolution, row, column] = cells[..7] else { unreachable!() };
    println!("code_cells: P41 -> n {n}, s {s}, face {face}, resolution {resolution}, row {row}, column {column}");
    println!("code_cells: 256 -> refused with {}", cells[7]);

    let mut room = [0; 4];
    let codes = cell_codes(&[0, 0, 2, 2, 3, 4, 0, 0, 6, 2, 3, 4], &mut room)?;
    println!("cell_codes: n 0, s 0, face 2, resolution 2, row 3, column 4 -> {}", name_of(codes[1])?);
    println!("cell_codes: n 0, s 0, face 6, resolution 2, row 3, column 4 -> refused with {}", codes[2]);
    Ok(())
}

/// Each cell but the finest has nine children, 0 top left to 8 bottom right. The size is the number of finest cells inside.
fn families() -> Answer<()> {
    println!("parent: P41 -> {}", name_of(parent(code_of("P41")?)?)?);
    println!("child: P, digit 0 -> {}", name_of(child(code_of("P")?, 0)?)?);
    for name in ["O", "N1", "S888888888888888"] {
        println!("size: {name} -> {}", size(code_of(name)?)?);
    }
    Ok(())
}

/// Four shapes of cells.
fn shapes() -> Answer<()> {
    let words = ["quad", "cap", "dart", "skew quad"];
    for name in ["P0", "N4", "N0", "N1"] {
        println!("shape: {name} -> {}", words[shape(code_of(name)?)? as usize]);
    }
    Ok(())
}

fn print_square(n: u64, s: u64, name: &str, shown: &str) -> Answer<()> {
    let Square { left, top, side, .. } = square(code_at(n, s, name)?)?;
    println!("square: {shown} -> left {left}, top {top}, side {side}");
    Ok(())
}

fn print_nucleus(s: u64, name: &str, shown: &str) -> Answer<Point> {
    let middle = nucleus(code_at(0, s, name)?)?;
    println!("nucleus: {shown} -> ({}, {})", middle.x, middle.y);
    Ok(middle)
}

/// The corners, owned or not: top left, top right, bottom right, bottom left.
fn print_vertices(name: &str) -> Answer<Vertices> {
    let corners = vertices(code_of(name)?)?;
    let points: Vec<String> = (0..4).map(|i| format!("({}, {})", corners.x[i], corners.y[i])).collect();
    println!("vertices: {name} -> {}", points.join(" "));
    Ok(corners)
}

/// The plane, in whole units: x runs east from the left edge of O, y up from the equator. N lies above face n, S below face s.
fn plane() -> Answer<()> {
    print_square(0, 0, "N", "N, n 0")?;
    print_square(3, 0, "N", "N, n 3")?;
    print_square(0, 2, "S", "S, s 2")?;
    print_square(0, 0, "P0", "P0")?;
    let middle = print_nucleus(0, "P0", "P0")?;
    print_nucleus(2, "S", "S, s 2")?;
    let Vertices { x, y, .. } = print_vertices("P0")?;
    print_vertices("P8")?;

    // A cell owns its left and top edges: the top left corner of P0 is in P0, the bottom right one in P4.
    for (x, y) in [(middle.x, middle.y), (x[0], y[0]), (x[2], y[2])] {
        println!("point_code: ({x}, {y}), resolution 1 -> {}", name_of(point_code(0, 0, 1, x, y)?)?);
    }
    let four_sides = 4 * 28_697_814;
    match point_code(0, 0, 0, four_sides, 0) {
        Ok(code) => println!("point_code: ({four_sides}, 0), resolution 0 -> {code}"),
        Err(refused) => println!("point_code: ({four_sides}, 0), resolution 0 -> refused with {}", refused.number),
    }
    Ok(())
}

/// A fix is a longitude in units of 10^-7 degree and z, the sine of the authalic latitude, in units of 10^-18.
fn ground() -> Answer<()> {
    let fixes = [
        (0, 2, 0, 0),
        (0, 1, 0, 1_000_000_000_000_000_000),
        (0, 1, -1_350_000_000, 666_666_666_666_666_666),
        (0, 1, -1_350_000_000, 666_666_666_666_666_667),
        (0, 1, -900_000_000, 880_000_000_000_000_000),
        (1, 1, -900_000_000, 880_000_000_000_000_000),
        (0, 1, -900_000_000, -880_000_000_000_000_000),
        (0, 2, -1_350_000_000, 970_000_000_000_000_000),
    ];
    for (n, resolution, longitude, z) in fixes {
        let name = name_of(fix_code(n, 0, resolution, longitude, z)?)?;
        let turned = if n == 1 { ", n 1" } else { "" };
        println!("fix_code: longitude {longitude}, z {z}, resolution {resolution}{turned} -> {name}");
    }
    // A fix with the sine of its geodetic latitude on WGS84, by the squared eccentricity in units of 10^-12: 0.668 lies in the belt there, and
    // past it on a sphere.
    let (tenth, wgs84) = (100_000_000_000_000_000, 6_694_379_990);
    for (sine, eccentricity) in [(tenth, wgs84), (-tenth, wgs84), (10 * tenth, wgs84), (tenth, 0), (0, 10_000_000_001)] {
        match geodetic_z(sine, eccentricity) {
            Ok(z) => println!("geodetic_z: sine {sine}, eccentricity {eccentricity} -> {z}"),
            Err(refused) => println!("geodetic_z: sine {sine}, eccentricity {eccentricity} -> refused with {}", refused.number),
        }
    }
    for eccentricity in [wgs84, 0] {
        let (longitude, sine) = (-1_350_000_000, 668_000_000_000_000_000);
        let name = name_of(geodetic_code(0, 0, 1, longitude, sine, eccentricity)?)?;
        println!("geodetic_code: longitude {longitude}, sine {sine}, eccentricity {eccentricity}, resolution 1 -> {name}");
    }
    // Back from a cell to the fix of its middle; both numbers are floored, so P6 is no mirror of P0.
    for name in ["Q", "P0", "P6", "N4"] {
        let Fix { longitude, z, .. } = ground_nucleus(code_of(name)?)?;
        println!("ground_nucleus: {name} -> longitude {longitude}, z {z}");
    }
    Ok(())
}

fn neighbours() -> Answer<()> {
    for (direction, word) in (0..).zip(["up", "right", "down", "left"]) {
        println!("neighbour: P0, {word} -> {}", name_of(neighbour(code_of("P0")?, direction)?)?);
    }
    println!("neighbour: P0, up, n 1 -> {}", name_of(neighbour(code_at(1, 0, "P0")?, 0)?)?);
    Ok(())
}

/// Cells that meet at a corner only: none about a face, three about a cell in a corner of its face, four about any other.
fn corners() -> Answer<()> {
    for name in ["P", "P0", "P1", "N0", "N04"] {
        println!("corner_count: {name} -> {}", corner_count(code_of(name)?)?);
    }
    for (n, name, shown) in [(0, "P0", "P0"), (1, "P0", "P0, n 1"), (0, "R5", "R5")] {
        let mut room = [0; 4]; // always enough
        let codes = corner_cells(code_at(n, 0, name)?, &mut room)?;
        let names = codes.iter().map(|&code| name_of(code)).collect::<Answer<Vec<String>>>()?;
        println!("corner_cells: {shown} -> {}", names.join(" "));
    }
    Ok(())
}

/// Writes the text of rising cells to `room` and shows its bytes. No text is longer than 65,536 bytes.
fn write_text<'a>(names: &[&str], room: &'a mut [u8]) -> Answer<&'a [u8]> {
    let codes = names.iter().map(|name| code_of(name)).collect::<Answer<Vec<u64>>>()?;
    let text = coverage_write(0, 0, &codes, room)?;
    let bytes: Vec<String> = text.iter().map(|byte| format!("{byte:02X}")).collect();
    println!("coverage_write: {} -> {}", names.join(" "), bytes.join(" "));
    Ok(text)
}

/// What the heading says and what the reading comes to.
fn print_check(text: &[u8]) -> Answer<()> {
    let Check { version, depth, n, s, cells, size, .. } = coverage_check(text)?;
    println!("coverage_check: P(34(1)) -> version {version}, depth {depth}, n {n}, s {s}, {cells} whole cells, size {size}");
    Ok(())
}

/// A coverage text of version 1 is a heading of seven bytes, with the version and n and s, and the whole cells as a tree of digits.
fn coverage() -> Answer<()> {
    let mut room = [0; 32];
    // Nine whole siblings become their parent.
    write_text(&["O", "P0", "P1", "P2", "P3", "P4", "P5", "P6", "P7", "P8"], &mut room)?;
    let text = write_text(&["P3", "P41"], &mut room)?;

    print_check(text)?;
    let mut codes = [0; 32]; // a text has fewer whole cells than bytes
    let listed = coverage_list(text, &mut codes)?;
    let names = listed.iter().map(|&code| name_of(code)).collect::<Answer<Vec<String>>>()?;
    println!("coverage_list: P(34(1)) -> {}", names.join(" "));
    for name in ["P3", "P41", "P418", "P4"] {
        let Ask { covered, settled, .. } = coverage_ask(text, code_of(name)?)?; // P4 is covered in part only: no
        println!("coverage_ask: P(34(1)), {name} -> {}, settled by {settled}", if covered == 1 { "yes" } else { "no" });
    }
    // A text that is not of the grammar is refused with 9; `place` says how much of it some good text begins with.
    for body in ["O()", "O(012345678)"] {
        match coverage_check(format!("CVR\0\x0100{body}").as_bytes()) {
            Ok(check) => println!("coverage_check: {body} -> {} whole cells, size {}", check.cells, check.size),
            Err(Refused { number, place }) => println!("coverage_check: {body} -> refused with {number} at place {place}"),
        }
    }
    Ok(())
}

/// A flight's cells go into its text one by one, in any order; the text is all that there is to keep.
fn additions() -> Answer<()> {
    let mut text = [0; 64];
    let mut length = coverage_write(0, 0, &[code_of("P3")?, code_of("P41")?], &mut text)?.len();
    for name in ["P40", "P4", "P418"] {
        let before = String::from_utf8_lossy(&text[7..length]).into_owned();
        length = coverage_add(&mut text, length, code_of(name)?)?.len();
        println!("coverage_add: {before}, {name} -> {}", String::from_utf8_lossy(&text[7..length]));
    }
    println!("coverage_add: P(34), N6, n 1 -> {}", refusal(coverage_add(&mut text, length, code_at(1, 0, "N6")?)));
    Ok(())
}

/// An answer that should be a refusal, as the tour shows it.
fn refusal<T>(answer: Answer<T>) -> String {
    answer.map_or_else(|refused| format!("refused with {}", refused.number), |_| "an answer".to_string())
}

/// One place flown by two crews, in two arrangements: N8 in the first is N6 in the second. Codes of two arrangements are not taken together.
fn two_arrangements() -> Answer<()> {
    let [ours, theirs] = [0, 1].map(|n| fix_code(n, 0, 1, -900_000_000, 880_000_000_000_000_000));
    let (ours, theirs) = (ours?, theirs?);
    let mut room = [0; 32];
    println!("coverage_write: N6, n 1, and N8, n 0 -> {}", refusal(coverage_write(0, 0, &[theirs, ours], &mut room)));
    let text = coverage_write(0, 0, &[ours], &mut room)?;
    println!("coverage_ask: N(8), N6, n 1 -> {}", refusal(coverage_ask(text, theirs)));
    Ok(())
}

/// Writes the text of version 2 of rising cells to `room` and shows its bytes, or the refusal; answers the part that was written.
fn write_handheld<'a>(depth: u64, names: &[&str], room: &'a mut [u8]) -> Answer<&'a [u8]> {
    let codes = names.iter().map(|name| code_of(name)).collect::<Answer<Vec<u64>>>()?;
    let names = names.join(" ");
    match coverage_write_handheld(depth, 0, 0, &codes, room) {
        Ok(text) => {
            let bytes: Vec<String> = text.iter().map(|byte| format!("{byte:02X}")).collect();
            println!("coverage_write: version 2, depth {depth}, {names} -> {}", bytes.join(" "));
            Ok(text)
        }
        Err(refused) => {
            println!("coverage_write: version 2, depth {depth}, {names} -> refused with {}", refused.number);
            Ok(&[])
        }
    }
}

/// Handhelds take no cap detail and a limited depth: texts of version 2 say it in an eighth byte, a letter a to p for depth 0 to 15.
fn handhelds() -> Answer<()> {
    let mut room = [0; 32];
    let two = ["P3", "P41"];
    let text = write_handheld(2, &two, &mut room)?;
    print_check(text)?;
    write_handheld(1, &two, &mut room)?; // P41 lies deeper
    let north = ["N0", "N1", "N2", "N3", "N4", "N5", "N6", "N7", "N8", "P3"];
    write_handheld(1, &north, &mut room)?; // the fewest cells are judged: N0 to N8 are N
    write_handheld(1, &north[1..], &mut room)?; // N is not whole
    Ok(())
}

/// The edges as the tour shows them, to a millimetre.
fn edges(frame: Frame) -> String {
    let Frame { left, bottom, right, top } = frame;
    format!("left {left:.3}, bottom {bottom:.3}, right {right:.3}, top {top:.3}")
}

/// A mark as the tour shows it: a point, a box, or the refusal.
fn marked(answer: Answer<Mark>) -> String {
    match answer {
        Ok(Mark::Point { x, y }) => format!("point ({x:.3}, {y:.3})"),
        Ok(Mark::Box(frame)) => format!("box {}", edges(frame)),
        Err(refused) => format!("refused with {}", refused.number),
    }
}

/// The plane in metres, for a plotter: `side` is the face side, from 1 to 2^30. A frame starts as a cell's box and grows to hold further ones.
fn plotter() -> Answer<()> {
    let side = 10_000_000.0;
    for (x, y) in [(33_480_783, 9_565_938), (0, -1), (4 * 28_697_814, 0)] {
        println!("mark_point: side {side:.1}, ({x}, {y}) -> {}", marked(mark_point(side, 0, 0, x, y)));
    }
    for (side, n, name, shown) in [(side, 0, "P0", "P0"), (side, 2, "N", "N, n 2"), (0.5, 0, "P0", "P0")] {
        println!("mark_code: side {side:.1}, {shown} -> {}", marked(mark_code(side, code_at(n, 0, name)?)));
    }
    let mut frame = frame_first(side, code_of("P0")?)?;
    println!("frame_first: side {side:.1}, P0 -> {}", edges(frame));
    for name in ["P8", "N4", "P1"] {
        frame = frame_grow(side, frame, code_of(name)?)?; // P1 lies inside by then
        println!("frame_grow: side {side:.1}, and {name} -> {}", edges(frame));
    }
    frame.top = f64::NAN;
    println!("frame_grow: side {side:.1}, a top that is not a number, and P1 -> {}", refusal(frame_grow(side, frame, code_of("P1")?)));
    Ok(())
}

fn settings(n: u64, s: u64, resolution: u64, eccentricity: u64) -> Settings {
    Settings { n, s, resolution, eccentricity }
}

/// A history is a value, handed from call to call: each change answers the next one, and a refused change leaves the one at hand.
fn office() -> Answer<()> {
    let wgs84 = 6_694_379_990;
    let first = settings_fresh(settings(0, 0, 9, wgs84))?;
    println!("settings_fresh: 0 0 9 {wgs84} -> newest {}", first.newest);
    let second = settings_change(&first, 0, settings(1, 0, 10, wgs84))?;
    println!("settings_change: from 0, 1 0 10 {wgs84} -> newest {}", second.newest);
    // Two people changed revision 0: the second of them has to look at revision 1 first.
    println!("settings_change: from 0, 0 0 11 {wgs84} -> {}", refusal(settings_change(&second, 0, settings(0, 0, 11, wgs84))));
    let third = settings_back(&second, 1, 0)?;
    println!("settings_back: from 1, to 0 -> newest {}", third.newest);
    for revision in 0..=3 {
        match settings_read(&third, revision) {
            Ok(Settings { n, s, resolution, eccentricity }) => println!("settings_read: {revision} -> {n} {s} {resolution} {eccentricity}"),
            Err(refused) => println!("settings_read: {revision} -> refused with {}", refused.number),
        }
    }
    Ok(())
}

/// What you flew and I did not: two texts of one arrangement, which may be of two versions. Each listing is the fewest cells of its ground.
fn crews() -> Answer<()> {
    let (first, second) = (b"CVR\0\x0100P(34(1))", b"CVR\0\x0200bP(4)");
    let [mut one, mut two, mut three] = [[0; 96]; 3];
    let found = coverage_compare(first, second, &mut one, &mut two, &mut three)?;
    let listings = [
        ("only the first", found.first_only, found.first_size),
        ("only the second", found.second_only, found.second_size),
        ("both", found.both, found.both_size),
    ];
    for (which, codes, size) in listings {
        let names = codes.iter().map(|&code| name_of(code)).collect::<Answer<Vec<String>>>()?;
        println!("coverage_compare: P(34(1)) and P(4): {which} -> {}, size {size}", names.join(" "));
    }
    let another = coverage_compare(first, b"CVR\0\x0110P(4)", &mut one, &mut two, &mut three);
    println!("coverage_compare: P(34(1)), n 0, and P(4), n 1 -> {}", refusal(another));
    Ok(())
}

fn told(checked: Answer<Option<u64>>) -> String {
    match checked {
        Ok(None) => "yes".to_string(),
        Ok(Some(record)) => format!("no, record {record}"),
        Err(refused) => format!("refused with {} at place {}", refused.number, refused.place),
    }
}

/// A partner's neighbour sheet: for each whole cell a record of five numbers, its code and its neighbours' up, right, down and left, low byte first.
fn sheets() -> Answer<()> {
    let text = b"CVR\0\x0100P(34(1))";
    let mut room = [0; 80];
    let sheet = sheet_write(text, &mut room)?.to_vec();
    let numbers = sheet.chunks(8).map(|bytes| u64::from_le_bytes(bytes.try_into().unwrap()));
    let names = numbers.map(name_of).collect::<Answer<Vec<String>>>()?;
    let records: Vec<String> = names.chunks(5).map(|record| record.join(" ")).collect();
    println!("sheet_write: P(34(1)) -> {}", records.join(", "));
    println!("sheet_check: P(34(1)), as written -> {}", told(sheet_check(text, &sheet)));
    let mut exchanged = sheet.clone();
    exchanged[48..64].rotate_left(8); // up and right of P41
    println!("sheet_check: P(34(1)), two neighbours of P41 exchanged -> {}", told(sheet_check(text, &exchanged)));
    println!("sheet_check: P(34(1)), the record of P41 missing -> {}", told(sheet_check(text, &sheet[..40])));
    println!("sheet_check: P(34(1)), the record of P41 broken off -> {}", told(sheet_check(text, &sheet[..79])));
    println!("sheet_check: O(), as written for P(34(1)) -> {}", told(sheet_check(b"CVR\0\x0100O()", &sheet)));
    Ok(())
}

/// A hand-edited text: O3 behind P, O3 twice, nine whole siblings left standing, and an empty list.
fn edited_by_hand() -> Answer<()> {
    let (mut proper, mut changed) = ([0; 28], [0; 4 * 28]);
    let rescued = coverage_rescue(b"CVR\0\x0100PO(33)Q(012345678)S()", &mut proper, &mut changed)?;
    let told: Vec<String> = rescued.changes.chunks(2).map(|change| format!("{} kind {}", change[0], change[1])).collect();
    println!("coverage_rescue: PO(33)Q(012345678)S() -> {}; {}", String::from_utf8_lossy(&rescued.text[7..]), told.join(", "));
    if let Err(refused) = coverage_rescue(b"CVR\0\x0100O(3", &mut proper, &mut changed) {
        println!("coverage_rescue: O(3 -> refused with {} at place {}", refused.number, refused.place);
    }
    Ok(())
}

/// A summary kept beside the text: dispatch asks whether a cell of resolution 0 to 2 is done, and the counters answer as the text would.
fn dispatch() -> Answer<()> {
    let kept = summary(b"CVR\0\x0100P(34(1))")?;
    let done = kept.counters.iter().filter(|&&count| count == 2_541_865_828_329).count(); // 9^13
    let sum: u64 = kept.counters.iter().sum();
    println!("summary: P(34(1)) -> n {}, s {}, {done} districts done, sum {sum}", kept.n, kept.s);
    for name in ["P3", "P41", "P4", "P418"] {
        match summary_ask(&kept, code_of(name)?) {
            Ok(covered) => println!("summary_ask: P(34(1)), {name} -> {}", if covered { "yes" } else { "no" }),
            refused => println!("summary_ask: P(34(1)), {name} -> {}", refusal(refused)),
        }
    }
    Ok(())
}

fn main() -> Answer<()> {
    codes_and_names()?;
    batches()?;
    families()?;
    shapes()?;
    plane()?;
    ground()?;
    neighbours()?;
    corners()?;
    coverage()?;
    additions()?;
    two_arrangements()?;
    handhelds()?;
    plotter()?;
    office()?;
    crews()?;
    sheets()?;
    edited_by_hand()?;
    dispatch()
}
