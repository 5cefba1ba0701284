//! Fix to code at resolution 15, also from the sine of a geodetic latitude, and the ground nucleus.

use crate::inputs::{codes, Points, Random};
use crate::library::{FixCode, Fold, GeodeticCode, GeodeticZ, GroundNucleus};
use crate::measure::{compare, pair, Plan, Row, Side, Work};
use crate::plain::fixes::{
    fix_code, geodetic_code, geodetic_z, geodetic_z_divided, ground_nucleus,
};
use jeguarivo::{jgv_fix_code, jgv_geodetic_code, jgv_geodetic_z, jgv_ground_nucleus};
use std::hint::black_box;

#[cfg(any(healpix, proj, s2))]
mod shims {
    extern "C" {
        #[cfg(healpix)]
        pub fn bench_healpix(z: *const f64, phi: *const f64, count: usize) -> u64;
        #[cfg(proj)]
        pub fn bench_proj(longitude: *const f64, latitude: *const f64, count: usize) -> u64;
        #[cfg(proj)]
        pub fn bench_proj_authalic(
            longitude: *const f64,
            latitude: *const f64,
            count: usize,
        ) -> u64;
        #[cfg(s2)]
        pub fn bench_s2(longitude: *const f64, latitude: *const f64, count: usize) -> u64;
    }
}

const BELT: i64 = 666_666_666_666_666_666;

const WGS84: u64 = 6_694_379_990;

pub fn run(plan: Plan, random: &mut Random) -> Vec<Row> {
    let count = plan.count(20_000);
    let mut rows = Vec::new();
    for (work, goals, keep) in [
        (
            "fix to code, resolution 15",
            true,
            (|_| true) as fn(i64) -> bool,
        ),
        ("only the belt", false, |z| z.abs() <= BELT),
        ("only the caps", false, |z| z.abs() > BELT),
    ] {
        let points = Points::new(random, count, keep);
        rows.extend(compare(plan, Work::new(work, count), sides(&points, goals)));
    }
    rows.extend(geodetic(plan, random, count));
    rows.extend(nucleus(plan, random, count));
    rows
}

fn sides(points: &Points, goals: bool) -> Vec<Side<'_>> {
    let goal = |ratio: f64| goals.then_some(ratio);
    let mut sides = pair::<FixCode>(goal(0.45), jgv_fix_code, fix_code, |entry, _| {
        points.fixes.iter().fold(0, |sum, &(longitude, z)| {
            entry(0, 0, 15, longitude, z).fold(sum)
        })
    });
    others(points, goal, &mut sides);
    sides
}

#[allow(unused_variables)]
fn others<'a>(points: &'a Points, goal: impl Fn(f64) -> Option<f64>, sides: &mut Vec<Side<'a>>) {
    let count = points.fixes.len();
    #[cfg(any(healpix, proj, s2))]
    let mut add = |name, ratio, pass: Box<dyn FnMut(usize) -> u64 + 'a>| {
        sides.push(Side {
            name,
            same: false,
            goal: goal(ratio),
            pass,
        })
    };
    #[cfg(healpix)]
    add(
        "HEALPix `zphi2pix`",
        1.3,
        Box::new(move |_| unsafe {
            shims::bench_healpix(points.z.as_ptr(), points.phi.as_ptr(), count)
        }),
    );
    #[cfg(healpix)]
    add(
        "HEALPix `zphi2pix`, longitudes from -180 to 180",
        0.6,
        Box::new(move |_| unsafe {
            shims::bench_healpix(points.z.as_ptr(), points.longitude.as_ptr(), count)
        }),
    );
    #[cfg(proj)]
    add(
        "PROJ `rhealpix`",
        0.3,
        Box::new(move |_| unsafe {
            shims::bench_proj(points.longitude.as_ptr(), points.latitude.as_ptr(), count)
        }),
    );
    #[cfg(s2)]
    add(
        "S2 leaf cell",
        0.2,
        Box::new(move |_| unsafe {
            shims::bench_s2(points.longitude.as_ptr(), points.latitude.as_ptr(), count)
        }),
    );
}

/// z from the sine of a geodetic latitude on WGS84, and the cell of such a fix.
fn geodetic(plan: Plan, random: &mut Random, count: usize) -> Vec<Row> {
    let points = Points::new(random, count, |_| true);
    let sines = &points.fixes;
    let pass = |entry: GeodeticZ, _| {
        let sum = |sum, &(_, sine): &(i64, i64)| entry(sine, WGS84).fold(sum);
        sines.iter().fold(0, sum)
    };
    let mut sides = pair::<GeodeticZ>(Some(1.1), jgv_geodetic_z, geodetic_z, pass);
    let divided: GeodeticZ = geodetic_z_divided;
    sides.push(Side {
        name: "plain Rust, dividing u128",
        same: false,
        goal: Some(1.1),
        pass: Box::new(move |turn| pass(black_box(divided), turn)),
    });
    #[cfg(proj)]
    sides.push(Side {
        name: "PROJ `cea`",
        same: false,
        goal: None,
        pass: Box::new(|_| unsafe {
            let (east, north) = (points.longitude.as_ptr(), points.latitude.as_ptr());
            shims::bench_proj_authalic(east, north, count)
        }),
    });
    let mut rows = compare(plan, Work::new("geodetic sine to z, WGS84", count), sides);
    let sides = pair::<GeodeticCode>(Some(1.1), jgv_geodetic_code, geodetic_code, |entry, _| {
        sines.iter().fold(0, |sum, &(longitude, sine)| {
            entry(0, 0, 15, longitude, sine, WGS84).fold(sum)
        })
    });
    let work = Work::new("geodetic fix to code, resolution 15, WGS84", count);
    rows.extend(compare(plan, work, sides));
    rows
}

fn nucleus(plan: Plan, random: &mut Random, count: usize) -> Vec<Row> {
    let codes = codes(random, count);
    let sides = pair::<GroundNucleus>(Some(1.1), jgv_ground_nucleus, ground_nucleus, |entry, _| {
        codes.iter().fold(0, |sum, &code| entry(code).fold(sum))
    });
    compare(
        plan,
        Work::new("ground nucleus, all resolutions", count),
        sides,
    )
}
