// The comparison, put behind the Rust's text: it calls the private functions there and ours, on the same arguments.

mod ours {
    extern "C" {
        pub fn parts_ccor(alt: f64, r: f64, h1: f64, zh: f64) -> f64;
        pub fn parts_ccor2(alt: f64, r: f64, h1: f64, zh: f64, h2: f64) -> f64;
        pub fn parts_dnet(dd: f64, dm: f64, zhm: f64, xmm: f64, xm: f64) -> f64;
        pub fn parts_gsurf(lat: f64) -> f64;
        pub fn parts_re(lat: f64) -> f64;
        pub fn parts_zeta(re: f64, zz: f64, zl: f64) -> f64;
        pub fn parts_scalh(gsurf: f64, re: f64, alt: f64, xm: f64, temp: f64) -> f64;
        pub fn parts_splini(xa: *const f64, nxa: usize, ya: *const f64, nya: usize, y2a: *const f64, ny2a: usize, n: usize, x: f64, out: *mut f64, n_out: usize) -> u64;
        pub fn parts_splint(xa: *const f64, nxa: usize, ya: *const f64, nya: usize, y2a: *const f64, ny2a: usize, n: usize, x: f64, out: *mut f64, n_out: usize) -> u64;
        pub fn parts_spline(x: *const f64, nx: usize, y: *const f64, ny: usize, n: usize, yp1: f64, ypn: f64, y2: *mut f64, ny2: usize) -> u64;
        pub fn parts_densm(gsurf: f64, re: f64, alt: f64, d0: f64, xm: f64, tz: f64, mn3: usize, zn3: *const f64, nzn3: usize, tn3: *const f64, ntn3: usize, tgn3: *const f64, ntgn3: usize, mn2: usize, zn2: *const f64, nzn2: usize, tn2: *const f64, ntn2: usize, tgn2: *const f64, ntgn2: usize, out: *mut f64, n_out: usize) -> u64;
        pub fn parts_densu(gsurf: f64, re: f64, alt: f64, dlb: f64, tinf: f64, tlb: f64, xm: f64, alpha: f64, tz: f64, zlb: f64, s2: f64, mn1: usize, zn1: *const f64, nzn1: usize, tn1: *mut f64, ntn1: usize, tgn1: *mut f64, ntgn1: usize, out: *mut f64, n_out: usize) -> u64;
    }
}

use crate::random::Random;

impl Random {
    fn index(&mut self, n: usize) -> usize {
        self.below(n as u64) as usize
    }

    // NaN, infinities, zeros, ends of the formats and of the tests in the text, whole numbers, any bits.
    fn hostile(&mut self) -> f64 {
        const SPECIAL: [f64; 26] = [
            f64::NAN, f64::INFINITY, f64::NEG_INFINITY, 0.0, -0.0, 1.0, -1.0, 2.0, 0.5, 10.0, -10.0, 50.0, 70.0, -70.0, 5e-324,
            -5e-324, 2.2250738585072014e-308, f64::MAX, f64::MIN, 1e300, 1e-300, 0.99e30, 1e30, 709.0, -708.0, 100.0,
        ];
        match self.index(4) {
            0 => SPECIAL[self.index(26)],
            1 => f64::from_bits(self.next()),
            2 => self.index(200) as f64 - 100.0,
            _ => self.between(-1000.0, 1000.0),
        }
    }

    // Hostile three times in 8; never where the whole call is to be ordinary.
    fn number(&mut self, ordinary: bool, lo: f64, hi: f64) -> f64 {
        if !ordinary && self.index(8) < 3 {
            self.hostile()
        } else {
            self.between(lo, hi)
        }
    }

    // n numbers falling from hi, or rising from lo, where ordinary; else any, some equal.
    fn nodes(&mut self, ordinary: bool, rising: bool, n: usize, lo: f64, hi: f64) -> Vec<f64> {
        let mut v: Vec<f64> = (0..n).map(|_| self.number(ordinary, lo, hi)).collect();
        if ordinary || self.index(2) == 0 {
            v.sort_by(|a, b| a.partial_cmp(b).unwrap_or(std::cmp::Ordering::Equal));
            if !rising {
                v.reverse();
            }
        }
        if !ordinary && self.index(4) == 0 {
            let (i, j) = (self.index(n), self.index(n));
            v[i] = v[j];
        }
        v
    }
}

struct Row {
    name: &'static str,
    cases: u64,
    nan: u64,
    differences: u64,
}

impl Row {
    fn same(a: f64, b: f64) -> bool {
        a.to_bits() == b.to_bits() || (a.is_nan() && b.is_nan())
    }

    fn take(&mut self, theirs: &[f64], ours: &[f64], arguments: &dyn std::fmt::Debug) {
        self.cases += 1;
        self.nan += theirs[0].is_nan() as u64;
        if theirs.len() != ours.len() || !theirs.iter().zip(ours).all(|(a, b)| Row::same(*a, *b)) {
            if self.differences == 0 {
                println!("{} differs: {:?} against {:?} at {:?}", self.name, theirs, ours, arguments);
            }
            self.differences += 1;
        }
    }
}

fn row(name: &'static str) -> Row {
    Row { name, cases: 0, nan: 0, differences: 0 }
}

// A refused call answers with document 01's number and place, and leaves what was lent as it was.
fn refusals(r: &mut Random, rows: &mut Vec<Row>, count: u64) {
    let mut a = row("refusals");
    for _ in 0..count {
        // any counts and lengths: three slices of n nodes, two gradients, the slice for the values
        let (n, m) = (r.index(13), r.index(13));
        let l: [usize; 6] = [r.index(13), r.index(13), r.index(13), r.index(13), r.index(13), r.index(13)];
        let (g, h, k) = (r.index(4), r.index(4), r.index(4));
        let xs = [1.0; 13];
        let mut wanted: (u64, u64) = (0, 0);
        let mut set = |top: usize, n: usize, a: usize, b: usize, c: usize| {
            if wanted != (0, 0) {
            } else if n < 2 || n > top {
                wanted = (5, top as u64);
            } else if a < n || b < n {
                wanted = (4, n as u64);
            } else if c < 2 {
                wanted = (4, 2);
            }
        };
        let which = r.index(4);
        let (p, mut out, mut tn, mut tgn) = (xs.as_ptr(), [7.5; 13], [2.5; 13], [3.5; 13]);
        let code = unsafe {
            match which {
                0 => {
                    if k != 1 { wanted = (4, 1) } else if n < 2 || n > 10 { wanted = (5, 10) } else if l[..3].iter().any(|x| *x < n) { wanted = (4, n as u64) }
                    ours::parts_splini(p, l[0], p, l[1], p, l[2], n, 1.0, out.as_mut_ptr(), k)
                }
                1 => {
                    if k != 1 { wanted = (4, 1) } else if n < 2 || n > 10 { wanted = (5, 10) } else if l[..3].iter().any(|x| *x < n) { wanted = (4, n as u64) }
                    ours::parts_splint(p, l[0], p, l[1], p, l[2], n, 1.0, out.as_mut_ptr(), k)
                }
                2 => {
                    if k != 2 { wanted = (4, 2) } else { set(10, m, l[2], l[3], h); set(10, n, l[0], l[1], g) }
                    ours::parts_densm(980.0, 6356.0, 50.0, 1.0, 28.0, 200.0, n, p, l[0], p, l[1], p, g, m, p, l[2], p, l[3], p, h, out.as_mut_ptr(), k)
                }
                _ => {
                    if k != 2 { wanted = (4, 2) } else { set(5, n, l[0], l[1], g) }
                    ours::parts_densu(980.0, 6356.0, 0.5, 1.0, 1000.0, 400.0, 28.0, 0.0, 0.0, 120.0, 0.02, n, p, l[0], tn.as_mut_ptr(), l[1], tgn.as_mut_ptr(), g, out.as_mut_ptr(), k)
                }
            }
        };
        let kept = wanted == (0, 0) || (out == [7.5; 13] && tn == [2.5; 13] && tgn == [3.5; 13]);
        a.take(&[wanted.0 as f64, wanted.1 as f64, 1.0], &[(code >> 32) as f64, (code & 0xffff_ffff) as f64, kept as u64 as f64], &(which, n, m, l, g, h, k));
    }
    rows.push(a);
}

fn ground(r: &mut Random, ordinary: bool) -> State {
    let mut s = State::new();
    s.gsurf = r.number(ordinary, 970.0, 990.0);
    s.re = r.number(ordinary, 6300.0, 6400.0);
    s
}

fn mixing(r: &mut Random, rows: &mut Vec<Row>, count: u64) {
    let (mut a, mut b, mut c, mut d) = (row("ccor"), row("ccor2"), row("dnet"), row("dnet, faded"));
    for i in 0..count {
        let o = i % 2 == 0;
        let (alt, zh) = (r.number(o, 0.0, 2000.0), r.number(o, 50.0, 300.0));
        let (h1, h2) = (r.number(o, 1.0, 60.0), r.number(o, 1.0, 60.0));
        let x = r.number(o, -5.0, 5.0);
        // e at and beside the ends of the formula, too
        let alt = if r.index(16) == 0 { zh + h1 * [70.0, -70.0, 70.5, -70.5, 69.5, -69.5][r.index(6)] } else { alt };
        unsafe {
            a.take(&[ccor(alt, x, h1, zh)], &[ours::parts_ccor(alt, x, h1, zh)], &(alt, x, h1, zh));
            b.take(&[ccor2(alt, x, h1, zh, h2)], &[ours::parts_ccor2(alt, x, h1, zh, h2)], &(alt, x, h1, zh, h2));
        }
        let dd = r.number(o, 0.0, 1e12);
        let dm = if r.index(4) == 0 { dd * r.between(0.5, 2.0) } else { r.number(o, 0.0, 1e12) };
        let (zhm, xmm, xm) = (r.number(o, 20.0, 120.0), r.number(o, 28.0, 29.0), r.number(o, 1.0, 40.0));
        unsafe {
            c.take(&[dnet(dd, dm, zhm, xmm, xm)], &[ours::parts_dnet(dd, dm, zhm, xmm, xm)], &(dd, dm, zhm, xmm, xm));
        }
        // the first density below 2^-1022, the second, or both
        let which = r.index(3);
        let dd = if which != 1 { f64::from_bits(1 + r.below((1 << 52) - 1)) } else { dd };
        let dm = if which != 0 { f64::from_bits(1 + r.below((1 << 52) - 1)) } else { dm };
        unsafe {
            d.take(&[dnet(dd, dm, zhm, xmm, xm)], &[ours::parts_dnet(dd, dm, zhm, xmm, xm)], &(dd, dm, zhm, xmm, xm));
        }
    }
    rows.extend([a, b, c, d]);
}

fn splines(r: &mut Random, rows: &mut Vec<Row>, count: u64) {
    let (mut a, mut b, mut c) = (row("splini"), row("splint"), row("spline"));
    for i in 0..count {
        let o = i % 2 == 0;
        let n = 2 + r.index(9);
        let longer = n + r.index(3);
        let rising = r.index(4) != 0;
        let xa = r.nodes(o, rising, longer, 0.0, 1.0);
        let ya: Vec<f64> = (0..longer).map(|_| r.number(o, 0.001, 0.01)).collect();
        let y2a: Vec<f64> = (0..longer).map(|_| r.number(o, -0.1, 0.1)).collect();
        let x = if r.index(8) == 0 { xa[r.index(n)] } else { r.number(o, -0.1, 1.2) };
        let (yp1, ypn) = (r.number(o, -1.0, 1.0), if r.index(4) == 0 { 1e30 } else { r.number(o, -1.0, 1.0) });
        unsafe {
            let (p, q, s) = (xa.as_ptr(), ya.as_ptr(), y2a.as_ptr());
            let mut out = [0.0];
            let c1 = ours::parts_splini(p, longer, q, longer, s, longer, n, x, out.as_mut_ptr(), 1);
            a.take(&[splini(&xa, &ya, &y2a, n, x), 0.0], &[out[0], c1 as f64], &(&xa, &ya, &y2a, n, x));
            let c2 = ours::parts_splint(p, longer, q, longer, s, longer, n, x, out.as_mut_ptr(), 1);
            b.take(&[splint(&xa, &ya, &y2a, n, x), 0.0], &[out[0], c2 as f64], &(&xa, &ya, &y2a, n, x));
            let (mut theirs, mut mine) = (y2a.clone(), y2a.clone());
            spline(&xa, &ya, n, yp1, ypn, &mut theirs);
            let refusal = ours::parts_spline(p, longer, q, longer, n, yp1, ypn, mine.as_mut_ptr(), longer);
            theirs.push(0.0);
            mine.push(refusal as f64);
            c.take(&theirs, &mine, &(&xa, &ya, n, yp1, ypn));
        }
    }
    rows.extend([a, b, c]);
}

fn gravity(r: &mut Random, rows: &mut Vec<Row>, count: u64) {
    let (mut a, mut b, mut c) = (row("glatf"), row("zeta"), row("scalh"));
    for i in 0..count {
        let o = i % 2 == 0;
        let lat = r.number(o, -90.0, 90.0);
        let mut s = State::new();
        s.glatf(lat);
        unsafe {
            a.take(&[s.gsurf, s.re], &[ours::parts_gsurf(lat), ours::parts_re(lat)], &lat);
        }
        let s = ground(r, o);
        let (zz, zl) = (r.number(o, 0.0, 2500.0), r.number(o, 0.0, 200.0));
        let (alt, xm, temp) = (r.number(o, 0.0, 2500.0), r.number(o, 1.0, 40.0), r.number(o, 100.0, 2000.0));
        unsafe {
            b.take(&[s.zeta(zz, zl)], &[ours::parts_zeta(s.re, zz, zl)], &(s.re, zz, zl));
            c.take(&[s.scalh(alt, xm, temp)], &[ours::parts_scalh(s.gsurf, s.re, alt, xm, temp)], &(s.gsurf, s.re, alt, xm, temp));
        }
    }
    rows.extend([a, b, c]);
}

fn profiles(r: &mut Random, rows: &mut Vec<Row>, count: u64) {
    let (mut a, mut b) = (row("densm"), row("densu"));
    for i in 0..count {
        let o = i % 2 == 0;
        let s = ground(r, o);
        let (n3, n2) = (2 + r.index(9), 2 + r.index(9));
        let (l3, l2) = (n3 + r.index(2), n2 + r.index(2));
        let zn2 = r.nodes(o, false, l2, 32.5, 72.5);
        let zn3 = r.nodes(o, false, l3, 0.0, 32.5);
        let tn2: Vec<f64> = (0..l2).map(|_| r.number(o, 180.0, 300.0)).collect();
        let tn3: Vec<f64> = (0..l3).map(|_| r.number(o, 180.0, 300.0)).collect();
        let tgn2 = [r.number(o, -10.0, 10.0), r.number(o, -10.0, 10.0)];
        let tgn3 = [r.number(o, -10.0, 10.0), r.number(o, -10.0, 10.0)];
        let mut alt = r.number(o, 0.0, 80.0);
        if r.index(16) == 0 {
            alt = [zn2[0], zn3[0], zn2[n2 - 1]][r.index(3)];
        }
        let (d0, tz) = (r.number(o, 1e10, 1e15), r.number(o, 180.0, 300.0));
        let xm = if r.index(4) == 0 { 0.0 } else { r.number(o, 1.0, 40.0) };
        let mut theirs_tz = tz;
        let theirs = s.densm(alt, d0, xm, &mut theirs_tz, n3, &zn3, &tn3, &tgn3, n2, &zn2, &tn2, &tgn2);
        unsafe {
            let mut out = [0.0; 2];
            let code = ours::parts_densm(s.gsurf, s.re, alt, d0, xm, tz, n3, zn3.as_ptr(), l3, tn3.as_ptr(), l3, tgn3.as_ptr(), 2, n2, zn2.as_ptr(), l2, tn2.as_ptr(), l2, tgn2.as_ptr(), 2, out.as_mut_ptr(), 2);
            a.take(&[theirs, theirs_tz, 0.0], &[out[0], out[1], code as f64], &((s.gsurf, s.re, alt, d0, xm, tz), (n3, &zn3, &tn3, &tgn3), (n2, &zn2, &tn2, &tgn2)));
        }

        let n1 = 2 + r.index(4);
        let l1 = n1 + r.index(2);
        let zn1 = r.nodes(o, false, l1, 72.5, 130.0);
        let tn1: Vec<f64> = (0..l1).map(|_| r.number(o, 150.0, 500.0)).collect();
        let tgn1 = vec![r.number(o, -10.0, 10.0), r.number(o, -10.0, 10.0)];
        let mut alt = if r.index(2) == 0 { r.number(o, 60.0, 140.0) } else { r.number(o, 60.0, 2500.0) };
        if r.index(16) == 0 {
            alt = [zn1[0], zn1[n1 - 1], f64::NAN][r.index(3)];
        }
        let (dlb, tinf, tlb) = (r.number(o, 1e5, 1e12), r.number(o, 300.0, 2000.0), r.number(o, 200.0, 500.0));
        let xm = if r.index(4) == 0 { 0.0 } else { r.number(o, -28.0, 40.0) };
        let (alpha, zlb, s2) = (r.number(o, -1.0, 1.0), r.number(o, 110.0, 130.0), r.number(o, 0.005, 0.05));
        let (mut tn, mut tgn) = (tn1.clone(), tgn1.clone());
        let mut theirs_tz = tz;
        let mut theirs = vec![s.densu(alt, dlb, tinf, tlb, xm, alpha, &mut theirs_tz, zlb, s2, n1, &zn1, &mut tn, &mut tgn)];
        theirs.push(theirs_tz);
        theirs.extend(&tn);
        theirs.extend(&tgn);
        theirs.push(0.0);
        let (mut tn_a, mut tgn_a, mut out) = (tn1.clone(), tgn1.clone(), [0.0; 2]);
        unsafe {
            let code = ours::parts_densu(s.gsurf, s.re, alt, dlb, tinf, tlb, xm, alpha, tz, zlb, s2, n1, zn1.as_ptr(), l1, tn_a.as_mut_ptr(), l1, tgn_a.as_mut_ptr(), 2, out.as_mut_ptr(), 2);
            let mut all = out.to_vec();
            all.extend(&tn_a);
            all.extend(&tgn_a);
            all.push(code as f64);
            b.take(&theirs, &all, &((s.gsurf, s.re, alt, dlb, tinf, tlb, xm, alpha, tz, zlb, s2), (n1, &zn1, &tn1, &tgn1)));
        }
    }
    rows.extend([a, b]);
}

pub fn compare(seed: u64, count: u64) -> u64 {
    let mut r = Random(seed);
    let mut rows = Vec::new();
    mixing(&mut r, &mut rows, count);
    splines(&mut r, &mut rows, count);
    gravity(&mut r, &mut rows, count);
    profiles(&mut r, &mut rows, count);
    refusals(&mut r, &mut rows, count);
    println!("{:<8} {:>10} {:>10} {:>12}", "function", "cases", "NaN", "differences");
    for w in &rows {
        println!("{:<8} {:>10} {:>10} {:>12}", w.name, w.cases, w.nan, w.differences);
    }
    rows.iter().map(|w| w.differences).sum()
}
