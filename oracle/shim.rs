// Appended to a copy of atmosphere.rs: the private functions, and State as 79 numbers: 78 in the order of its fields, then 1 where dm28 was set and else 0,
// which the routed copy alone can say: `prepare` leaves the lines that end in `routed` out of the untouched one.
#[allow(dead_code, clippy::too_many_arguments)]
pub mod shim {
    use super::*;

    pub const STATE: usize = 79;

    fn pack(s: &State) -> [f64; STATE] {
        let mut out = [0.0; STATE];
        let mut at = 0;
        let mut put = |xs: &[f64]| {
            out[at..at + xs.len()].copy_from_slice(xs);
            at += xs.len();
        };
        put(&[s.gsurf, s.re, s.dd, s.dm04, s.dm16, s.dm28, s.dm32, s.dm40, s.dm01, s.dm14]);
        put(&s.meso_tn1);
        put(&s.meso_tn2);
        put(&s.meso_tn3);
        put(&s.meso_tgn1);
        put(&s.meso_tgn2);
        put(&s.meso_tgn3);
        put(&[s.dfa]);
        for row in &s.plg {
            put(row);
        }
        put(&[s.ctloc, s.stloc, s.c2tloc, s.s2tloc, s.s3tloc, s.c3tloc, s.apdf]);
        put(&s.apt);
        put(&[if s.dm28_set { 1.0 } else { 0.0 }]); // routed
        out
    }

    fn unpack(x: &[f64; STATE]) -> State {
        let mut s = State::new();
        let mut at = 0;
        let mut get = || {
            at += 1;
            x[at - 1]
        };
        s.gsurf = get();
        s.re = get();
        s.dd = get();
        s.dm04 = get();
        s.dm16 = get();
        s.dm28 = get();
        s.dm32 = get();
        s.dm40 = get();
        s.dm01 = get();
        s.dm14 = get();
        s.meso_tn1.iter_mut().for_each(|v| *v = get());
        s.meso_tn2.iter_mut().for_each(|v| *v = get());
        s.meso_tn3.iter_mut().for_each(|v| *v = get());
        s.meso_tgn1.iter_mut().for_each(|v| *v = get());
        s.meso_tgn2.iter_mut().for_each(|v| *v = get());
        s.meso_tgn3.iter_mut().for_each(|v| *v = get());
        s.dfa = get();
        s.plg.iter_mut().flatten().for_each(|v| *v = get());
        s.ctloc = get();
        s.stloc = get();
        s.c2tloc = get();
        s.s2tloc = get();
        s.s3tloc = get();
        s.c3tloc = get();
        s.apdf = get();
        s.apt.iter_mut().for_each(|v| *v = get());
        s.dm28_set = get() == 1.0; // routed
        s
    }

    pub fn ccor(alt: f64, r: f64, h1: f64, zh: f64) -> f64 {
        super::ccor(alt, r, h1, zh)
    }

    pub fn ccor2(alt: f64, r: f64, h1: f64, zh: f64, h2: f64) -> f64 {
        super::ccor2(alt, r, h1, zh, h2)
    }

    pub fn dnet(dd: f64, dm: f64, zhm: f64, xmm: f64, xm: f64) -> f64 {
        super::dnet(dd, dm, zhm, xmm, xm)
    }

    pub fn splini(xa: &[f64], ya: &[f64], y2a: &[f64], n: usize, x: f64) -> f64 {
        super::splini(xa, ya, y2a, n, x)
    }

    pub fn splint(xa: &[f64], ya: &[f64], y2a: &[f64], n: usize, x: f64) -> f64 {
        super::splint(xa, ya, y2a, n, x)
    }

    pub fn spline(x: &[f64], y: &[f64], n: usize, yp1: f64, ypn: f64, y2: &mut [f64]) {
        super::spline(x, y, n, yp1, ypn, y2)
    }

    pub fn glatf(lat: f64) -> (f64, f64) {
        let mut s = State::new();
        s.glatf(lat);
        (s.gsurf, s.re)
    }

    fn at(gsurf: f64, re: f64) -> State {
        let mut s = State::new();
        s.gsurf = gsurf;
        s.re = re;
        s
    }

    pub fn zeta(re: f64, zz: f64, zl: f64) -> f64 {
        at(0.0, re).zeta(zz, zl)
    }

    pub fn scalh(gsurf: f64, re: f64, alt: f64, xm: f64, temp: f64) -> f64 {
        at(gsurf, re).scalh(alt, xm, temp)
    }

    pub fn densm(
        gsurf: f64,
        re: f64,
        alt: f64,
        d0: f64,
        xm: f64,
        tz: &mut f64,
        mn3: usize,
        zn3: &[f64],
        tn3: &[f64],
        tgn3: &[f64],
        mn2: usize,
        zn2: &[f64],
        tn2: &[f64],
        tgn2: &[f64],
    ) -> f64 {
        at(gsurf, re).densm(alt, d0, xm, tz, mn3, zn3, tn3, tgn3, mn2, zn2, tn2, tgn2)
    }

    pub fn densu(
        gsurf: f64,
        re: f64,
        alt: f64,
        dlb: f64,
        tinf: f64,
        tlb: f64,
        xm: f64,
        alpha: f64,
        tz: &mut f64,
        zlb: f64,
        s2: f64,
        mn1: usize,
        zn1: &[f64],
        tn1: &mut [f64],
        tgn1: &mut [f64],
    ) -> f64 {
        at(gsurf, re).densu(alt, dlb, tinf, tlb, xm, alpha, tz, zlb, s2, mn1, zn1, tn1, tgn1)
    }

    pub fn globe7(state: &[f64; STATE], p: &[f64], input: &NrlmsiseInput, switches: [i32; 24]) -> (f64, [f64; STATE]) {
        let mut s = unpack(state);
        let value = s.globe7(p, input, &Flags::new(switches));
        (value, pack(&s))
    }

    pub fn glob7s(state: &[f64; STATE], p: &[f64], input: &NrlmsiseInput, switches: [i32; 24]) -> f64 {
        unpack(state).glob7s(p, input, &Flags::new(switches))
    }

    fn row(out: &NrlmsiseOutput) -> [f64; 11] {
        let mut row = [0.0; 11];
        row[..9].copy_from_slice(&out.d);
        row[9..].copy_from_slice(&out.t);
        row
    }

    // State::gtd7 from State::new, with no check before it.
    pub fn gtd7(input: &NrlmsiseInput, switches: [i32; 24]) -> ([f64; 11], [f64; STATE]) {
        let mut s = State::new();
        let mut out = NrlmsiseOutput::default();
        s.gtd7(input, &Flags::new(switches), &mut out);
        (row(&out), pack(&s))
    }

    // State::gtd7d from State::new, in the same way.
    pub fn gtd7d(input: &NrlmsiseInput, switches: [i32; 24]) -> [f64; 11] {
        let mut out = NrlmsiseOutput::default();
        State::new().gtd7d(input, &Flags::new(switches), &mut out);
        row(&out)
    }

    // The 25 coefficient sets: the eleven of globe7, then the fourteen of glob7s.
    pub fn sets() -> Vec<Vec<f64>> {
        use super::tables::*;
        let mut out = vec![PT.to_vec(), PS.to_vec()];
        out.extend(PD.iter().map(|r| r.to_vec()));
        out.extend(PTL.iter().map(|r| r.to_vec()));
        out.extend(PMA.iter().map(|r| r.to_vec()));
        out
    }
}
