//! Headers to read: version 1, one unlimited dimension and up to eight fixed ones, variables of all types.

/// A header that is measured.
pub struct Sample {
    pub name: &'static str,
    pub bytes: Vec<u8>,
    pub variables: usize,
    pub attributes: usize,
    /// The most that reading it may take, beside netcdf3.
    pub most: f64,
}

/// Those that are measured, the largest first.
pub fn measured() -> [Sample; 4] {
    let sample = |name, dims, variables, own, most| Sample {
        name,
        bytes: header(dims, variables, own),
        variables,
        attributes: variables * own,
        most,
    };
    [
        sample("64 variables, 128 attributes", 9, 64, 2, 0.3),
        sample("10 variables, 20 attributes", 4, 10, 2, 0.7),
        sample("1 variable, 2 attributes", 1, 1, 2, 2.5),
        sample("1 variable", 1, 1, 0, 2.5),
    ]
}

fn word(out: &mut Vec<u8>, n: usize) {
    out.extend((n as u32).to_be_bytes());
}

fn padded(out: &mut Vec<u8>, bytes: &[u8]) {
    word(out, bytes.len());
    out.extend(bytes);
    out.resize((out.len() + 3) / 4 * 4, 0);
}

fn attrs(out: &mut Vec<u8>, n: usize) {
    word(out, if n == 0 { 0 } else { 12 });
    word(out, n);
    for k in 0..n {
        padded(out, ["units", "long_name", "comment"][k].as_bytes());
        word(out, 2);
        padded(out, b"degrees above the horizon");
    }
}

/// The header of a file with `vars` variables over up to three of `dims` dimensions, each with `own` attributes.
fn header(dims: usize, vars: usize, own: usize) -> Vec<u8> {
    let mut out = b"CDF\x01".to_vec();
    word(&mut out, 2);
    word(&mut out, 10);
    word(&mut out, dims);
    for k in 0..dims {
        padded(&mut out, format!("dim{k}").as_bytes());
        word(&mut out, 3 * k);
    }
    attrs(&mut out, 0);
    word(&mut out, 11);
    word(&mut out, vars);
    for v in 0..vars {
        padded(&mut out, format!("variable_{v}").as_bytes());
        let rank = dims.min(1 + v % 3);
        word(&mut out, rank);
        for k in 0..rank {
            word(&mut out, k);
        }
        attrs(&mut out, own);
        word(&mut out, 1 + v % 6);
        word(&mut out, 4);
        word(&mut out, 100_000 + 1000 * v);
    }
    out
}

/// A dimension list, no global attributes, and the start of the variable list.
fn before_vars(out: &mut Vec<u8>, count: usize, dims: &[(&str, usize)], vars: usize) {
    out.extend(b"CDF\x01");
    word(out, count);
    word(out, 10);
    word(out, dims.len());
    for (name, length) in dims {
        padded(out, name.as_bytes());
        word(out, *length);
    }
    attrs(out, 0);
    word(out, 11);
    word(out, vars);
}

fn var(out: &mut Vec<u8>, name: &str, ids: &[usize], code: usize, begin: usize) {
    padded(out, name.as_bytes());
    word(out, ids.len());
    for id in ids {
        word(out, *id);
    }
    attrs(out, 0);
    word(out, code);
    word(out, 4);
    word(out, begin);
}

/// The header of a file with one fixed variable of `values` values, which stand right after it.
pub fn one_fixed(code: usize, values: usize) -> Vec<u8> {
    let build = |begin| {
        let mut out = Vec::new();
        before_vars(&mut out, 0, &[("n", values)], 1);
        var(&mut out, "x", &[0], code, begin);
        out
    };
    build(build(0).len())
}

/// The header of a file with `count` records of two float variables, of `chunk` and of `other` values, which stand right after it.
pub fn two_records(count: usize, chunk: usize, other: usize) -> Vec<u8> {
    let build = |begin| {
        let mut out = Vec::new();
        before_vars(&mut out, count, &[("t", 0), ("n", chunk), ("m", other)], 2);
        var(&mut out, "x", &[0, 1], 5, begin);
        var(&mut out, "y", &[0, 2], 5, begin + 4 * chunk);
        out
    };
    build(build(0).len())
}

/// A file of full tables: 64 variables over 8 dimensions of length 2, whose values are the file's first bytes.
pub fn full_file() -> Vec<u8> {
    let names: Vec<String> = (0..32).map(|k| format!("d{k}")).collect();
    let dims: Vec<(&str, usize)> = names.iter().map(|n| (n.as_str(), 2)).collect();
    let mut out = Vec::new();
    before_vars(&mut out, 0, &dims, 64);
    for v in 0..64 {
        var(&mut out, &format!("variable_{v}"), &[v % 25, 1, 2, 3, 4, 5, 6, 7], 6, 0);
    }
    out.resize(out.len().max(8 << 8), 0);
    out
}
