//! The WDF's sections and architecture are const generics: this writes the table of the pairs compiled in.
//! No sections, one section of every nibble, and 33 drawn architectures for each of 2..8 sections.

use std::fmt::Write;

const KNOWN: [u32; 8] = [0x0, 0xa, 0xb, 0xe, 0x1, 0xc, 0xf, 0xd];

fn main() {
    let mut pairs = vec![(0, 0)];
    pairs.extend((0..16).map(|nibble| (1, nibble)));
    let mut state = 1u64;
    let mut draw = || {
        state = state.wrapping_mul(6364136223846793005).wrapping_add(1442695040888963407);
        (state >> 32) as u32
    };
    for sections in 2..=8 {
        for _ in 0..33 {
            // Seven in eight nibbles are known codes.
            let mut word = 0;
            for _ in 0..sections {
                let u = draw();
                let nibble = if u % 8 == 0 { u / 8 % 16 } else { KNOWN[(u / 8 % 8) as usize] };
                word = word << 4 | nibble;
            }
            pairs.push((sections, word));
        }
    }
    let mut text = format!("pub const PAIRS: [(u32, u32, Step); {}] = [\n", pairs.len());
    for (sections, word) in pairs {
        writeln!(text, "    ({sections}, {word:#x}, step::<{sections}, {word:#x}>),").unwrap();
    }
    text.push_str("];\n");
    let folder = std::env::var("OUT_DIR").unwrap();
    std::fs::write(format!("{folder}/pairs.rs"), text).unwrap();
    println!("cargo:rerun-if-changed=build.rs");
}
