//! How things look, on a light ground and, where the viewer asks for it, on a dark one.

/// Viewers that know nothing of dark grounds show the light picture, on its own ground. What belongs to a trail has the
/// colour of its group, or the picture's own.
pub const STYLE: &str = "\
svg{color:#0b5fbf;color-scheme:light dark;max-width:100%;height:auto}
text{font:12px sans-serif;fill:#1b1f24}
.name{font-size:17px;font-weight:bold}
.soft{fill:#57606a}
.ground{fill:#ffffff}
.frame{fill:none;stroke:#8c959f}
.grid{stroke:#e4e7eb}
.window{fill:#f2c200;fill-opacity:.2;stroke:#9a7700;stroke-opacity:.75}
.parts{opacity:.55}
.part{fill:none;stroke:#f2c200;stroke-width:10;stroke-linecap:round;stroke-linejoin:round}
.bands{opacity:.16}
.band{fill:none;stroke:currentColor;stroke-linecap:round;stroke-linejoin:round}
.within{fill:currentColor}
.trail{fill:none;stroke:currentColor;stroke-width:2;stroke-linejoin:round;stroke-linecap:round}
.original,.under{fill:none;stroke:#c05200;stroke-width:1.4;stroke-linejoin:round;stroke-dasharray:5 4}
.under{stroke-width:4}
.arrow{fill:currentColor}
.fix{fill:#ffffff;stroke:currentColor;stroke-width:1.4}
.start{fill:currentColor;stroke:#ffffff}
.end{fill:none;stroke:currentColor;stroke-width:2}
.silence{fill:none;stroke:#8250df;stroke-width:1.4}
.box{fill:#c4201d;fill-opacity:.1;stroke:#c4201d;stroke-width:1.5}
.near{fill:#1a7f37;fill-opacity:.1;stroke:#1a7f37;stroke-width:1.3}
.finder{stroke:#c4201d;stroke-width:1.5}
.point{stroke:#1a7f37;stroke-width:1.6}
.reach{stroke:#1a7f37;stroke-width:1.2;stroke-dasharray:4 3}
.first{fill:#c4201d;stroke:#ffffff}
.closest{fill:#1a7f37;stroke:#ffffff}
.c1{color:#c8500a}
.c2{color:#007a5e}
.c3{color:#b0408a}
.c4{color:#1f8fc4}
.c5{color:#9a6b00}
.c6{color:#4a525c}
.c7{color:#6f7d00}
.d1 .trail{stroke-dasharray:9 4}
.d2 .trail{stroke-dasharray:2 4}
.d3 .trail{stroke-dasharray:10 4 2 4}
.d4 .trail{stroke-dasharray:10 4 2 4 2 4}
@media (prefers-color-scheme:dark){
svg{color:#6cb2ff}
text{fill:#e6e9ee}
.soft{fill:#9aa5b1}
.ground{fill:#12161b}
.frame{stroke:#5b6570}
.grid{stroke:#262d35}
.window{fill:#ffd84d;fill-opacity:.13;stroke:#ffd84d;stroke-opacity:.6}
.parts{opacity:.36}
.part{stroke:#ffd84d}
.bands{opacity:.22}
.original,.under{stroke:#ffa657}
.fix{fill:#12161b}
.start{stroke:#12161b}
.silence{stroke:#c297ff}
.box{fill:#ff7b72;stroke:#ff7b72}
.near{fill:#57c26b;stroke:#57c26b}
.finder{stroke:#ff7b72}
.point{stroke:#57c26b}
.reach{stroke:#57c26b}
.first{fill:#ff7b72;stroke:#12161b}
.closest{fill:#57c26b;stroke:#12161b}
.c1{color:#ff9b5e}
.c2{color:#3fcf9f}
.c3{color:#f08fd0}
.c4{color:#5fd7f2}
.c5{color:#f0b429}
.c6{color:#c6ced6}
.c7{color:#c5cf4a}
}
";

/// How many colours trails have, the picture's own among them, and how many ways of dashing their lines.
const COLOURS: usize = 8;
const DASHES: usize = 5;

/// The classes of the trail of this number: other colours first, and then the same ones dashed.
pub fn of_trail(number: usize) -> String {
    let (colour, dash) = (number % COLOURS, number / COLOURS % DASHES);
    format!("c{colour} d{dash}")
}

#[cfg(test)]
mod tests {
    use super::{of_trail, COLOURS, DASHES, STYLE};

    /// Each colour is there for both grounds, and forty trails look different.
    #[test]
    fn trails_have_their_own_looks() {
        for colour in 1..COLOURS {
            assert_eq!(STYLE.matches(&format!("\n.c{colour}{{")).count(), 2);
        }
        for dash in 1..DASHES {
            assert_eq!(STYLE.matches(&format!("\n.d{dash} ")).count(), 1);
        }
        let mut all: Vec<String> = (0..COLOURS * DASHES).map(of_trail).collect();
        all.sort();
        all.dedup();
        assert_eq!(all.len(), 40);
        assert_eq!(of_trail(40), of_trail(0));
    }
}
