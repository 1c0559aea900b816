//! Colours that people tell apart, also those who see few: eight for shapes and lengths,
//! five steps from far to near.

/// Shapes beyond the eighth begin again.
const COLOURS: usize = 8;

/// How near something is: five steps.
const STEPS: f64 = 5.0;

/// The classes of SVG pictures. Nothing is said of a font but its kind.
pub const STYLE: &str = "\
.paper{fill:#fff}text{font-family:sans-serif;fill:#222}.n{font-size:11px}\
.f0{fill:#0072b2}.f1{fill:#e69f00}.f2{fill:#009e73}.f3{fill:#cc79a7}\
.f4{fill:#56b4e9}.f5{fill:#d55e00}.f6{fill:#b8a800}.f7{fill:#777}\
.e0{stroke:#111}.e1{stroke:#003f63}.e2{stroke:#6d2f00}.e3{stroke:#00513b}\
.e4{stroke:#66304f}.e5{stroke:#555}.e6{stroke:#5c5400}.e7{stroke:#2a5a75}\
path{fill-rule:nonzero;stroke-linecap:round;stroke-linejoin:round}\
.d0{fill-opacity:.14;stroke-opacity:.3;stroke-width:.7}\
.d1{fill-opacity:.18;stroke-opacity:.42;stroke-width:.9}\
.d2{fill-opacity:.22;stroke-opacity:.58;stroke-width:1.1}\
.d3{fill-opacity:.27;stroke-opacity:.78;stroke-width:1.4}\
.d4{fill-opacity:.32;stroke-opacity:1;stroke-width:1.8}";

/// The class of a face of that shape.
pub fn face(shape: usize) -> String {
    format!("f{}", shape % COLOURS)
}

/// The class of an edge of that length.
pub fn edge(length: usize) -> String {
    format!("e{}", length % COLOURS)
}

/// The class of what is so near: from -1, far, to 1.
pub fn near(depth: f64) -> String {
    let step = ((depth + 1.0) / 2.0 * STEPS).floor();
    format!("d{}", step.clamp(0.0, STEPS - 1.0))
}
