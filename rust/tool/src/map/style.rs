//! Colours and letters, for light and dark.

pub const STYLE: &str = "\
text{font-family:system-ui,-apple-system,'Segoe UI',Roboto,'DejaVu Sans',sans-serif;font-size:13px;\
fill:#1f2933}
.name{font-size:22px;font-weight:600}
.head{font-size:14px;font-weight:600}
.faint,.tick,.row{fill:#616e7c}
.tick,.row{font-size:10.5px}
.mid{text-anchor:middle}
.big{font-size:26px;font-weight:600;text-anchor:middle}
.end{text-anchor:end}
.ground{fill:#ffffff}
.gap{stroke:#ffffff;stroke-width:1;fill:none}
.rule{stroke:#cbd2d9;fill:none}
.cell{stroke:#ffffff}
.header{fill:#52606d}
.area{fill:#f0c987}
.range{fill:#9cc5a9}
.empty{fill:#dde2e7}
.home{fill:#57a173}
.committed{fill:#e39a32}
.pot{fill:#5b86c5}
.potcommitted{fill:#a9501f}
.unnamed{fill:#f3dcb6}
.directory{fill:#8b6cc0}
.trailer{fill:#c33f66}
.free{fill:#e9edf1}
.next{fill:#1f2933}
@media (prefers-color-scheme:dark){
text{fill:#e6e9ed}
.faint,.tick,.row{fill:#9aa5b1}
.ground{fill:#14181d}
.gap,.cell{stroke:#14181d}
.rule{stroke:#3a4450}
.header{fill:#8895a3}
.area{fill:#8a6426}
.range{fill:#3b6b4c}
.empty{fill:#323b45}
.home{fill:#4fa372}
.committed{fill:#e8a648}
.pot{fill:#6596dd}
.potcommitted{fill:#c4652f}
.unnamed{fill:#6d5836}
.directory{fill:#a185dc}
.trailer{fill:#de5a82}
.free{fill:#232a32}
.next{fill:#e6e9ed}
}
";
