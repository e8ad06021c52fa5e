//! The sheet of a netlist that was joined from several calls claims nothing of it but what its own lines say.

use arraymap_cli::{
    cells,
    files::Source,
    graph::Graph,
    library::Library,
    message::Texts,
    netlist::{Netlist, Totals},
    sheet::Sheet,
};

const CELLS: &str = "cell pins table area d0 d1 d2 d3\ninv 1 0001 1 10 0 0 0\nnand2 2 0007 2 20 20 0 0\n";
const GRAPH: &str = "aag 3 2 0 1 1\n2\n4\n6\n6 2 4\n";
const NETLIST: &str = ".model top\n.inputs p1 p2\n.outputs o0\n.gate inv A=m3 O=p3\n.gate nand2 A=p1 B=p2 O=m3\n.names p3 o0\n1 1\n.end\n\
    # gates 2 area 3 arrival 30\n";

fn page(text: &str) -> String {
    let source = |name: &str, text: &str| Source { name: name.into(), text: text.into() };
    let (library, read) = Library::read(source("cells.txt", CELLS));
    read.expect("a cell text");
    let (graph, none) = (source("graph.aag", GRAPH), Source::none());
    let listed = cells::read(CELLS.as_bytes());
    let netlist = Netlist::read(text, &listed, b"").expect("a netlist");
    let read = Graph::read(GRAPH.as_bytes());
    let sheet = Sheet {
        version: "arraymap 1\n",
        pairs: false,
        totals: Totals { gates: 2, area: 3, arrival: 30 },
        text,
        netlist: &netlist,
        cells: &listed,
        graph: read.as_ref(),
        texts: &Texts { cells: &library, graph: &graph, arrivals: &none, netlist: &none },
    };
    sheet.html()
}

#[test]
fn a_joined_netlist_is_not_called_proved() {
    let claims = [
        "Mapped by the proved call of arraymap 1.",
        "No cover of the graph by these cells",
        "In every setting of the inputs",
    ];
    let whole = page(NETLIST);
    assert!(claims.iter().all(|claim| whole.contains(claim)));
    assert!(page(&format!("{NETLIST}# timing o0 20 30\n# cell inv is long A=a O=o\n")).contains(claims[1]));
    let joined = page(&format!("{NETLIST}# joined from 2 calls: 1 window\n# proved: each <call>\n# not proved: that no cover of the whole is earlier\n"));
    assert!(claims.iter().all(|claim| !joined.contains(claim)));
    assert!(joined.contains("Joined from proved calls by arraymap 1."));
    let (proved, not) = joined.split_once("<h3>Not proved</h3>").expect("both parts");
    assert!(proved.contains("<li>joined from 2 calls: 1 window</li>\n<li>proved: each &lt;call&gt;</li>"));
    assert!(not.contains("<li>not proved: that no cover of the whole is earlier</li>"));
}
