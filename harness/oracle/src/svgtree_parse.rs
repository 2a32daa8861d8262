// Stand-in for the crate's parser/svgtree/parse.rs (gen/parser/svgtree/parse.rs):
// builds the crate's own `Document` from plain tuples. As in the crate it is
// a child of svgtree and so reaches the private fields; svgtree/mod.rs keeps
// the module private, so the way in is an inherent function on `Document`.

use std::collections::HashMap;

use super::{AId, Attribute, Document, EId, NodeData, NodeId, NodeKind, ShortRange};

impl Document<'static> {
    /// Each tuple: place of the parent in this list (None: the root), tag
    /// (None: a text node), attributes with their values.
    #[allow(clippy::type_complexity)]
    pub(crate) fn of_plain(
        list: Vec<(Option<usize>, Option<EId>, Vec<(AId, String)>)>,
    ) -> Document<'static> {
        let mut doc = Document {
            nodes: vec![NodeData {
                parent: None,
                next_sibling: None,
                children: None,
                kind: NodeKind::Root,
            }],
            attrs: Vec::new(),
            links: HashMap::new(),
        };
        for (parent, tag, attrs) in list {
            let parent = NodeId::from(parent.map_or(0, |n| n + 1));
            let id = NodeId::from(doc.nodes.len());
            let kind = match tag {
                Some(tag_name) => {
                    let start = doc.attrs.len() as u32;
                    for (name, value) in attrs {
                        if name == AId::Id {
                            doc.links.insert(value.clone(), id);
                        }
                        doc.attrs.push(Attribute {
                            name,
                            value: roxmltree::StringStorage::new(value),
                            important: false,
                        });
                    }
                    NodeKind::Element {
                        tag_name,
                        attributes: ShortRange::new(start, doc.attrs.len() as u32),
                    }
                }
                None => NodeKind::Text(String::new()),
            };
            doc.nodes.push(NodeData {
                parent: Some(parent),
                next_sibling: None,
                children: None,
                kind,
            });
            let p = parent.get_usize();
            doc.nodes[p].children = Some(match doc.nodes[p].children {
                Some((first, last)) => {
                    doc.nodes[last.get_usize()].next_sibling = Some(id);
                    (first, id)
                }
                None => (id, id),
            });
        }
        doc
    }
}
