//! The structs, enums and unions of a file.
use syn::spanned::Spanned;
use syn::visit::{self, Visit};
use syn::{File, ItemEnum, ItemStruct, ItemUnion};

/// The source texts of all structs, enums and unions of the file at any depth, outside of macros.
pub fn item_texts(file: &File) -> Vec<String> {
    let mut items = Items { texts: Vec::new() };
    items.visit_file(file);
    items.texts
}

struct Items {
    texts: Vec<String>,
}

impl Items {
    fn push(&mut self, item: &impl Spanned) {
        self.texts.push(item.span().source_text().expect("the item stands in the file"));
    }
}

impl<'a> Visit<'a> for Items {
    fn visit_item_struct(&mut self, item: &'a ItemStruct) {
        self.push(item);
        visit::visit_item_struct(self, item);
    }

    fn visit_item_enum(&mut self, item: &'a ItemEnum) {
        self.push(item);
        visit::visit_item_enum(self, item);
    }

    fn visit_item_union(&mut self, item: &'a ItemUnion) {
        self.push(item);
        visit::visit_item_union(self, item);
    }
}
